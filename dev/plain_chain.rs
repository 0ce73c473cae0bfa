//! Chains of equations for `plain.rs`: the report of `explain` on certificates of format 1.
//!
//! Each line is a list of terms, the greatest word first, and the next one is a new list: the line less a step, merged. What
//! `explain` refuses is refused too, by other words.

use std::cmp::Ordering;
use std::fmt::Write;

use super::{at, check_length, judge, readable_certificates, Answer, Certificate, Ends, Letter, Polynomial, Problem, Row, Source, Word};

/// Terms, the greatest word first.
type Line = Vec<(i128, Word)>;

const LINE_LIMIT: usize = 20_000;
const LETTERS_OF_LINES: usize = 10_000_000;

pub(super) fn explain_all(problem: &Problem, text: &str) -> Answer<String> {
    let certificates = readable_certificates(problem, text)?;
    let generators: Vec<Line> = problem.assumptions.iter().map(sorted).collect();
    let mut report = String::new();
    for (block, certificate) in (1..).zip(&certificates) {
        let chain = judge(problem, certificate).and_then(|()| chain(problem, &generators, certificate));
        let (steps, lines) = chain.map_err(|fault| format!("block {block}: {fault}"))?;
        let (claim, denominator) = (certificate.claim, certificate.denominator);
        put(&mut report, format_args!("# block {block} explained claim {claim} denominator {denominator} steps {steps}\n"));
        put(&mut report, format_args!("chain 1\nclaim {claim}\ndenominator {denominator}\n{lines}end\n"));
    }
    Ok(report)
}

fn put(text: &mut String, more: std::fmt::Arguments) {
    text.write_fmt(more).expect("a string takes all");
}

/// The number of the steps, and the lines of text.
fn chain(problem: &Problem, generators: &[Line], certificate: &Certificate) -> Answer<(usize, String)> {
    let [share] = certificate.shares.as_slice() else {
        return Err("there are lemmas".to_string());
    };
    if certificate.has_lemmas {
        return Err("it is of format 2".to_string());
    }
    let ends = problem.claim_ends[certificate.claim - 1];
    let mut line = multiple(certificate.denominator, &sorted(at(&problem.claims, certificate.claim)?), &[], &[])?;
    let (mut steps, mut letters, mut text) = (0, letters_in(&line), String::new());
    put_line(&mut text, problem, &line);
    for row in &share.rows {
        let Some(generator) = step_generator(problem, generators, row, ends) else {
            continue;
        };
        check_length(row.left.len() + generator[0].1.len() + row.right.len())?;
        line = merged(&line, &multiple(-row.coefficient, generator, &row.left, &row.right)?)?;
        letters += letters_in(&line);
        if line.len() > LINE_LIMIT || letters > LETTERS_OF_LINES {
            return Err("a line is too long, or the lines so far are".to_string());
        }
        steps += 1;
        put_use(&mut text, problem, row);
        put_line(&mut text, problem, &line);
    }
    Ok((steps, text))
}

// ---- Lines

fn sorted(polynomial: &Polynomial) -> Line {
    let mut terms: Line = polynomial.iter().map(|(word, coefficient)| (*coefficient, word.clone())).collect();
    terms.sort_unstable_by(|left, right| compared(&right.1, &left.1));
    terms
}

fn compared(left: &[Letter], right: &[Letter]) -> Ordering {
    left.len().cmp(&right.len()).then_with(|| left.cmp(right))
}

fn letters_in(line: &Line) -> usize {
    line.iter().map(|(_, word)| word.len()).sum()
}

/// A multiple of a line between two words.
fn multiple(factor: i128, line: &Line, left: &[Letter], right: &[Letter]) -> Answer<Line> {
    let term = |(coefficient, middle): &(i128, Word)| {
        let product = coefficient.checked_mul(factor).filter(in_range).ok_or("a product is too large")?;
        Ok((product, [left, middle, right].concat().into_boxed_slice()))
    };
    line.iter().map(term).collect()
}

fn in_range(number: &i128) -> bool {
    *number != i128::MIN
}

fn merged(left: &Line, right: &Line) -> Answer<Line> {
    let mut sum = Vec::with_capacity(left.len() + right.len());
    let (mut lefts, mut rights) = (left.iter().peekable(), right.iter().peekable());
    loop {
        let order = match (lefts.peek(), rights.peek()) {
            (Some(one), Some(other)) => compared(&one.1, &other.1),
            (Some(_), None) => Ordering::Greater,
            (None, Some(_)) => Ordering::Less,
            (None, None) => return Ok(sum),
        };
        match order {
            Ordering::Greater => sum.extend(lefts.next().cloned()),
            Ordering::Less => sum.extend(rights.next().cloned()),
            Ordering::Equal => {
                if let (Some(one), Some(other)) = (lefts.next(), rights.next()) {
                    let total = one.0.checked_add(other.0).filter(in_range).ok_or("a sum is too large")?;
                    sum.extend((total != 0).then(|| (total, one.1.clone())));
                }
            }
        }
    }
}

// ---- Steps

/// The generator of a row that is a step.
fn step_generator<'a>(problem: &Problem, generators: &'a [Line], row: &Row, ends: Ends) -> Option<&'a Line> {
    let Source::Generator(number) = row.source else {
        return None;
    };
    let generator = generators.get(number.checked_sub(1)?)?;
    let (_, word) = generator.first()?;
    let mut target = ends.1;
    for letter in row.left.iter().chain(word.iter()).chain(row.right.iter()) {
        let letter_ends = problem.ends[*letter as usize];
        if letter_ends.1 != target {
            return None;
        }
        target = letter_ends.0;
    }
    (row.coefficient != 0 && target == ends.0).then_some(generator)
}

// ---- Text

fn put_word(text: &mut String, problem: &Problem, word: &[Letter]) {
    for (place, letter) in word.iter().enumerate() {
        if place > 0 {
            text.push(' ');
        }
        text.push_str(&problem.names[*letter as usize]);
    }
}

fn put_line(text: &mut String, problem: &Problem, line: &Line) {
    text.push_str("line ");
    if line.is_empty() {
        text.push('0');
    }
    for (place, (coefficient, word)) in line.iter().enumerate() {
        text.push_str(match (place, *coefficient < 0) {
            (0, false) => "",
            (0, true) => "- ",
            (_, false) => " + ",
            (_, true) => " - ",
        });
        if coefficient.unsigned_abs() != 1 {
            put(text, format_args!("{} ", coefficient.unsigned_abs()));
        }
        put_word(text, problem, word);
    }
    text.push('\n');
}

fn put_use(text: &mut String, problem: &Problem, row: &Row) {
    let Source::Generator(number) = row.source else {
        return;
    };
    put(text, format_args!("use {} (", row.coefficient));
    put_word(text, problem, &row.left);
    put(text, format_args!(") {number} ("));
    put_word(text, problem, &row.right);
    text.push_str(")\n");
}
