//! A plain program to measure `opprove` by: hash maps, and no proofs.
//!
//! `plain STATEMENT` multiplies out and prints how many terms each claim has; `plain STATEMENT EVIDENCE` adds up the
//! certificates of both formats, over statements without adjoints, and says of each whether it gives its claim;
//! `plain explain STATEMENT EVIDENCE` prints the chains of those in format 1 (`plain_chain.rs`),
//! `plain confirm STATEMENT BASIS` says of bases that they are closed (`plain_confirm.rs`), and
//! `plain cancel STATEMENT PROOF` that proofs are accepted which take letters off (`plain_cancel.rs`). It reads
//! `object`, `map`, `assume` and `claim` with sums, products, brackets, integers and adjoints, and in language 2 powers and
//! `eliminate`, which changes nothing but for bases; it looks neither at the types of equations nor at all that a faulty file may hold.
//! `rustc -O dev/plain.rs` builds it; `measure.py` runs it.

mod plain_cancel;
mod plain_chain;
mod plain_confirm;
mod plain_sums;

use std::collections::hash_map::Entry;
use std::collections::HashMap;
use std::{env, fs, process::ExitCode, str};

type Letter = u16;
type Word = Box<[Letter]>;
/// Words with their coefficients, none of which is 0.
type Polynomial = HashMap<Word, i128>;
type Answer<T> = Result<T, String>;

const TERM_LIMIT: usize = 20_000;
const LETTER_LIMIT: usize = 500;
const DEPTH_LIMIT: usize = 64;
const EXPONENT_LIMIT: i128 = 500;
const SUM_LIMIT: usize = 200_000;

fn main() -> ExitCode {
    let paths: Vec<String> = env::args().skip(1).collect();
    let (text, status) = match report(&paths) {
        Ok(lines) => (lines, 0),
        Err(fault) => (format!("refused: {fault}\n"), 7),
    };
    print!("{text}");
    ExitCode::from(status)
}

fn report(paths: &[String]) -> Answer<String> {
    match paths {
        [statement] => Ok(claim_sizes(&read_statement(&load(statement)?)?)),
        [statement, evidence] => {
            let problem = read_statement(&load(statement)?)?;
            judge_all(&problem, &load(evidence)?)
        }
        [word, statement, evidence] if word == "explain" => {
            let problem = read_statement(&load(statement)?)?;
            plain_chain::explain_all(&problem, &load(evidence)?)
        }
        [word, statement, basis] if word == "confirm" => {
            let problem = read_statement(&load(statement)?)?;
            plain_confirm::confirm_all(&problem, &load(basis)?)
        }
        [word, statement, proof] if word == "cancel" => {
            let problem = read_statement(&load(statement)?)?;
            plain_cancel::cancel_all(&problem, &load(proof)?)
        }
        _ => Err("usage: plain [explain | confirm | cancel] STATEMENT [EVIDENCE]".to_string()),
    }
}

fn load(path: &str) -> Answer<String> {
    fs::read_to_string(path).map_err(|fault| format!("{path}: {fault}"))
}

fn claim_sizes(problem: &Problem) -> String {
    let numbered = (1..).zip(&problem.claims);
    numbered.map(|(number, claim)| format!("claim {number} terms {}\n", claim.len())).collect()
}

// ---- Polynomials

/// Adds to the coefficient of a word, and takes the word out where that becomes zero.
fn add_term(total: &mut Polynomial, word: Word, coefficient: i128) -> Answer<()> {
    match total.entry(word) {
        Entry::Vacant(place) => {
            place.insert(coefficient);
        }
        Entry::Occupied(mut place) => match place.get().checked_add(coefficient) {
            None => return Err("a sum is too large".to_string()),
            Some(0) => {
                place.remove();
            }
            Some(sum) => *place.get_mut() = sum,
        },
    }
    Ok(())
}

/// Adds a multiple of a polynomial with a word on each side.
fn add_multiple(
    total: &mut Polynomial,
    factor: i128,
    left: &[Letter],
    polynomial: &Polynomial,
    right: &[Letter],
) -> Answer<()> {
    if factor == 0 {
        return Ok(());
    }
    for (middle, coefficient) in polynomial {
        let multiple = coefficient.checked_mul(factor).ok_or("a product is too large")?;
        add_term(total, [left, middle, right].concat().into_boxed_slice(), multiple)?;
    }
    Ok(())
}

/// The product of two polynomials with a word between them.
fn product(left: &Polynomial, between: &[Letter], right: &Polynomial) -> Answer<Polynomial> {
    let mut total = Polynomial::new();
    for (word, coefficient) in left {
        let front = [word, between].concat();
        add_multiple(&mut total, *coefficient, &front, right, &[])?;
        check_size(&total)?;
    }
    Ok(total)
}

fn check_size(polynomial: &Polynomial) -> Answer<()> {
    if polynomial.len() > TERM_LIMIT {
        return Err(format!("a polynomial has more than {TERM_LIMIT} terms"));
    }
    Ok(())
}

fn check_length(length: usize) -> Answer<()> {
    if length > LETTER_LIMIT {
        return Err(format!("a word has more than {LETTER_LIMIT} letters"));
    }
    Ok(())
}

/// The product of so many times the polynomial: of one term at once, and else from the left.
fn power(base: Polynomial, exponent: usize) -> Answer<Polynomial> {
    if exponent == 1 || base.is_empty() {
        return Ok(base);
    }
    if base.len() == 1 {
        return base.iter().map(|(word, coefficient)| term_power(word, *coefficient, exponent)).collect();
    }
    let mut total = product(&base, &[], &base)?;
    for _ in 2..exponent {
        check_length(total.keys().map(|word| word.len()).max().unwrap_or(0))?;
        total = product(&total, &[], &base)?;
    }
    Ok(total)
}

fn term_power(word: &[Letter], coefficient: i128, exponent: usize) -> Answer<(Word, i128)> {
    check_length(word.len() * exponent)?;
    let number = coefficient.checked_pow(exponent as u32).ok_or("a product is too large")?;
    Ok((word.repeat(exponent).into_boxed_slice(), number))
}

// ---- Statements

/// What a statement says.
#[derive(Default)]
struct Problem {
    /// The letter of each map, and of its adjoint with `'` behind the name.
    letters: HashMap<String, Letter>,
    /// The adjoint of each letter.
    adjoints: Vec<Letter>,
    /// How each letter is written.
    names: Vec<String>,
    /// The source and the target of each letter.
    ends: Vec<Ends>,
    /// A number for each object.
    objects: HashMap<String, u16>,
    is_starred: bool,
    /// Whether words are compared otherwise than by degrees.
    has_order: bool,
    assumptions: Vec<Polynomial>,
    claims: Vec<Polynomial>,
    claim_ends: Vec<Ends>,
}

/// A source and a target.
type Ends = (u16, u16);

impl Problem {
    /// Numbers the maps of a line `map NAME .. : NAME -> NAME [self]`, each with its adjoint behind it.
    fn declare(&mut self, line: &str) -> Answer<()> {
        let (names, behind) = line.split_once(':').ok_or("a map has no ends")?;
        let (source, rest) = behind.split_once("->").ok_or("a map has no target")?;
        let (target, word) = first_word(rest).ok_or("a map has no target")?;
        let is_self = word.trim() == "self";
        let ends = (self.object(source.trim()), self.object(target));
        self.is_starred |= is_self;
        for name in names.split_whitespace() {
            let letter = self.adjoints.len() as Letter;
            let adjoint = if is_self { letter } else { letter + 1 };
            self.adjoints.extend(if is_self { vec![letter] } else { vec![adjoint, letter] });
            self.letters.insert(name.to_string(), letter);
            self.letters.insert(format!("{name}'"), adjoint);
            self.names.push(name.to_string());
            self.ends.push(ends);
            if !is_self {
                self.names.push(format!("{name}'"));
                self.ends.push((ends.1, ends.0));
            }
        }
        Ok(())
    }

    /// The number of an object, which it gets where it is first named.
    fn object(&mut self, name: &str) -> u16 {
        let number = self.objects.len() as u16;
        *self.objects.entry(name.to_string()).or_insert(number)
    }

    fn letter(&self, name: &str) -> Answer<Letter> {
        self.letters.get(name).copied().ok_or_else(|| format!("{name} is no letter"))
    }

    fn adjoint_word(&self, word: &[Letter]) -> Word {
        word.iter().rev().map(|letter| self.adjoints[*letter as usize]).collect()
    }

    fn adjoint(&self, polynomial: &Polynomial) -> Polynomial {
        polynomial.iter().map(|(word, coefficient)| (self.adjoint_word(word), *coefficient)).collect()
    }
}

/// Reads the whole file before anything is multiplied out, since what is wrong with the text comes first.
fn read_statement(text: &str) -> Answer<Problem> {
    let mut problem = Problem::default();
    let mut equations = Vec::new();
    let mut lines = text.lines().filter_map(first_word).peekable();
    let has_powers = lines.next_if(is_second).is_some();
    for (word, rest) in lines {
        match word {
            "object" => {}
            "map" => problem.declare(rest)?,
            "assume" | "claim" => equations.push((word, Equation::read(rest, has_powers)?)),
            "eliminate" if has_powers => problem.has_order = true,
            _ => return Err(format!("the statement {word} is not read")),
        }
    }
    for (word, equation) in equations {
        let polynomial = problem.difference(&equation)?;
        problem.is_starred |= equation.has_marks;
        if word == "assume" {
            problem.assumptions.push(polynomial);
        } else {
            problem.claim_ends.push(problem.equation_ends(&equation).unwrap_or_default());
            problem.claims.push(polynomial);
        }
    }
    Ok(problem)
}

/// The first word of a line and what stands behind it, where that is no comment.
fn first_word(line: &str) -> Option<(&str, &str)> {
    let text = line.split('#').next()?.trim();
    let end = text.find(char::is_whitespace).unwrap_or(text.len());
    (end > 0).then(|| text.split_at(end))
}

/// Whether this is the line that makes its file one of language 2, where it is the first one.
fn is_second(line: &(&str, &str)) -> bool {
    let (word, number) = (line.0, line.1.trim());
    word == "language" && number.trim_start_matches('0') == "2"
}

// ---- Expressions

struct Equation<'a> {
    left: Sum<'a>,
    right: Sum<'a>,
    has_marks: bool,
}

type Sum<'a> = Vec<Term<'a>>;

struct Term<'a> {
    /// The literal with the sign in front of the term.
    coefficient: i128,
    factors: Vec<Factor<'a>>,
}

struct Factor<'a> {
    primary: Primary<'a>,
    is_adjoint: bool,
}

enum Primary<'a> {
    Letter(&'a str),
    Bracket(Sum<'a>),
    Raised(Box<Raised<'a>>),
}

/// A factor to a power, and to the next one, and so on.
struct Raised<'a> {
    base: Factor<'a>,
    powers: Vec<Power>,
}

struct Power {
    exponent: usize,
    /// Whether an odd number of marks stands between it and the next one.
    is_adjoint: bool,
}

impl<'a> Equation<'a> {
    fn read(text: &'a str, has_powers: bool) -> Answer<Equation<'a>> {
        let mut reader = Reader { rest: text.as_bytes(), depth: 0, has_marks: false, has_powers };
        let left = reader.sum()?;
        reader.expect(b'=')?;
        let right = reader.sum()?;
        if !reader.rest.is_empty() {
            return Err("an equation goes on behind its end".to_string());
        }
        Ok(Equation { left, right, has_marks: reader.has_marks })
    }
}

/// What is left of an equation.
struct Reader<'a> {
    rest: &'a [u8],
    depth: usize,
    has_marks: bool,
    has_powers: bool,
}

impl<'a> Reader<'a> {
    /// The next character that isn't blank, or 0 at the end.
    fn peek(&mut self) -> u8 {
        self.rest = self.rest.trim_ascii_start();
        self.rest.first().copied().unwrap_or(0)
    }

    fn takes(&mut self, sign: u8) -> bool {
        let is_there = self.peek() == sign;
        self.rest = &self.rest[is_there as usize..];
        is_there
    }

    fn expect(&mut self, sign: u8) -> Answer<()> {
        self.takes(sign).then_some(()).ok_or_else(|| format!("no {} where it should be", sign as char))
    }

    /// The longest run of such bytes.
    fn run(&mut self, fits: fn(u8) -> bool) -> Answer<&'a str> {
        let end = self.rest.iter().position(|byte| !fits(*byte)).unwrap_or(self.rest.len());
        let (run, rest) = self.rest.split_at(end);
        self.rest = rest;
        str::from_utf8(run).map_err(|fault| fault.to_string())
    }

    fn sign(&mut self) -> Option<i128> {
        if self.takes(b'-') {
            return Some(-1);
        }
        self.takes(b'+').then_some(1)
    }

    fn sum(&mut self) -> Answer<Sum<'a>> {
        let mut terms = Vec::new();
        let mut sign = self.sign().unwrap_or(1);
        loop {
            terms.push(self.term(sign)?);
            match self.sign() {
                Some(next) => sign = next,
                None => return Ok(terms),
            }
        }
    }

    fn term(&mut self, sign: i128) -> Answer<Term<'a>> {
        let literal = self.literal()?;
        let mut factors = Vec::new();
        while let Some(primary) = self.primary()? {
            let base = Factor { primary, is_adjoint: self.is_adjoint() };
            factors.push(self.raised(base)?);
        }
        if factors.is_empty() && literal != Some(0) {
            return Err("a term has no factor".to_string());
        }
        Ok(Term { coefficient: sign * literal.unwrap_or(1), factors })
    }

    fn literal(&mut self) -> Answer<Option<i128>> {
        if !self.peek().is_ascii_digit() {
            return Ok(None);
        }
        number(self.run(|byte| byte.is_ascii_digit())?).map(Some)
    }

    fn primary(&mut self) -> Answer<Option<Primary<'a>>> {
        if self.takes(b'(') {
            return self.bracket().map(|sum| Some(Primary::Bracket(sum)));
        }
        if !is_name(self.peek()) {
            return Ok(None);
        }
        self.run(is_name).map(|name| Some(Primary::Letter(name)))
    }

    fn bracket(&mut self) -> Answer<Sum<'a>> {
        self.depth += 1;
        if self.depth > DEPTH_LIMIT {
            return Err("too many brackets".to_string());
        }
        let sum = self.sum()?;
        self.expect(b')')?;
        self.depth -= 1;
        Ok(sum)
    }

    /// The factor with the powers behind it. An exponent of 1 does nothing.
    fn raised(&mut self, mut base: Factor<'a>) -> Answer<Factor<'a>> {
        let mut powers: Vec<Power> = Vec::new();
        while self.has_powers && self.takes(b'^') {
            let exponent = self.exponent()?;
            let is_adjoint = self.is_adjoint();
            match powers.last_mut() {
                _ if exponent > 1 => powers.push(Power { exponent, is_adjoint }),
                Some(last) => last.is_adjoint ^= is_adjoint,
                None => base.is_adjoint ^= is_adjoint,
            }
        }
        if powers.is_empty() {
            return Ok(base);
        }
        powers.shrink_to_fit();
        Ok(Factor { primary: Primary::Raised(Box::new(Raised { base, powers })), is_adjoint: false })
    }

    fn exponent(&mut self) -> Answer<usize> {
        let exponent = self.literal()?.filter(|number| (1..=EXPONENT_LIMIT).contains(number));
        exponent.map(|number| number as usize).ok_or_else(|| "an exponent is wrong".to_string())
    }

    /// Whether an odd number of marks stands here.
    fn is_adjoint(&mut self) -> bool {
        let mut is_odd = false;
        while self.takes(b'\'') {
            is_odd = !is_odd;
            self.has_marks = true;
        }
        is_odd
    }
}

impl Problem {
    fn difference(&self, equation: &Equation) -> Answer<Polynomial> {
        let mut left = self.sum(&equation.left)?;
        let right = self.sum(&equation.right)?;
        add_multiple(&mut left, -1, &[], &right, &[])?;
        check_size(&left)?;
        Ok(left)
    }

    fn sum(&self, terms: &[Term]) -> Answer<Polynomial> {
        let mut total = Polynomial::new();
        for term in terms {
            self.add_product(&mut total, term)?;
            check_size(&total)?;
        }
        Ok(total)
    }

    /// Adds a term. Letters beside each other are one word, by which the brackets are multiplied.
    fn add_product(&self, total: &mut Polynomial, term: &Term) -> Answer<()> {
        let (mut front, mut word) = (None, Vec::new());
        for factor in &term.factors {
            match &factor.primary {
                Primary::Letter(name) => word.push(self.marked_letter(name, factor.is_adjoint)?),
                _ => {
                    let bracket = self.factor(factor)?;
                    front = Some(match front {
                        None if word.is_empty() => bracket,
                        left => product(&left.unwrap_or_else(unit), &word, &bracket)?,
                    });
                    word.clear();
                }
            }
        }
        match front {
            _ if term.coefficient == 0 => Ok(()),
            None => add_term(total, word.into_boxed_slice(), term.coefficient),
            Some(front) if total.is_empty() && word.is_empty() && term.coefficient == 1 => {
                *total = front;
                Ok(())
            }
            Some(front) => add_multiple(total, term.coefficient, &[], &front, &word),
        }
    }

    fn marked_letter(&self, name: &str, is_adjoint: bool) -> Answer<Letter> {
        let letter = self.letter(name)?;
        Ok(if is_adjoint { self.adjoints[letter as usize] } else { letter })
    }

    fn factor(&self, factor: &Factor) -> Answer<Polynomial> {
        let inner = match &factor.primary {
            Primary::Letter(name) => Polynomial::from([(Box::from([self.letter(name)?]), 1)]),
            Primary::Bracket(sum) => self.sum(sum)?,
            Primary::Raised(raised) => self.raised(raised)?,
        };
        Ok(if factor.is_adjoint { self.adjoint(&inner) } else { inner })
    }

    fn raised(&self, raised: &Raised) -> Answer<Polynomial> {
        let mut value = self.factor(&raised.base)?;
        for step in &raised.powers {
            value = power(value, step.exponent)?;
            if step.is_adjoint && !value.is_empty() {
                value = self.adjoint(&value);
            }
        }
        Ok(value)
    }
}

// ---- The ends of equations, of which one factor that isn't 0 alone says them

impl Problem {
    fn equation_ends(&self, equation: &Equation) -> Option<Ends> {
        self.sum_ends(&equation.left).or_else(|| self.sum_ends(&equation.right))
    }

    fn sum_ends(&self, terms: &[Term]) -> Option<Ends> {
        terms.iter().find_map(|term| self.term_ends(term))
    }

    fn term_ends(&self, term: &Term) -> Option<Ends> {
        let (target, source) = (self.factor_ends(term.factors.first()?)?.1, self.factor_ends(term.factors.last()?)?.0);
        Some((source, target))
    }

    fn factor_ends(&self, factor: &Factor) -> Option<Ends> {
        let (source, target) = match &factor.primary {
            Primary::Letter(name) => self.ends[*self.letters.get(*name)? as usize],
            Primary::Bracket(sum) => self.sum_ends(sum)?,
            Primary::Raised(raised) => self.factor_ends(&raised.base)?,
        };
        Some(if factor.is_adjoint { (target, source) } else { (source, target) })
    }
}

fn is_name(byte: u8) -> bool {
    byte.is_ascii_alphanumeric() || byte == b'_' || !byte.is_ascii()
}

/// The polynomial of the empty word.
fn unit() -> Polynomial {
    Polynomial::from([(Word::default(), 1)])
}

fn number<T: str::FromStr>(text: &str) -> Answer<T> {
    text.trim().parse().map_err(|_| "a number is wrong".to_string())
}

// ---- Evidence

/// What a row multiplies, by its place among the generators or the lemmas, counted from 1.
enum Source {
    Generator(usize),
    Lemma(usize),
}

struct Row {
    coefficient: i128,
    left: Word,
    source: Source,
    right: Word,
}

/// Rows that add up to the scale times a lemma or the claim.
struct Share {
    scale: i128,
    rows: Vec<Row>,
}

impl Share {
    fn new(scale: i128) -> Share {
        Share { scale, rows: Vec::new() }
    }
}

/// The last share is that of the goal.
struct Certificate {
    has_lemmas: bool,
    claim: usize,
    denominator: i128,
    shares: Vec<Share>,
}

fn read_certificates(problem: &Problem, text: &str) -> Answer<Vec<Certificate>> {
    let mut certificates = Vec::new();
    let mut lines = lines_of(text);
    while let Some(head) = lines.next() {
        let has_lemmas = match head {
            "certificate 1" => false,
            "certificate 2" => true,
            _ => return Err("no certificate where one should begin".to_string()),
        };
        certificates.push(read_certificate(problem, has_lemmas, &mut lines)?);
    }
    Ok(certificates)
}

/// The lines of evidence that aren't skipped.
fn lines_of(text: &str) -> impl Iterator<Item = &str> {
    text.lines().map(str::trim).filter(|line| !line.is_empty() && !line.starts_with('#'))
}

fn read_certificate<'a>(
    problem: &Problem,
    has_lemmas: bool,
    lines: &mut impl Iterator<Item = &'a str>,
) -> Answer<Certificate> {
    let claim = number_behind("claim ", lines.next())?;
    let denominator = number_behind("denominator ", lines.next())?;
    let mut shares = Vec::new();
    if !has_lemmas {
        shares.push(Share::new(denominator));
    }
    for line in lines {
        if let Some(rest) = line.strip_prefix("row ") {
            let share = shares.last_mut().ok_or("a row before the first lemma")?;
            share.rows.push(read_row(problem, rest)?);
        } else if line == "end" {
            return Ok(Certificate { has_lemmas, claim, denominator, shares });
        } else {
            shares.push(Share::new(read_scale(line)?));
        }
    }
    Err("a certificate has no end".to_string())
}

fn number_behind<T: str::FromStr>(word: &str, line: Option<&str>) -> Answer<T> {
    let digits = line.and_then(|line| line.strip_prefix(word));
    number(digits.ok_or_else(|| format!("no {word}where it should be"))?)
}

/// The scale of a line `lemma K scale S` or `goal scale S`.
fn read_scale(line: &str) -> Answer<i128> {
    let (_, scale) = line.split_once(" scale ").ok_or("a line is wrong")?;
    number(scale)
}

/// A row `C (LETTERS) G (LETTERS)`, or with `lemma K` for `G`.
fn read_row(problem: &Problem, text: &str) -> Answer<Row> {
    let parts = || {
        let (coefficient, rest) = text.split_once('(')?;
        let (left, rest) = rest.split_once(')')?;
        let (source, rest) = rest.split_once('(')?;
        let (right, behind) = rest.split_once(')')?;
        behind.is_empty().then_some((coefficient, left, source.trim(), right))
    };
    let (coefficient, left, source, right) = parts().ok_or("a row is wrong")?;
    Ok(Row {
        coefficient: number(coefficient)?,
        left: read_word(problem, left)?,
        source: match source.strip_prefix("lemma ") {
            Some(lemma) => Source::Lemma(number(lemma)?),
            None => Source::Generator(number(source)?),
        },
        right: read_word(problem, right)?,
    })
}

/// A word, of which every name is judged before its length is.
fn read_word(problem: &Problem, text: &str) -> Answer<Word> {
    let names = text.split_ascii_whitespace();
    let word: Vec<Letter> = names.map(|name| problem.letter(name)).collect::<Answer<_>>()?;
    if word.len() > LETTER_LIMIT {
        return Err(format!("a word has more than {LETTER_LIMIT} letters"));
    }
    Ok(word.into_boxed_slice())
}

/// The certificates of a text over a statement whose generators are its assumptions.
fn readable_certificates(problem: &Problem, text: &str) -> Answer<Vec<Certificate>> {
    unstarred(problem)?;
    read_certificates(problem, text)
}

fn unstarred(problem: &Problem) -> Answer<()> {
    if problem.is_starred {
        return Err("adjoints of assumptions are generators too, which are not made".to_string());
    }
    Ok(())
}

fn judge_all(problem: &Problem, text: &str) -> Answer<String> {
    let certificates = readable_certificates(problem, text)?;
    let mut lines = String::new();
    for (block, certificate) in (1..).zip(&certificates) {
        judge(problem, certificate).map_err(|fault| format!("block {block}: {fault}"))?;
        lines += &format!("block {block} accepted\n");
    }
    Ok(lines)
}

fn judge(problem: &Problem, certificate: &Certificate) -> Answer<()> {
    let claim = at(&problem.claims, certificate.claim)?;
    let Some((goal, shares)) = certificate.shares.split_last() else {
        return Err("there is no goal".to_string());
    };
    let mut scales = certificate.shares.iter().map(|share| share.scale);
    if scales.any(|scale| scale < 1 || certificate.denominator % scale != 0) {
        return Err("a scale does not divide the denominator".to_string());
    }
    let mut lemmas = Vec::new();
    for share in shares {
        let lemma = divided(sum_of_rows(&problem.assumptions, &lemmas, share)?, share.scale)?;
        lemmas.push(lemma);
    }
    let mut sum = sum_of_rows(&problem.assumptions, &lemmas, goal)?;
    add_multiple(&mut sum, -goal.scale, &[], claim, &[])?;
    sum.is_empty().then_some(()).ok_or_else(|| format!("{} words differ", sum.len()))
}

fn sum_of_rows(generators: &[Polynomial], lemmas: &[Polynomial], share: &Share) -> Answer<Polynomial> {
    let mut sum = Polynomial::new();
    for row in &share.rows {
        let polynomial = match row.source {
            Source::Generator(number) => at(generators, number)?,
            Source::Lemma(number) => at(lemmas, number)?,
        };
        add_multiple(&mut sum, row.coefficient, &row.left, polynomial, &row.right)?;
        if sum.len() > SUM_LIMIT {
            return Err(format!("more than {SUM_LIMIT} terms"));
        }
    }
    Ok(sum)
}

/// The polynomial with this number, counted from 1.
fn at(polynomials: &[Polynomial], number: usize) -> Answer<&Polynomial> {
    let place = number.checked_sub(1).and_then(|index| polynomials.get(index));
    place.ok_or_else(|| format!("there is no number {number}"))
}

fn divided(mut polynomial: Polynomial, scale: i128) -> Answer<Polynomial> {
    for coefficient in polynomial.values_mut() {
        if *coefficient % scale != 0 {
            return Err("a scale does not divide its lemma".to_string());
        }
        *coefficient /= scale;
    }
    check_size(&polynomial)?;
    Ok(polynomial)
}
