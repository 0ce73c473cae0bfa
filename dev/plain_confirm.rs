//! Closed bases for `plain.rs`: the report of `confirm`, over statements with the order by degrees and without identities and
//! adjoints.
//!
//! The beginnings of all leading words are numbered in a hash map, and each word is walked along from each of its places: what
//! ends on the way is an inclusion, and what goes on behind its end an overlap. What `confirm` refuses is refused too, by other
//! words.

use std::cmp::Ordering;
use std::collections::HashMap;
use std::vec::IntoIter;

use super::plain_sums::{self, greatest_divisor};
use super::{at, Answer, Ends, Letter, Polynomial, Problem, Word};

const RULE_LIMIT: usize = 100_000;
const BASIS_LIMIT: usize = 100;
const STEP_LIMIT: usize = 1_000_000;
const TERM_LIMIT: usize = 20_000;
const LETTER_LIMIT: usize = 500;

type Term = (i128, Word);

pub(super) fn confirm_all(problem: &Problem, text: &str) -> Answer<String> {
    if problem.is_starred || problem.has_order {
        return Err("adjoints of assumptions are not made, and there is one order".to_string());
    }
    let bases = read_bases(problem, text)?;
    let mut lines = String::new();
    for (block, basis) in (1..).zip(bases) {
        let (claim, ending) = (basis.claim, if is_sharp(problem, &basis) { " sharp" } else { "" });
        judge(problem, basis).map_err(|fault| format!("block {block}: {fault}"))?;
        lines += &format!("# block {block} closed claim {claim}{ending}\n");
    }
    Ok(lines)
}

/// Whether the words of each rule are paths of one signature, in declared maps.
fn is_sharp(problem: &Problem, basis: &Basis) -> bool {
    basis.rules.iter().all(|rule| {
        let first = rule.first().and_then(|(_, word)| ends_of_path(problem, word));
        first.is_some() && rule.iter().all(|(_, word)| ends_of_path(problem, word) == first)
    })
}

fn ends_of_path(problem: &Problem, word: &[Letter]) -> Option<Ends> {
    let ends = |letter: Letter| problem.ends[letter as usize];
    let fits = word.windows(2).all(|pair| ends(pair[0]).0 == ends(pair[1]).1);
    let is_in_play = word.iter().all(|&letter| letter <= problem.adjoints[letter as usize]);
    (fits && is_in_play).then(|| (ends(word[word.len() - 1]).0, ends(word[0]).1))
}

// ---- Text

/// Polynomials are lists of terms, the greatest word first.
struct Basis {
    claim: u32,
    rules: Vec<Vec<Term>>,
    rest: Vec<Term>,
}

fn read_bases(problem: &Problem, text: &str) -> Answer<Vec<Basis>> {
    let mut bases = Vec::new();
    let mut lines = text.lines().map(str::trim_ascii).filter(|line| !line.is_empty() && !line.starts_with('#'));
    while let Some(head) = lines.next() {
        if !head.split_ascii_whitespace().eq(["basis", "1"]) || bases.len() == BASIS_LIMIT {
            return Err("no basis where one should begin, or too many".to_string());
        }
        bases.push(read_basis(problem, &mut lines)?);
    }
    match bases.is_empty() {
        false => Ok(bases),
        true => Err("there is no basis".to_string()),
    }
}

fn read_basis<'a>(problem: &Problem, lines: &mut impl Iterator<Item = &'a str>) -> Answer<Basis> {
    let mut next = || lines.next().map(first_word).ok_or("a basis has no end");
    let ("claim", number) = next()? else {
        return Err("a basis has no claim".to_string());
    };
    let claim = number.parse().map_err(|_| "a claim is wrong")?;
    let mut rules = Vec::new();
    let rest = loop {
        match next()? {
            ("rule", sum) if rules.len() < RULE_LIMIT => rules.push(read_sum(problem, sum)?),
            ("rest", sum) => break read_sum(problem, sum)?,
            _ => return Err("a line of a basis is wrong, or there are too many rules".to_string()),
        }
    };
    match next()? {
        ("end", "") => Ok(Basis { claim, rules, rest }),
        _ => Err("a basis goes on behind its rest".to_string()),
    }
}

/// The first word of a line and what stands behind it.
fn first_word(line: &str) -> (&str, &str) {
    let end = line.find([' ', '\t']).unwrap_or(line.len());
    (&line[..end], line[end..].trim_ascii_start())
}

/// A sum as it is written: signs and numbers above 1 where they are needed, and words that descend.
fn read_sum(problem: &Problem, text: &str) -> Answer<Vec<Term>> {
    let mut terms: Vec<Term> = Vec::new();
    if !text.is_empty() && text.bytes().all(|byte| byte == b'0') {
        return Ok(terms);
    }
    let mut tokens = text.split_ascii_whitespace().peekable();
    let mut sign = if tokens.next_if_eq(&"-").is_some() { -1 } else { 1 };
    loop {
        let number = tokens.next_if(|token| token.as_bytes()[0].is_ascii_digit()).map(str::parse::<i128>);
        let coefficient = match number {
            None => 1,
            Some(Ok(number)) if number > 1 => number,
            Some(_) => return Err("a number is wrong".to_string()),
        };
        let mut word = Vec::new();
        while let Some(name) = tokens.next_if(|token| *token != "+" && *token != "-") {
            word.push(problem.letter(name)?);
        }
        let word = word.into_boxed_slice();
        let descends = terms.last().is_none_or(|last| compared(&word, &last.1) == Ordering::Less);
        if word.is_empty() || word.len() > LETTER_LIMIT || terms.len() == TERM_LIMIT || !descends {
            return Err("a word or its place is wrong".to_string());
        }
        terms.push((sign * coefficient, word));
        sign = match tokens.next() {
            None => return Ok(terms),
            Some("-") => -1,
            Some(_) => 1,
        };
    }
}

fn compared(left: &[Letter], right: &[Letter]) -> Ordering {
    left.len().cmp(&right.len()).then_with(|| left.cmp(right))
}

// ---- Arithmetic

fn times(left: i128, right: i128) -> Answer<i128> {
    let product = left.checked_mul(right).filter(|number| *number != i128::MIN);
    product.ok_or_else(|| "a product is too large".to_string())
}

fn scale<'a>(numbers: impl Iterator<Item = &'a mut i128>, by: i128) -> Answer<()> {
    for number in numbers {
        *number = times(*number, by)?;
    }
    Ok(())
}

/// A multiple of terms between two words.
fn multiple(factor: i128, left: &[Letter], terms: &[Term], right: &[Letter]) -> Answer<Vec<Term>> {
    let term = |(coefficient, middle): &Term| {
        let word = [left, middle, right].concat().into_boxed_slice();
        Ok((times(factor, *coefficient)?, word))
    };
    terms.iter().map(term).collect()
}

/// The sum of terms, which are moved, and whose words descend.
fn sum(left: IntoIter<Term>, right: IntoIter<Term>) -> Answer<Vec<Term>> {
    let compare = |one: &Term, other: &Term| compared(&one.1, &other.1);
    plain_sums::sum(left, right, compare, |(one, word), (other, _)| {
        let value = one.checked_add(other).filter(|number| *number != i128::MIN);
        let value = value.ok_or("a sum is too large")?;
        Ok((value != 0).then_some((value, word)))
    })
}

fn check_size(longest: usize, count: usize) -> Answer<()> {
    if longest > LETTER_LIMIT || count > TERM_LIMIT {
        return Err("a word is too long, or there are too many terms".to_string());
    }
    Ok(())
}

// ---- Rules

/// The first term is the leading one.
struct Rule {
    terms: Vec<Term>,
    longest: usize,
}

impl Rule {
    fn lead(&self) -> &[Letter] {
        &self.terms[0].1
    }
}

/// The beginning of some leading words.
#[derive(Clone, Default)]
struct Beginning {
    /// The rules whose leading words begin so: their places among those that are sorted.
    first: u32,
    behind: u32,
    /// How many of them, the first ones, are no longer than this.
    wholes: u32,
}

/// Rules, numbered from 0.
struct Rules {
    list: Vec<Rule>,
    /// Their numbers by leading words, and these by number.
    sorted: Vec<u32>,
    /// Beginnings are numbered from 0, which is the empty word; these are their numbers with one letter more.
    longer: HashMap<(u32, Letter), u32>,
    beginnings: Vec<Beginning>,
}

struct Ambiguity {
    word: Word,
    first: u32,
    second: u32,
    is_inclusion: bool,
    place: u32,
}

impl Rules {
    fn new(list: Vec<Rule>) -> Rules {
        let mut sorted: Vec<u32> = (0..list.len() as u32).collect();
        sorted.sort_by(|one, other| list[*one as usize].lead().cmp(list[*other as usize].lead()));
        let mut rules = Rules { list, sorted, longer: HashMap::new(), beginnings: vec![Beginning::default()] };
        for place in 0..rules.sorted.len() {
            rules.enter(place as u32);
        }
        rules
    }

    fn enter(&mut self, place: u32) {
        let mut node = 0;
        for letter in self.list[self.sorted[place as usize] as usize].lead() {
            let new = self.beginnings.len() as u32;
            node = *self.longer.entry((node, *letter)).or_insert(new);
            if node == new {
                self.beginnings.push(Beginning { first: place, behind: place, wholes: 0 });
            }
            self.beginnings[node as usize].behind = place + 1;
        }
        self.beginnings[node as usize].wholes += 1;
    }

    /// Where a word can be walked along: a beginning behind each of its letters, as long as there is one.
    fn walk<'a>(&'a self, word: &'a [Letter]) -> impl Iterator<Item = &'a Beginning> {
        let nodes = word.iter().scan(0, |node, letter| {
            *node = *self.longer.get(&(*node, *letter))?;
            Some(*node)
        });
        nodes.map(|node| &self.beginnings[node as usize])
    }

    fn wholes(&self, beginning: &Beginning) -> &[u32] {
        &self.sorted[beginning.first as usize..][..beginning.wholes as usize]
    }

    /// The least number of a rule whose leading word occurs in the word, and its leftmost place.
    fn find(&self, word: &[Letter]) -> Option<(u32, usize)> {
        let at = |place| self.walk(&word[place..]).filter_map(|beginning| self.wholes(beginning).first()).min();
        (0..word.len()).filter_map(|place| Some((*at(place)?, place))).min()
    }

    fn ambiguities(&self) -> Vec<Ambiguity> {
        let mut found = Vec::new();
        for (first, rule) in (0..).zip(&self.list) {
            let word = rule.lead();
            for place in 0..word.len() {
                self.ambiguities_at(first, place, &mut found);
            }
        }
        let rest = |ambiguity: &Ambiguity| (ambiguity.first, ambiguity.second, ambiguity.is_inclusion, ambiguity.place);
        found.sort_unstable_by(|one, other| compared(&one.word, &other.word).then_with(|| rest(one).cmp(&rest(other))));
        found
    }

    fn ambiguities_at(&self, first: u32, place: usize, found: &mut Vec<Ambiguity>) {
        let lead = self.list[first as usize].lead();
        let mut push = |second: u32, is_inclusion, word| {
            found.push(Ambiguity { word, first, second, is_inclusion, place: place as u32 })
        };
        for (length, beginning) in (1..).zip(self.walk(&lead[place..])) {
            for second in self.wholes(beginning).iter().filter(|second| **second != first) {
                push(*second, true, lead.into());
            }
            if place > 0 && place + length == lead.len() {
                for second in &self.sorted[(beginning.first + beginning.wholes) as usize..beginning.behind as usize] {
                    let word = [&lead[..place], self.list[*second as usize].lead()].concat();
                    push(*second, false, word.into_boxed_slice());
                }
            }
        }
    }

    fn s_polynomial(&self, ambiguity: &Ambiguity) -> Answer<Vec<Term>> {
        let (one, two) = (&self.list[ambiguity.first as usize], &self.list[ambiguity.second as usize]);
        let (word, place) = (&ambiguity.word, ambiguity.place as usize);
        let (behind, front) = (&word[one.lead().len()..], &word[..place]);
        let behind_second = &word[place + two.lead().len()..];
        check_size(one.longest + behind.len(), 0)?;
        check_size(two.longest + front.len() + behind_second.len(), 0)?;
        let (leading, other) = (one.terms[0].0, two.terms[0].0);
        let divisor = greatest_divisor(leading, other);
        let left = multiple(other / divisor, &[], &one.terms, behind)?;
        let right = multiple(-(leading / divisor), front, &two.terms, behind_second)?;
        let total = sum(left.into_iter(), right.into_iter())?;
        check_size(0, total.len())?;
        Ok(total)
    }

    /// From the greatest word on, replaces each in which a leading word occurs.
    fn normal_form(&self, terms: Vec<Term>) -> Answer<Vec<Term>> {
        let (mut rest, mut left) = (Vec::new(), terms.into_iter());
        // What the polynomial was multiplied by, and the factors of the rules that were taken off.
        let mut factors = vec![1];
        while let Some(term) = left.next() {
            let Some((number, place)) = self.find(&term.1) else {
                rest.push(term);
                continue;
            };
            if factors.len() > STEP_LIMIT {
                return Err("there are too many steps".to_string());
            }
            let rule = &self.list[number as usize];
            let leading = rule.terms[0].0;
            let divisor = greatest_divisor(term.0, leading);
            let (by, share) = (leading / divisor, term.0 / divisor);
            if by != 1 {
                times(term.0, by)?;
                scale(rest.iter_mut().chain(left.as_mut_slice()).map(|term: &mut Term| &mut term.0), by)?;
                scale(factors.iter_mut(), by)?;
            }
            let (front, behind) = (&term.1[..place], &term.1[place + rule.lead().len()..]);
            let taken = multiple(-share, front, &rule.terms[1..], behind)?;
            let may_be_long = rule.longest + front.len() + behind.len() > LETTER_LIMIT;
            left = sum(left, taken.into_iter())?.into_iter();
            check_size(if may_be_long { LETTER_LIMIT + 1 } else { 0 }, rest.len() + left.len())?;
            factors.push(share);
        }
        Ok(rest)
    }
}

// ---- What is said of a basis

fn judge(problem: &Problem, basis: Basis) -> Answer<()> {
    let claim = at(&problem.claims, basis.claim as usize)?;
    let rules: Vec<Rule> = basis.rules.into_iter().map(rule).collect::<Answer<_>>()?;
    let rules = Rules::new(rules);
    for generator in &problem.assumptions {
        need(rules.normal_form(terms(generator))?.is_empty(), "a generator has a rest")?;
    }
    for ambiguity in rules.ambiguities() {
        need(rules.normal_form(rules.s_polynomial(&ambiguity)?)?.is_empty(), "an ambiguity has a rest")?;
    }
    let rest = rules.normal_form(terms(claim))?;
    need(rest == basis.rest && !rest.is_empty(), "the claim has another rest, or none")
}

fn need(is_met: bool, fault: &str) -> Answer<()> {
    is_met.then_some(()).ok_or_else(|| fault.to_string())
}

fn rule(terms: Vec<Term>) -> Answer<Rule> {
    let content = terms.iter().fold(0, |content, term| greatest_divisor(content, term.0));
    need(content == 1 && terms[0].0 > 0, "a rule is none")?;
    let longest = terms.iter().map(|term| term.1.len()).max().unwrap_or(0);
    Ok(Rule { terms, longest })
}

fn terms(polynomial: &Polynomial) -> Vec<Term> {
    let mut terms: Vec<Term> = polynomial.iter().map(|(word, coefficient)| (*coefficient, word.clone())).collect();
    terms.sort_unstable_by(|left, right| compared(&right.1, &left.1));
    terms
}
