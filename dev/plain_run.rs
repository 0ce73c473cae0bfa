//! A plain program to measure `opprove prove` by: the same run, with no proofs.
//!
//! `plain_run TREE [--pairs N] [--steps N] [--format N] [--pairwise]` reads a statement as `tree.py` writes it, completes
//! its rules in rounds of 32 ambiguities, keeps a record of how each rule was made, and prints the head lines of
//! `prove --no-models`; then how many rules, pairs and pending ambiguities there are, and the seconds of each part. A rule
//! is looked up in a tree of the leading words' letters, and what overlaps a new one in two sorted tables of the leading
//! words; with `--pairwise` each new one is compared with each old one. What is pending stands in an ordered set.
//! By weights, where several coefficients of one step are too large, another one of these may be told than `prove` tells.
//! `rustc -O dev/plain_run.rs` builds it with `plain_tree.rs` and `plain_sums.rs`; `measure.py` runs it.

mod plain_sums;
mod plain_tree;

use plain_sums::greatest_divisor;
use plain_tree::{Answer, Letter, Polynomial, Tree, Word};
use std::cmp::Ordering;
use std::collections::{BTreeMap, BTreeSet, HashMap};
use std::ops::Bound;
use std::process::ExitCode;
use std::time::Instant;
use std::vec::IntoIter;
use std::{env, iter};

const ROUND_LIMIT: usize = 32;
const TERM_LIMIT: usize = 20_000;
const WORD_LIMIT: usize = 500;
const ROW_LIMIT: usize = 200_000;
const LETTER_LIMIT: usize = 1_000_000;

fn main() -> ExitCode {
    let words: Vec<String> = env::args().skip(1).collect();
    match read_words(&words).and_then(|(tree, budget)| Ok(report(&Tree::read(tree)?, &budget))) {
        Ok(text) => {
            print!("{text}");
            ExitCode::SUCCESS
        }
        Err(fault) => {
            eprintln!("{fault}");
            ExitCode::FAILURE
        }
    }
}

struct Budget {
    pairs: usize,
    steps: usize,
    format: usize,
    is_pairwise: bool,
}

fn read_words(words: &[String]) -> Answer<(&str, Budget)> {
    let usage = || "usage: plain_run TREE [--pairs N] [--steps N] [--format N] [--pairwise]".to_string();
    let (mut path, mut budget) = (None, Budget { pairs: 5000, steps: 20_000, format: 2, is_pairwise: false });
    let mut rest = words.iter();
    while let Some(word) = rest.next() {
        let mut number = || rest.next().and_then(|text| text.parse().ok()).ok_or_else(usage);
        match word.as_str() {
            "--pairs" => budget.pairs = number()?,
            "--steps" => budget.steps = number()?,
            "--format" => budget.format = number()?,
            "--pairwise" => budget.is_pairwise = true,
            _ => path = Some(word.as_str()),
        }
    }
    Ok((path.ok_or_else(usage)?, budget))
}

fn report(tree: &Tree, budget: &Budget) -> String {
    let mut run = Run::new(tree, budget);
    let said = run.decide();
    let mut text: String = (1..).zip(said).map(|(number, said)| format!("# claim {number} {said}\n")).collect();
    let (rules, treated, pending) = (run.rules.list.len(), run.treated, run.pending.len());
    text += &format!("rules {rules} pairs {treated} rounds {} pending {pending}\n", run.rounds);
    let [first, second, ambiguities, claims] = run.seconds;
    text + &format!(
        "seconds first {first:.3} second {second:.3} ambiguities {ambiguities:.3} claims {claims:.3}\n"
    )
}

// ---- Coefficients and faults

/// What stops a reduction or the making of a certificate, as a head line tells it.
type Fault = String;
type Result<T> = std::result::Result<T, Fault>;

fn in_range(value: Option<i128>, left: i128, sign: &str, right: i128) -> Result<i128> {
    value.filter(|value| *value != i128::MIN).ok_or_else(|| format!("overflow {left} {sign} {right}"))
}

fn times(left: i128, right: i128) -> Result<i128> {
    in_range(left.checked_mul(right), left, "times", right)
}

fn plus(left: i128, right: i128) -> Result<i128> {
    in_range(left.checked_add(right), left, "plus", right)
}

// ---- Polynomials

#[derive(Clone)]
struct Term {
    /// What the order of words compares first.
    measure: u32,
    word: Word,
    coefficient: i128,
}

/// Its terms, the greatest first.
type Poly = Vec<Term>;

fn compare(left: &Term, right: &Term) -> Ordering {
    let by_length = || left.word.len().cmp(&right.word.len());
    left.measure.cmp(&right.measure).then_with(by_length).then_with(|| left.word.cmp(&right.word))
}

/// The sum of two polynomials, whose terms are moved.
fn sum(left: IntoIter<Term>, right: IntoIter<Term>) -> Result<Poly> {
    plain_sums::sum(left, right, compare, |mut term, other| {
        term.coefficient = plus(term.coefficient, other.coefficient)?;
        Ok((term.coefficient != 0).then_some(term))
    })
}

/// Tells of the terms for which there is no answer the canonically greatest one's fault, as the program does, whatever the
/// order of the run.
fn check_each<'a>(terms: impl Iterator<Item = &'a Term>, answer: impl Fn(&Term) -> Result<i128>) -> Result<()> {
    let canonically = |term: &&Term| (term.word.len(), term.word.clone());
    let faulty = terms.filter(|term| answer(term).is_err()).max_by_key(canonically);
    faulty.map_or(Ok(()), |term| answer(term).map(drop))
}

/// The same of sums.
fn check_sums(left: &[Term], right: &[Term]) -> Result<()> {
    let other = |term: &Term| right.binary_search_by(|other| compare(term, other)).map_or(0, |place| right[place].coefficient);
    check_each(left.iter(), |term| plus(term.coefficient, other(term)))
}

fn multiply_terms(terms: &mut [Term], by: i128) -> Result<()> {
    for term in terms {
        term.coefficient = times(term.coefficient, by)?;
    }
    Ok(())
}

fn has_long_word(terms: &[Term]) -> bool {
    terms.iter().any(|term| term.word.len() > WORD_LIMIT)
}

fn check_size(is_long: bool, count: usize) -> Result<()> {
    if is_long {
        return Err(format!("size letters {WORD_LIMIT}"));
    }
    if count > TERM_LIMIT {
        return Err(format!("size terms {TERM_LIMIT}"));
    }
    Ok(())
}

// ---- Rules

struct Rule {
    /// The leading term is the first one, and its coefficient is positive.
    poly: Poly,
    record: Record,
}

impl Rule {
    fn lead(&self) -> &[Letter] {
        &self.poly[0].word
    }
}

/// Rows that add up to the scale times a polynomial.
struct Record {
    scale: i128,
    rows: Vec<Row>,
}

#[derive(Clone, Copy, PartialEq)]
enum Origin {
    Generator(u32),
    Rule(u32),
}

struct Row {
    coefficient: i128,
    left: Word,
    origin: Origin,
    right: Word,
}

fn multiply_rows(rows: &mut [Row], by: i128) -> Result<()> {
    if by != 1 {
        for row in rows {
            row.coefficient = times(row.coefficient, by)?;
        }
    }
    Ok(())
}

/// The rows times a number, less others.
fn less_rows(mut rows: Vec<Row>, by: i128, taken: Vec<Row>) -> Result<Vec<Row>> {
    multiply_rows(&mut rows, by)?;
    rows.extend(taken.into_iter().map(|row| Row { coefficient: -row.coefficient, ..row }));
    Ok(rows)
}

/// A place in the tree of letters: the rule whose leading word ends there, or 0, and the places behind it, by letters.
#[derive(Default)]
struct Node {
    rule: u32,
    children: Vec<(Letter, u32)>,
}

/// Rules, numbered from 1.
struct Rules {
    list: Vec<Rule>,
    nodes: Vec<Node>,
    measures: Vec<u32>,
    /// Whether the order of the run is the canonical one.
    is_canonical: bool,
    steps: usize,
}

/// What a reduction leaves: rows, and a rest that add up to the multiplier times what was reduced.
struct Reduced {
    multiplier: i128,
    rest: Poly,
    rows: Vec<Row>,
}

impl Rules {
    fn child(&self, node: u32, letter: Letter) -> Option<u32> {
        let children = &self.nodes[node as usize].children;
        children.binary_search_by_key(&letter, |child| child.0).ok().map(|place| children[place].1)
    }

    fn push(&mut self, rule: Rule) {
        let mut node = 0;
        for letter in rule.lead() {
            node = match self.child(node, *letter) {
                Some(child) => child,
                None => {
                    let new = self.nodes.len() as u32;
                    let children = &mut self.nodes[node as usize].children;
                    let place = children.partition_point(|child| child.0 < *letter);
                    children.insert(place, (*letter, new));
                    self.nodes.push(Node::default());
                    new
                }
            };
        }
        self.list.push(rule);
        self.nodes[node as usize].rule = self.list.len() as u32;
    }

    /// The rules whose leading words begin here, each with its number.
    fn at<'a>(&'a self, word: &'a [Letter]) -> impl Iterator<Item = u32> + 'a {
        let nodes = word.iter().scan(0, |node, letter| {
            *node = self.child(*node, *letter)?;
            Some(*node)
        });
        nodes.map(|node| self.nodes[node as usize].rule).filter(|rule| *rule > 0)
    }

    /// The least number of a rule whose leading word occurs in the word, and its leftmost place.
    fn find(&self, word: &[Letter]) -> Option<(u32, usize)> {
        let places = (0..word.len()).filter_map(|place| Some((self.at(&word[place..]).min()?, place)));
        places.min()
    }

    fn measure(&self, word: &[Letter]) -> u32 {
        word.iter().map(|letter| self.measures[*letter as usize]).sum()
    }

    /// A polynomial of the tree, in the order of the run.
    fn ordered(&self, polynomial: &Polynomial) -> Poly {
        let term = |(coefficient, word): &(i128, Word)| Term {
            measure: self.measure(word),
            word: word.clone(),
            coefficient: *coefficient,
        };
        let mut poly: Poly = polynomial.iter().map(term).collect();
        poly.sort_by(|left, right| compare(right, left));
        poly
    }

    /// A multiple of terms with a word on each side.
    fn multiple(&self, by: i128, left: &[Letter], terms: &[Term], right: &[Letter]) -> Result<Poly> {
        let more = self.measure(left) + self.measure(right);
        if !self.is_canonical {
            check_each(terms.iter(), |term| times(by, term.coefficient))?;
        }
        let multiple = |term: &Term| {
            let word = [left, &term.word, right].concat().into_boxed_slice();
            Ok(Term { measure: term.measure + more, word, coefficient: times(by, term.coefficient)? })
        };
        terms.iter().map(multiple).collect()
    }

    /// From the greatest word on, replaces each in which a leading word occurs.
    fn reduce(&self, poly: Poly) -> Result<Reduced> {
        let (mut multiplier, mut rest, mut rows, mut used) = (1, Poly::new(), Vec::new(), 0);
        let mut left = poly.into_iter();
        while let Some(term) = left.next() {
            let Some((number, place)) = self.find(&term.word) else {
                rest.push(term);
                continue;
            };
            if used == self.steps {
                return Err(format!("steps {used}"));
            }
            used += 1;
            let rule = &self.list[number as usize - 1];
            let leading = rule.poly[0].coefficient;
            let divisor = greatest_divisor(term.coefficient, leading);
            let (by, share) = (leading / divisor, term.coefficient / divisor);
            if by != 1 {
                multiplier = times(multiplier, by)?;
                if !self.is_canonical {
                    let all = rest.iter().chain([&term]).chain(left.as_slice());
                    check_each(all, |term| times(term.coefficient, by))?;
                }
                multiply_terms(&mut rest, by)?;
                times(term.coefficient, by)?;
                multiply_terms(left.as_mut_slice(), by)?;
                multiply_rows(&mut rows, by)?;
            }
            let (front, behind) = (&term.word[..place], &term.word[place + rule.lead().len()..]);
            let mut taken = self.multiple(share, front, &rule.poly[1..], behind)?;
            for term in &mut taken {
                term.coefficient = -term.coefficient;
            }
            let may_be_long = has_long_word(&taken);
            if !self.is_canonical {
                check_sums(left.as_slice(), &taken)?;
            }
            left = sum(left, taken.into_iter())?.into_iter();
            check_size(may_be_long && has_long_word(left.as_slice()), rest.len() + left.len())?;
            rows.push(Row {
                coefficient: share,
                left: front.into(),
                origin: Origin::Rule(number),
                right: behind.into(),
            });
        }
        Ok(Reduced { multiplier, rest, rows })
    }

    /// Makes what a reduction left a rule: divided by its content, and with a positive leading coefficient.
    fn add(&mut self, mut rest: Poly, mut rows: Vec<Row>) {
        if rest.is_empty() {
            return;
        }
        let scale = rest.iter().fold(0, |content, term| greatest_divisor(content, term.coefficient));
        let signed = if rest[0].coefficient < 0 { -scale } else { scale };
        for term in &mut rest {
            term.coefficient /= signed;
        }
        if signed < 0 {
            for row in &mut rows {
                row.coefficient = -row.coefficient;
            }
        }
        self.push(Rule { poly: rest, record: Record { scale, rows } });
    }
}

// ---- Ambiguities

/// An ambiguity of two rules that was not treated, in the order in which these are taken.
#[derive(PartialEq, Eq, PartialOrd, Ord)]
struct Waiting {
    measure: u32,
    length: u16,
    /// In which both leading words occur.
    word: Word,
    first: u32,
    second: u32,
    is_inclusion: bool,
    /// Where the second leading word begins.
    place: u16,
}

/// The leading words as they are and back to front, each with the number of its rule.
#[derive(Default)]
struct Tables {
    forwards: BTreeMap<Word, u32>,
    backwards: BTreeMap<Word, u32>,
}

/// The words of a table that begin so and go on.
fn beginning<'a>(table: &'a BTreeMap<Word, u32>, front: &'a [Letter]) -> impl Iterator<Item = (&'a Word, u32)> {
    let found = table.range::<[Letter], _>((Bound::Excluded(front), Bound::Unbounded));
    found.take_while(move |(word, _)| word.starts_with(front)).map(|(word, number)| (word, *number))
}

impl Rules {
    fn lead(&self, number: u32) -> &[Letter] {
        self.list[number as usize - 1].lead()
    }

    fn overlap(&self, first: u32, second: u32, place: usize) -> Waiting {
        self.waiting(first, second, false, place, [&self.lead(first)[..place], self.lead(second)].concat())
    }

    fn inclusion(&self, first: u32, second: u32, place: usize) -> Waiting {
        self.waiting(first, second, true, place, self.lead(first).to_vec())
    }

    fn waiting(&self, first: u32, second: u32, is_inclusion: bool, place: usize, word: Vec<Letter>) -> Waiting {
        let (measure, length, place) = (self.measure(&word), word.len() as u16, place as u16);
        Waiting { measure, length, word: word.into_boxed_slice(), first, second, is_inclusion, place }
    }

    /// The ambiguities of a rule with itself and with those before it.
    fn ambiguities(&self, number: u32, tables: &mut Tables, pending: &mut BTreeSet<Waiting>) {
        let lead = self.lead(number);
        let reversed: Word = lead.iter().rev().copied().collect();
        tables.forwards.insert(lead.into(), number);
        tables.backwards.insert(reversed.clone(), number);
        for place in 1..lead.len() {
            for (_, other) in beginning(&tables.forwards, &lead[place..]) {
                pending.insert(self.overlap(number, other, place));
            }
            for (word, other) in beginning(&tables.backwards, &reversed[place..]) {
                if other != number {
                    pending.insert(self.overlap(other, number, word.len() - (lead.len() - place)));
                }
            }
        }
        for place in 0..lead.len() {
            for other in self.at(&lead[place..]).filter(|other| *other < number) {
                pending.insert(self.inclusion(number, other, place));
            }
        }
        for other in 1..number {
            for place in places_of(lead, self.lead(other)) {
                pending.insert(self.inclusion(other, number, place));
            }
        }
    }

    /// The same, by comparing the rule with each of them.
    fn ambiguities_by_pairs(&self, number: u32, pending: &mut BTreeSet<Waiting>) {
        for other in 1..=number {
            let pairs = [(number, other), (other, number)];
            for (first, second) in pairs.into_iter().take(if other < number { 2 } else { 1 }) {
                let (one, two) = (self.lead(first), self.lead(second));
                for place in (1..one.len()).filter(|place| one.len() - place < two.len()) {
                    if two.starts_with(&one[place..]) {
                        pending.insert(self.overlap(first, second, place));
                    }
                }
                for place in places_of(two, one).filter(|_| first != second) {
                    pending.insert(self.inclusion(first, second, place));
                }
            }
        }
    }

    /// The S-polynomial of an ambiguity, with its rows.
    fn s_polynomial(&self, waiting: &Waiting) -> Result<(Poly, Vec<Row>)> {
        let (one, two) = (&self.list[waiting.first as usize - 1], &self.list[waiting.second as usize - 1]);
        let (place, word) = (waiting.place as usize, &waiting.word);
        let (behind, front) = (&word[one.lead().len()..], &word[..place]);
        let behind_second = &word[place + two.lead().len()..];
        let divisor = greatest_divisor(one.poly[0].coefficient, two.poly[0].coefficient);
        let (by, by_second) = (two.poly[0].coefficient / divisor, -(one.poly[0].coefficient / divisor));
        let longest = |rule: &Rule| rule.poly.iter().map(|term| term.word.len()).max().unwrap_or(0);
        let lengths = [longest(one) + behind.len(), longest(two) + front.len() + behind_second.len()];
        check_size(lengths.iter().any(|length| *length > WORD_LIMIT), 0)?;
        // The leading terms cancel.
        let left = self.multiple(by, &[], &one.poly, behind)?.into_iter();
        let right = self.multiple(by_second, front, &two.poly, behind_second)?.into_iter();
        if !self.is_canonical {
            check_sums(left.as_slice(), right.as_slice())?;
        }
        let poly = sum(left, right)?;
        check_size(false, poly.len())?;
        let row = |coefficient, left: &[Letter], number, right: &[Letter]| Row {
            coefficient,
            left: left.into(),
            origin: Origin::Rule(number),
            right: right.into(),
        };
        Ok((poly, vec![row(by, &[], waiting.first, behind), row(by_second, front, waiting.second, behind_second)]))
    }
}

/// Where a word occurs in another one.
fn places_of<'a>(word: &'a [Letter], other: &'a [Letter]) -> impl Iterator<Item = usize> + 'a {
    let ends = (other.len() + 1).saturating_sub(word.len());
    (0..ends).filter(move |place| other[*place..].starts_with(word))
}

// ---- The run

struct Run<'a> {
    tree: &'a Tree,
    budget: &'a Budget,
    rules: Rules,
    tables: Tables,
    pending: BTreeSet<Waiting>,
    treated: usize,
    rounds: usize,
    /// Of first reductions, of second ones, of finding ambiguities, of claims.
    seconds: [f64; 4],
}

enum Step {
    Went,
    Closed,
    Stopped(String),
}

/// The rows of an S-polynomial, and its reduction.
struct First {
    rows: Vec<Row>,
    reduced: Reduced,
}

impl<'a> Run<'a> {
    fn new(tree: &'a Tree, budget: &'a Budget) -> Run<'a> {
        let (nodes, measures) = (vec![Node::default()], tree.measures.clone());
        let is_canonical = measures.iter().all(|measure| *measure == 0);
        let rules = Rules { list: Vec::new(), nodes, measures, is_canonical, steps: budget.steps };
        let (tables, pending) = (Tables::default(), BTreeSet::new());
        Run { tree, budget, rules, tables, pending, treated: 0, rounds: 0, seconds: [0.0; 4] }
    }

    /// What is said of each claim.
    fn decide(&mut self) -> Vec<String> {
        let claims: Vec<Poly> = self.tree.claims.iter().map(|claim| self.rules.ordered(claim)).collect();
        let of_zero = |claim: &Poly| claim.is_empty().then(|| "proved denominator 1 rows 0".to_string());
        let mut said: Vec<Option<String>> = claims.iter().map(of_zero).collect();
        while said.iter().any(|said| said.is_none()) {
            let step = self.round();
            let start = Instant::now();
            for (claim, said) in iter::zip(&claims, &mut said).filter(|(_, said)| said.is_none()) {
                *said = match &step {
                    Step::Went => self.judge(claim),
                    Step::Closed => Some(format!("not derivable rules {}", self.rules.list.len())),
                    Step::Stopped(cause) => Some(format!("undecided {cause}")),
                };
            }
            self.seconds[3] += start.elapsed().as_secs_f64();
        }
        said.into_iter().flatten().collect()
    }

    fn round(&mut self) -> Step {
        let known = self.rules.list.len();
        let least =
            self.pending.first().map_or(String::new(), |waiting| format!(" least {}", self.text(&waiting.word)));
        let taken = match self.rounds {
            0 => Vec::new(),
            _ if self.pending.is_empty() => return Step::Closed,
            _ if self.treated >= self.budget.pairs => {
                return Step::Stopped(format!("pairs {}{least}", self.treated))
            }
            _ => self.take(),
        };
        let done = if self.rounds == 0 { self.take_generators() } else { self.treat(&taken) };
        if let Err(cause) = done {
            self.rules.list.truncate(known);
            self.pending.extend(taken);
            return Step::Stopped(format!("{cause} at round {}{least}", self.rounds));
        }
        self.treated += taken.len();
        self.rounds += 1;
        let start = Instant::now();
        for number in known as u32 + 1..=self.rules.list.len() as u32 {
            if self.budget.is_pairwise {
                self.rules.ambiguities_by_pairs(number, &mut self.pending);
            } else {
                self.rules.ambiguities(number, &mut self.tables, &mut self.pending);
            }
        }
        self.seconds[2] += start.elapsed().as_secs_f64();
        Step::Went
    }

    fn text(&self, word: &[Letter]) -> String {
        let names: Vec<&str> = word.iter().map(|letter| self.tree.names[*letter as usize].as_str()).collect();
        names.join(" ")
    }

    fn take(&mut self) -> Vec<Waiting> {
        let count = ROUND_LIMIT.min(self.budget.pairs - self.treated);
        iter::from_fn(|| self.pending.pop_first()).take(count).collect()
    }

    /// Round 0: the relations of identities first, and then the other generators.
    fn take_generators(&mut self) -> Result<()> {
        let (count, others) = (self.tree.generators.len(), self.tree.generators.len() - self.tree.units);
        for place in (others..count).chain(0..others) {
            let reduced = self.rules.reduce(self.rules.ordered(&self.tree.generators[place]))?;
            let origin = Origin::Generator(place as u32 + 1);
            let row =
                Row { coefficient: reduced.multiplier, left: Word::default(), origin, right: Word::default() };
            self.rules.add(reduced.rest, less_rows(vec![row], 1, reduced.rows)?);
        }
        Ok(())
    }

    /// All ambiguities are reduced by the rules from before, and then each once more by all rules.
    fn treat(&mut self, taken: &[Waiting]) -> Result<()> {
        let start = Instant::now();
        let first = |waiting| {
            let (poly, rows) = self.rules.s_polynomial(waiting)?;
            Ok(First { rows, reduced: self.rules.reduce(poly)? })
        };
        let firsts: Result<Vec<First>> = taken.iter().map(first).collect();
        self.seconds[0] += start.elapsed().as_secs_f64();
        let start = Instant::now();
        for First { rows, reduced } in firsts?.into_iter().filter(|first| !first.reduced.rest.is_empty()) {
            let second = self.rules.reduce(reduced.rest)?;
            if !second.rest.is_empty() {
                let rows = less_rows(rows, reduced.multiplier, reduced.rows)?;
                self.rules.add(second.rest, less_rows(rows, second.multiplier, second.rows)?);
            }
        }
        self.seconds[1] += start.elapsed().as_secs_f64();
        Ok(())
    }

    /// What is said of a claim behind a round, if anything.
    fn judge(&self, claim: &Poly) -> Option<String> {
        let round = self.rounds - 1;
        match self.rules.reduce(claim.clone()) {
            Err(cause) => Some(format!("undecided {cause} at claim after round {round}")),
            Ok(reduced) if !reduced.rest.is_empty() => None,
            Ok(reduced) => {
                let target = Record { scale: reduced.multiplier, rows: reduced.rows };
                let size = if self.budget.format == 1 { self.expand(&target) } else { self.gather(&target) };
                Some(match size {
                    Ok((denominator, rows)) => format!("proved denominator {denominator} rows {rows}"),
                    Err(cause) => format!("undecided {cause} at certificate after round {round}"),
                })
            }
        }
    }
}

// ---- Certificates

/// A row over generators alone. Rows are gathered by what stands behind the coefficient.
struct PlainRow {
    key: (u32, usize, Word, usize, Word),
    coefficient: i128,
}

/// Rows over generators alone that add up to the denominator times a polynomial.
struct Expansion {
    denominator: i128,
    rows: Vec<PlainRow>,
}

fn plain_row(coefficient: i128, left: &[&[Letter]], generator: u32, right: &[&[Letter]]) -> PlainRow {
    let (left, right) = (left.concat().into_boxed_slice(), right.concat().into_boxed_slice());
    PlainRow { key: (generator, left.len(), left, right.len(), right), coefficient }
}

fn check_limits(rows: usize, letters: usize) -> Result<()> {
    if rows > ROW_LIMIT {
        return Err(format!("rows {ROW_LIMIT}"));
    }
    if letters > LETTER_LIMIT {
        return Err(format!("rows letters {LETTER_LIMIT}"));
    }
    Ok(())
}

fn common_multiple(numbers: impl Iterator<Item = i128>) -> Result<i128> {
    let mut numbers = numbers;
    numbers.try_fold(1, |common, number| times(common, number / greatest_divisor(common, number)))
}

/// Adds up rows that are alike.
fn gathered(mut rows: Vec<PlainRow>) -> Result<Vec<PlainRow>> {
    rows.sort_by(|left, right| left.key.cmp(&right.key));
    let mut total: Vec<PlainRow> = Vec::new();
    for row in rows {
        match total.last_mut().filter(|last| last.key == row.key) {
            Some(last) => last.coefficient = plus(last.coefficient, row.coefficient)?,
            None => total.push(row),
        }
    }
    total.retain(|row| row.coefficient != 0);
    Ok(total)
}

impl Run<'_> {
    fn record(&self, number: u32) -> &Record {
        &self.rules.list[number as usize - 1].record
    }

    /// The numbers of the rules that a record stands on, ascending.
    fn needed(&self, target: &Record) -> Vec<u32> {
        let mut is_needed = vec![false; self.rules.list.len() + 1];
        let mark = |record: &Record, is_needed: &mut Vec<bool>| {
            for row in &record.rows {
                if let Origin::Rule(number) = row.origin {
                    is_needed[number as usize] = true;
                }
            }
        };
        mark(target, &mut is_needed);
        for number in (1..is_needed.len()).rev() {
            if is_needed[number] {
                mark(self.record(number as u32), &mut is_needed);
            }
        }
        (1..is_needed.len()).filter(|number| is_needed[*number]).map(|number| number as u32).collect()
    }

    /// The denominator and the rows of a certificate of format 1.
    fn expand(&self, target: &Record) -> Result<(i128, usize)> {
        let mut known = HashMap::new();
        for number in self.needed(target) {
            known.insert(number, expansion(self.record(number), &known)?);
        }
        let Expansion { denominator, rows } = expansion(target, &known)?;
        Ok((denominator, rows.len()))
    }

    /// The same of format 2, in which a rule is a lemma, unless it is a generator or the negative of one.
    fn gather(&self, target: &Record) -> Result<(i128, usize)> {
        let needed = self.needed(target);
        let records = needed.iter().map(|number| self.record(*number)).filter(|record| !is_direct(record));
        let records: Vec<&Record> = records.chain([target]).collect();
        let rows = || records.iter().flat_map(|record| &record.rows);
        check_limits(rows().count(), rows().map(|row| row.left.len() + row.right.len()).sum())?;
        let denominator = common_multiple(records.iter().map(|record| record.scale))?;
        Ok((denominator, rows().count()))
    }
}

fn is_direct(record: &Record) -> bool {
    match record.rows.as_slice() {
        [row] => {
            let is_bare = row.left.is_empty() && row.right.is_empty() && row.coefficient.abs() == 1;
            record.scale == 1 && is_bare && matches!(row.origin, Origin::Generator(_))
        }
        _ => false,
    }
}

/// What a record stands for over generators alone, where that is known of the rules that it names.
fn expansion(record: &Record, known: &HashMap<u32, Expansion>) -> Result<Expansion> {
    let numbers = record.rows.iter().filter_map(|row| match row.origin {
        Origin::Generator(number) => Some(number),
        Origin::Rule(_) => None,
    });
    let itself = |number| Expansion { denominator: 1, rows: vec![plain_row(1, &[], number, &[])] };
    let generators: HashMap<u32, Expansion> = numbers.map(|number| (number, itself(number))).collect();
    let named = |row: &Row| match row.origin {
        Origin::Generator(number) => &generators[&number],
        Origin::Rule(number) => &known[&number],
    };
    let common = common_multiple(record.rows.iter().map(|row| named(row).denominator))?;
    let denominator = times(record.scale, common)?;
    let pairs = || record.rows.iter().flat_map(|row| named(row).rows.iter().map(move |inner| (row, inner)));
    let lengths = || pairs().map(|(row, inner)| (row.left.len() + inner.key.1, inner.key.3 + row.right.len()));
    check_size(lengths().any(|(left, right)| left.max(right) > WORD_LIMIT), 0)?;
    check_limits(lengths().count(), lengths().map(|(left, right)| left + right).sum())?;
    let mut rows = Vec::new();
    for row in &record.rows {
        let expansion = named(row);
        let factor = times(row.coefficient, common / expansion.denominator)?;
        for inner in &expansion.rows {
            let (generator, _, left, _, right) = &inner.key;
            let coefficient = times(factor, inner.coefficient)?;
            rows.push(plain_row(coefficient, &[&row.left, left], *generator, &[right, &row.right]));
        }
    }
    let mut rows = gathered(rows)?;
    let divisor = rows.iter().fold(denominator, |divisor, row| greatest_divisor(divisor, row.coefficient));
    for row in &mut rows {
        row.coefficient /= divisor;
    }
    Ok(Expansion { denominator: denominator / divisor, rows })
}
