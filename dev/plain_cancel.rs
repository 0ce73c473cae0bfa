//! Proofs that take letters off, for `plain.rs`: the report of `cancel` on those that are accepted.
//!
//! Each item is a new hash map. What `cancel` refuses is refused too, by other words.

use super::{
    add_multiple, at, divided, lines_of, number, number_behind, read_row, read_scale, sum_of_rows, unstarred, Answer, Ends, Letter,
    Polynomial, Problem, Share, Word,
};

const KEPT_LIMIT: usize = 1_000_000;

/// What a row may name: a lemma, or an earlier item without a letter.
enum Item {
    Lemma(Share),
    Cancel { letter: Letter, is_left: bool, item: usize },
}

struct Cancellation {
    claim: usize,
    denominator: i128,
    monic: Vec<Letter>,
    epic: Vec<Letter>,
    items: Vec<Item>,
    goal: Share,
}

pub(super) fn cancel_all(problem: &Problem, text: &str) -> Answer<String> {
    unstarred(problem)?;
    let (mut lines, mut proofs, mut report) = (lines_of(text), Vec::new(), String::new());
    while let Some(head) = lines.next() {
        if head != "cancellation 1" {
            return Err("no proof where one should begin".to_string());
        }
        proofs.push(read_proof(problem, &mut lines)?);
    }
    for (block, proof) in (1..).zip(&proofs) {
        judge(problem, proof).map_err(|fault| format!("block {block}: {fault}"))?;
        let (claim, denominator) = (proof.claim, proof.denominator);
        let declared =
            [("monic", &proof.monic), ("epic", &proof.epic)].map(|(word, letters)| declared_text(problem, word, letters)).concat();
        report += &format!("# block {block} accepted claim {claim} denominator {denominator}{declared}\n");
    }
    Ok(report)
}

/// A word and the letters behind it, where there are any.
fn declared_text(problem: &Problem, word: &str, letters: &[Letter]) -> String {
    let names: Vec<&str> = letters.iter().map(|letter| problem.names[*letter as usize].as_str()).collect();
    if names.is_empty() {
        return String::new();
    }
    format!(" {word} {}", names.join(" "))
}

// ---- Text

fn read_proof<'a>(problem: &Problem, lines: &mut impl Iterator<Item = &'a str>) -> Answer<Cancellation> {
    let claim = number_behind("claim ", lines.next())?;
    let denominator = number_behind("denominator ", lines.next())?;
    let (mut monic, mut epic, mut items, mut goal) = (Vec::new(), Vec::new(), Vec::new(), None);
    for line in lines {
        let (word, rest) = line.split_once(' ').unwrap_or((line, ""));
        match (word, &mut goal) {
            ("monic", None) => monic.push(problem.letter(rest)?),
            ("epic", None) => epic.push(problem.letter(rest)?),
            ("lemma", None) => items.push(Item::Lemma(Share::new(read_scale(line)?))),
            ("cancel", None) => items.push(read_cancel(problem, rest)?),
            ("goal", None) => goal = Some(Share::new(read_scale(line)?)),
            ("row", Some(share)) => share.rows.push(read_row(problem, rest)?),
            ("row", None) => match items.last_mut() {
                Some(Item::Lemma(share)) => share.rows.push(read_row(problem, rest)?),
                _ => return Err("a row behind no lemma".to_string()),
            },
            ("end", _) => {
                let goal = goal.ok_or("a proof has no goal")?;
                return Ok(Cancellation { claim, denominator, monic, epic, items, goal });
            }
            _ => return Err(format!("the line {line} is not read")),
        }
    }
    Err("a proof has no end".to_string())
}

/// The words behind `cancel`: `K LETTER left J`, or with `right`.
fn read_cancel(problem: &Problem, text: &str) -> Answer<Item> {
    let words: Vec<&str> = text.split_ascii_whitespace().collect();
    let [_, name, side @ ("left" | "right"), item] = words[..] else {
        return Err(format!("the line cancel {text} is not read"));
    };
    Ok(Item::Cancel { letter: problem.letter(name)?, is_left: side == "left", item: number(item)? })
}

// ---- Sums

fn judge(problem: &Problem, proof: &Cancellation) -> Answer<()> {
    let claim = at(&problem.claims, proof.claim)?;
    let shares = proof.items.iter().filter_map(|item| if let Item::Lemma(share) = item { Some(share) } else { None });
    if shares.chain([&proof.goal]).any(|share| share.scale < 1 || proof.denominator % share.scale != 0) {
        return Err("a scale does not divide the denominator".to_string());
    }
    let (monic, epic) = (table(problem, &proof.monic), table(problem, &proof.epic));
    let (mut items, mut terms) = (Vec::with_capacity(proof.items.len()), 0);
    for item in &proof.items {
        let next = match item {
            Item::Lemma(share) => divided(sum_of_rows(&problem.assumptions, &items, share)?, share.scale)?,
            Item::Cancel { letter, is_left, item } => {
                if !(if *is_left { &monic } else { &epic })[*letter as usize] {
                    return Err("a letter is not declared".to_string());
                }
                stripped(problem, at(&items, *item)?, *letter, *is_left)?
            }
        };
        terms += next.len();
        if terms > KEPT_LIMIT {
            return Err(format!("more than {KEPT_LIMIT} terms of all items"));
        }
        items.push(next);
    }
    let mut sum = sum_of_rows(&problem.assumptions, &items, &proof.goal)?;
    add_multiple(&mut sum, -proof.goal.scale, &[], claim, &[])?;
    sum.is_empty().then_some(()).ok_or_else(|| format!("{} words differ", sum.len()))
}

/// For each letter whether it is among these.
fn table(problem: &Problem, letters: &[Letter]) -> Vec<bool> {
    let mut is_there = vec![false; problem.names.len()];
    letters.iter().for_each(|letter| is_there[*letter as usize] = true);
    is_there
}

/// The polynomial with the letter off each word, whose words are all paths with the same ends.
fn stripped(problem: &Problem, polynomial: &Polynomial, letter: Letter, is_left: bool) -> Answer<Polynomial> {
    let mut signature = None;
    let mut strip = |(word, coefficient): (&Word, &i128)| {
        let ends = path_ends(problem, word).filter(|ends| *signature.get_or_insert(*ends) == *ends);
        ends.ok_or("an item is not typed")?;
        let rest = if is_left { word.strip_prefix(&[letter]) } else { word.strip_suffix(&[letter]) };
        let rest = rest.filter(|rest| !rest.is_empty()).ok_or("a word does not have the letter")?;
        Ok((rest.into(), *coefficient))
    };
    polynomial.iter().map(&mut strip).collect()
}

/// The ends of a word that is a path.
fn path_ends(problem: &Problem, word: &[Letter]) -> Option<Ends> {
    let (first, last) = (word.first()?, word.last()?);
    let ends = |letter: &Letter| problem.ends[*letter as usize];
    let is_path = word.windows(2).all(|pair| ends(&pair[0]).0 == ends(&pair[1]).1);
    is_path.then(|| (ends(last).0, ends(first).1))
}
