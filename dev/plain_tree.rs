//! A statement as a tree of plain lines, which `tree.py` writes, read for `plain_run.rs` and `plain_models.rs`.

// Each of the two programs uses a part.
#![allow(dead_code)]

use std::{fs, str::FromStr, str::Split};

pub type Letter = u16;
pub type Word = Box<[Letter]>;
/// Words with their coefficients, the greatest word first.
pub type Polynomial = Vec<(i128, Word)>;
pub type Answer<T> = Result<T, String>;

/// What a statement says. Letters are numbered from 0, and the first ones are those of the objects.
#[derive(Default)]
pub struct Tree {
    pub names: Vec<String>,
    /// The adjoint of each letter.
    pub stars: Vec<Letter>,
    /// The source and the target of each letter.
    pub ends: Vec<(Letter, Letter)>,
    /// What each letter adds to the number that the order of words compares first.
    pub measures: Vec<u32>,
    /// How many relations of identities there are, which are the last generators.
    pub units: usize,
    pub solved: Vec<Letter>,
    pub shapes: Vec<Shape>,
    pub assumptions: Vec<Polynomial>,
    pub claims: Vec<Polynomial>,
    pub generators: Vec<Polynomial>,
}

pub struct Shape {
    pub modulus: u32,
    /// The side of each object.
    pub sides: Vec<usize>,
}

impl Tree {
    pub fn read(path: &str) -> Answer<Tree> {
        let text = fs::read_to_string(path).map_err(|fault| format!("{path}: {fault}"))?;
        let mut tree = Tree::default();
        for line in text.lines() {
            tree.take(line).ok_or_else(|| format!("{path} is no tree of tree.py: {line}"))?;
        }
        Ok(tree)
    }

    fn take(&mut self, line: &str) -> Option<()> {
        let mut words = line.split(' ');
        match words.next()? {
            "letters" => {}
            "letter" => {
                self.names.push(words.next()?.to_string());
                self.stars.push(next(&mut words)?);
                self.ends.push((next(&mut words)?, next(&mut words)?));
            }
            "measures" => self.measures = numbers(words)?,
            "units" => self.units = next(&mut words)?,
            "solved" => self.solved = numbers(words)?,
            "shape" => self.shapes.push(Shape { modulus: next(&mut words)?, sides: numbers(words)? }),
            "assumption" => self.assumptions.push(terms(words)?),
            "claim" => self.claims.push(terms(words)?),
            "generator" => self.generators.push(terms(words)?),
            _ => return None,
        }
        Some(())
    }
}

fn next<T: FromStr>(words: &mut Split<char>) -> Option<T> {
    words.next()?.parse().ok()
}

fn numbers<T: FromStr>(words: Split<char>) -> Option<Vec<T>> {
    words.map(|word| word.parse().ok()).collect()
}

fn terms(mut words: Split<char>) -> Option<Polynomial> {
    let mut polynomial = Vec::new();
    while let Some(word) = words.next() {
        let (coefficient, count) = (word.parse().ok()?, next::<usize>(&mut words)?);
        let letters: Option<Word> = (0..count).map(|_| next(&mut words)).collect();
        polynomial.push((coefficient, letters?));
    }
    Some(polynomial)
}
