//! A plain program to measure `opprove refute` by: the same search for models, with no proofs.
//!
//! `plain_models TREE [--seed N]` reads a statement as `tree.py` writes it, goes through the candidates of its shapes in
//! their order, and prints the report of `refute` with its statuses. All claims are looked at in one pass. In a drawn
//! candidate the assumptions that hold no map that is solved for come first; then maps that share a linear assumption are
//! solved for together, block by block, and every other assumption is tested as soon as its maps are known.
//! Adjoints and relations of identities add no condition, and no equation is made of them.
//! `rustc --edition 2021 -O dev/plain_models.rs` builds it with `plain_tree.rs`; `measure.py` runs it.

mod plain_tree;

use plain_tree::{Answer, Letter, Polynomial, Shape, Tree};
use std::env;
use std::process::ExitCode;

const EXHAUSTIVE_LIMIT: u32 = 65_536;
const DRAWN_COUNT: u32 = 4096;
const SIDE_LIMIT: usize = 6;
const REFUTED: u8 = 11;
const NOT_REFUTED: u8 = 13;

fn main() -> ExitCode {
    let words: Vec<String> = env::args().skip(1).collect();
    match read_words(&words).and_then(|(path, seed)| Ok(report(&Tree::read(path)?, seed))) {
        Ok((text, status)) => {
            print!("{text}");
            ExitCode::from(status)
        }
        Err(fault) => {
            eprintln!("{fault}");
            ExitCode::FAILURE
        }
    }
}

fn read_words(words: &[String]) -> Answer<(&str, u64)> {
    let usage = || "usage: plain_models TREE [--seed N]".to_string();
    match words {
        [path] => Ok((path, 1)),
        [path, option, seed] if option == "--seed" => Ok((path, seed.parse().map_err(|_| usage())?)),
        _ => Err(usage()),
    }
}

fn report(tree: &Tree, seed: u64) -> (String, u8) {
    let mut found: Vec<Option<String>> = tree.claims.iter().map(|_| None).collect();
    let mut count = 0;
    for (number, shape) in (1..).zip(&tree.shapes) {
        let mut search = Search::new(tree, shape);
        count += search.count;
        if found.iter().any(|found| found.is_none()) {
            search.run(seed, number, &mut found);
        }
    }
    let is_refuted = found.iter().all(|found| found.is_some());
    let blocks = (1..).zip(found).map(|(number, found)| match found {
        Some(model) => format!("# claim {number} refuted\nmodel 1\nclaim {number}\n{model}end\n"),
        None => format!("# claim {number} not refuted candidates {count}\n"),
    });
    (blocks.collect(), if is_refuted { REFUTED } else { NOT_REFUTED })
}

// ---- Draws

/// The words of a stream of PCG32 (XSH RR over 64 bits).
struct Stream {
    state: u64,
    increment: u64,
}

impl Stream {
    fn new(seed: u64, number: u64) -> Stream {
        let increment = 2 * number + 1;
        Stream { state: seed.wrapping_add(increment), increment }
    }

    fn next(&mut self) -> u32 {
        self.state = self.state.wrapping_mul(6364136223846793005).wrapping_add(self.increment);
        let mixed = ((self.state >> 18 ^ self.state) >> 27) as u32;
        mixed.rotate_right((self.state >> 59) as u32)
    }
}

// ---- What is looked at

/// A row of a matrix, or the front of an array for one.
type Row = [u64; SIDE_LIMIT];

/// The matrix of a letter, by rows, in the list of all cells.
#[derive(Clone, Copy)]
struct Matrix {
    cells: usize,
    columns: usize,
}

/// A term whose word has no identities.
struct Term {
    coefficient: u64,
    word: Vec<Matrix>,
}

/// A polynomial whose value is a matrix with such sides. Its coefficients are below the modulus, and none is 0.
struct Value {
    rows: usize,
    columns: usize,
    terms: Vec<Term>,
}

/// A term of a linear assumption, around a map that is solved for.
struct Factor {
    coefficient: u64,
    left: Vec<Matrix>,
    rows: usize,
    columns: usize,
    /// The place among the unknowns of each entry of the map.
    places: Vec<usize>,
    right: Vec<Matrix>,
}

/// A linear assumption: terms without an unknown, and terms with one.
struct Equation {
    known: Value,
    factors: Vec<Factor>,
}

/// Maps that are solved for together.
struct Block {
    /// The entries that are solved for, in order.
    unknowns: Vec<usize>,
    equations: Vec<Equation>,
    /// The assumptions whose last map this is.
    tests: Vec<Value>,
    /// Whether no drawn entry stands in the equations, so that they are the same in each candidate.
    is_fixed: bool,
    is_eliminated: bool,
    /// Of each unknown, the factors of those before it and behind them a constant, where some equation fixes it.
    pivots: Vec<Vec<u32>>,
    has_pivot: Vec<bool>,
    values: Vec<u32>,
}

/// The candidates of a shape, one after another.
struct Search<'a> {
    tree: &'a Tree,
    shape: &'a Shape,
    modulus: u64,
    /// Whether each letter is a map that is solved for, or the adjoint of one.
    solved: Vec<bool>,
    /// The first entry of each declared map, and how many entries there are.
    first: Vec<usize>,
    entries: usize,
    is_exhaustive: bool,
    count: u32,
    /// The matrices of letters that some assumption or claim holds.
    matrices: Vec<Option<Matrix>>,
    cells: Vec<u32>,
    /// The cells that show each entry.
    shown: Vec<Vec<usize>>,
    values: Vec<u32>,
    /// The words that a candidate is drawn by, one for each entry.
    words: Vec<u32>,
    /// The entries that are looked at and stand in no block.
    drawn: Vec<usize>,
    /// The assumptions that hold drawn maps alone, or all of them where all values are tried.
    tests: Vec<Value>,
    blocks: Vec<Block>,
    claims: Vec<Value>,
}

impl<'a> Search<'a> {
    fn new(tree: &'a Tree, shape: &'a Shape) -> Search<'a> {
        let (matrices, first) = (vec![None; tree.names.len()], vec![0; tree.names.len()]);
        let modulus = u64::from(shape.modulus);
        let mut solved = vec![false; tree.names.len()];
        for letter in &tree.solved {
            (solved[*letter as usize], solved[tree.stars[*letter as usize] as usize]) = (true, true);
        }
        let mut search = Search {
            tree,
            shape,
            modulus,
            solved,
            first,
            entries: 0,
            is_exhaustive: false,
            count: DRAWN_COUNT,
            matrices,
            cells: Vec::new(),
            shown: Vec::new(),
            values: Vec::new(),
            words: Vec::new(),
            drawn: Vec::new(),
            tests: Vec::new(),
            blocks: Vec::new(),
            claims: Vec::new(),
        };
        search.number_entries();
        search.place_matrices();
        search.claims = tree.claims.iter().map(|claim| search.value(claim)).collect();
        if search.is_exhaustive {
            search.tests = tree.assumptions.iter().map(|assumption| search.value(assumption)).collect();
        } else {
            search.plan();
        }
        search
    }

    fn objects(&self) -> usize {
        self.shape.sides.len()
    }

    fn star(&self, letter: Letter) -> Letter {
        self.tree.stars[letter as usize]
    }

    fn declared_maps(&self) -> impl Iterator<Item = Letter> {
        let stars = self.tree.stars.clone();
        (self.objects()..stars.len())
            .map(|letter| letter as Letter)
            .filter(move |letter| *letter <= stars[*letter as usize])
    }

    /// The rows and the columns of a letter's matrix.
    fn sides(&self, letter: Letter) -> (usize, usize) {
        let (source, target) = self.tree.ends[letter as usize];
        (self.shape.sides[target as usize], self.shape.sides[source as usize])
    }

    fn number_entries(&mut self) {
        for letter in self.declared_maps() {
            let (rows, columns) = self.sides(letter);
            self.first[letter as usize] = self.entries;
            self.entries += if self.star(letter) == letter { rows * (rows + 1) / 2 } else { rows * columns };
        }
        if let Some(count) =
            self.shape.modulus.checked_pow(self.entries as u32).filter(|count| *count <= EXHAUSTIVE_LIMIT)
        {
            (self.is_exhaustive, self.count) = (true, count);
        }
        self.values = vec![0; self.entries];
        self.words = vec![0; self.entries];
        self.shown = vec![Vec::new(); self.entries];
    }

    /// The entry that stands in a row and a column of a letter's matrix.
    fn entry(&self, letter: Letter, row: usize, column: usize) -> usize {
        let star = self.star(letter);
        if star < letter {
            return self.entry(star, column, row);
        }
        let (rows, columns) = self.sides(letter);
        let (row, column) = if star == letter { (row.min(column), row.max(column)) } else { (row, column) };
        let before = if star == letter { row * rows - row * (row + 1) / 2 } else { row * columns };
        self.first[letter as usize] + before + column
    }

    fn place_matrices(&mut self) {
        for polynomial in self.tree.assumptions.iter().chain(&self.tree.claims) {
            for letter in polynomial.iter().flat_map(|(_, word)| word).copied() {
                if (letter as usize) < self.objects() || self.matrices[letter as usize].is_some() {
                    continue;
                }
                let ((rows, columns), cells) = (self.sides(letter), self.cells.len());
                self.matrices[letter as usize] = Some(Matrix { cells, columns });
                self.cells.resize(cells + rows * columns, 0);
                for (row, column) in (0..rows).flat_map(|row| (0..columns).map(move |column| (row, column))) {
                    let entry = self.entry(letter, row, column);
                    self.shown[entry].push(cells + row * columns + column);
                }
            }
        }
    }

    // ---- The plan

    fn reduced(&self, coefficient: i128) -> u64 {
        coefficient.rem_euclid(i128::from(self.modulus)) as u64
    }

    fn matrices_of(&self, word: &[Letter]) -> Vec<Matrix> {
        word.iter().filter_map(|letter| self.matrices[*letter as usize]).collect()
    }

    /// The sides of a polynomial that isn't zero.
    fn value_sides(&self, polynomial: &Polynomial) -> (usize, usize) {
        match polynomial.first().map(|(_, word)| (word.first(), word.last())) {
            Some((Some(front), Some(back))) => (self.sides(*front).0, self.sides(*back).1),
            _ => (0, 0),
        }
    }

    fn value(&self, polynomial: &Polynomial) -> Value {
        let (rows, columns) = self.value_sides(polynomial);
        let term = |(coefficient, word): &(i128, plain_tree::Word)| Term {
            coefficient: self.reduced(*coefficient),
            word: self.matrices_of(word),
        };
        let terms = polynomial.iter().map(term).filter(|term| term.coefficient != 0).collect();
        Value { rows, columns, terms }
    }

    fn is_solved(&self, letter: Letter) -> bool {
        self.solved[letter as usize]
    }

    /// The maps of a polynomial that are solved for, in the terms that aren't zero.
    fn solved_maps(&self, polynomial: &Polynomial) -> Vec<Letter> {
        let terms = polynomial.iter().filter(|(coefficient, _)| self.reduced(*coefficient) != 0);
        let letters = terms.flat_map(|(_, word)| word).copied().filter(|letter| self.is_solved(*letter));
        letters.map(|letter| letter.min(self.star(letter))).collect()
    }

    fn is_linear(&self, polynomial: &Polynomial) -> bool {
        polynomial.iter().all(|(_, word)| word.iter().filter(|letter| self.is_solved(**letter)).count() <= 1)
    }

    /// Puts assumptions where they are tested or solved.
    fn plan(&mut self) {
        let mut block_of: Vec<usize> = (0..self.tree.names.len()).collect();
        let mut is_bound = vec![false; self.tree.names.len()];
        let (linear, others): (Vec<_>, Vec<_>) =
            self.tree.assumptions.iter().partition(|poly| self.is_linear(poly));
        for maps in linear.iter().map(|polynomial| self.solved_maps(polynomial)).filter(|maps| !maps.is_empty()) {
            let (least, blocks) = self.joined(&block_of, &maps);
            block_of.iter_mut().filter(|block| blocks.contains(block)).for_each(|block| *block = least);
            maps.iter().for_each(|map| is_bound[*map as usize] = true);
        }
        let bound: Vec<Letter> = self.declared_maps().filter(|map| is_bound[*map as usize]).collect();
        let mut numbers: Vec<usize> = bound.iter().map(|map| block_of[*map as usize]).collect();
        numbers.sort_unstable();
        numbers.dedup();
        for number in &numbers {
            let maps: Vec<Letter> =
                bound.iter().copied().filter(|map| block_of[*map as usize] == *number).collect();
            let of_block =
                |poly: &&&Polynomial| self.solved_maps(poly).first().is_some_and(|map| maps.contains(map));
            let equations: Vec<&Polynomial> = linear.iter().filter(of_block).copied().collect();
            self.blocks.push(self.block(&maps, &equations));
        }
        let mut is_solved = vec![false; self.entries];
        self.blocks.iter().flat_map(|block| &block.unknowns).for_each(|entry| is_solved[*entry] = true);
        self.drawn =
            (0..self.entries).filter(|entry| !is_solved[*entry] && !self.shown[*entry].is_empty()).collect();
        let drawn = linear.iter().filter(|polynomial| self.solved_maps(polynomial).is_empty());
        self.tests = drawn.map(|polynomial| self.value(polynomial)).collect();
        for polynomial in others {
            let maps = self.solved_maps(polynomial).into_iter().filter(|map| is_bound[*map as usize]);
            let last =
                maps.filter_map(|map| numbers.iter().position(|number| *number == block_of[map as usize])).max();
            let value = self.value(polynomial);
            last.map_or(&mut self.tests, |block| &mut self.blocks[block].tests).push(value);
        }
    }

    /// The blocks of maps, and the least of them.
    fn joined(&self, block_of: &[usize], maps: &[Letter]) -> (usize, Vec<usize>) {
        let blocks: Vec<usize> = maps.iter().map(|map| block_of[*map as usize]).collect();
        (blocks.iter().copied().min().unwrap_or(0), blocks)
    }

    fn block(&self, maps: &[Letter], assumptions: &[&Polynomial]) -> Block {
        let mut place_of = vec![usize::MAX; self.entries];
        let mut unknowns = Vec::new();
        for map in maps {
            let (rows, columns) = self.sides(*map);
            for entry in (0..rows).flat_map(|row| (0..columns).map(move |column| self.entry(*map, row, column))) {
                if place_of[entry] == usize::MAX {
                    place_of[entry] = unknowns.len();
                    unknowns.push(entry);
                }
            }
        }
        let letters = assumptions.iter().flat_map(|polynomial| polynomial.iter()).flat_map(|(_, word)| word);
        let is_fixed = letters.copied().all(|letter| (letter as usize) < self.objects() || self.is_solved(letter));
        let equations = assumptions.iter().map(|polynomial| self.equation(polynomial, &place_of)).collect();
        let (count, has_pivot) = (unknowns.len(), vec![false; unknowns.len()]);
        let pivots = vec![vec![0; count + 1]; count];
        Block {
            unknowns,
            equations,
            tests: Vec::new(),
            is_fixed,
            is_eliminated: false,
            pivots,
            has_pivot,
            values: Vec::new(),
        }
    }

    fn equation(&self, polynomial: &Polynomial, place_of: &[usize]) -> Equation {
        let (with, without): (Polynomial, Polynomial) =
            polynomial.iter().cloned().partition(|(_, word)| word.iter().any(|letter| self.is_solved(*letter)));
        let (rows, columns) = self.value_sides(polynomial);
        let known = Value { rows, columns, ..self.value(&without) };
        let factors = with.iter().filter(|(coefficient, _)| self.reduced(*coefficient) != 0);
        let factors = factors.filter_map(|(coefficient, word)| {
            let cut = word.iter().position(|letter| self.is_solved(*letter))?;
            let (rows, columns) = self.sides(word[cut]);
            let entries =
                (0..rows).flat_map(|row| (0..columns).map(move |column| self.entry(word[cut], row, column)));
            let (left, right) = (self.matrices_of(&word[..cut]), self.matrices_of(&word[cut + 1..]));
            let places = entries.map(|entry| place_of[entry]).collect();
            Some(Factor { coefficient: self.reduced(*coefficient), left, rows, columns, places, right })
        });
        Equation { known, factors: factors.collect() }
    }

    // ---- The search

    fn set(&mut self, entry: usize, value: u32) {
        self.values[entry] = value;
        for cell in &self.shown[entry] {
            self.cells[*cell] = value;
        }
    }

    /// Goes through all candidates, and puts the text of the first model that breaks a claim in the claim's place.
    fn run(&mut self, seed: u64, number: u64, found: &mut [Option<String>]) {
        let mut stream = Stream::new(seed, number);
        let mut system = Vec::new();
        let mut blocks = std::mem::take(&mut self.blocks);
        for candidate in 0..self.count {
            let is_model = if self.is_exhaustive {
                self.count_up(candidate);
                self.pass(&self.tests)
            } else {
                self.draw(&mut stream);
                self.pass(&self.tests) && blocks.iter_mut().all(|block| self.solve(block, &mut system))
            };
            if !is_model {
                continue;
            }
            let broken = |(claim, found): &(&Value, &mut Option<String>)| found.is_none() && !self.is_zero(claim);
            let broken: Vec<_> =
                self.claims.iter().zip(found.iter_mut()).filter(broken).map(|(_, found)| found).collect();
            if !broken.is_empty() {
                let text = self.model();
                broken.into_iter().for_each(|found| *found = Some(text.clone()));
                if found.iter().all(|found| found.is_some()) {
                    return;
                }
            }
        }
    }

    /// Makes the entries the digits of the number, behind those of the number before it.
    fn count_up(&mut self, candidate: u32) {
        for entry in (0..self.entries).take_while(|_| candidate > 0) {
            let digit = self.values[entry] + 1;
            if digit < self.shape.modulus {
                return self.set(entry, digit);
            }
            self.set(entry, 0);
        }
    }

    /// Draws all entries, and reads those that matter at once.
    fn draw(&mut self, stream: &mut Stream) {
        self.words.iter_mut().for_each(|word| *word = stream.next());
        for place in 0..self.drawn.len() {
            let entry = self.drawn[place];
            self.set(entry, self.words[entry] % self.shape.modulus);
        }
    }

    fn pass(&self, values: &[Value]) -> bool {
        values.iter().all(|value| self.is_zero(value))
    }

    /// A row of the product of matrices.
    fn row_of(&self, word: &[Matrix], row: usize) -> Row {
        let mut sum = Row::default();
        let Some((first, rest)) = word.split_first() else {
            sum[row] = 1;
            return sum;
        };
        let mut columns = first.columns;
        for column in 0..columns {
            sum[column] = u64::from(self.cells[first.cells + row * columns + column]);
        }
        for matrix in rest {
            let front = sum;
            sum = Row::default();
            for (place, number) in front[..columns].iter().enumerate().filter(|(_, number)| **number != 0) {
                let line = &self.cells[matrix.cells + place * matrix.columns..][..matrix.columns];
                line.iter().zip(&mut sum).for_each(|(cell, sum)| *sum += number * u64::from(*cell));
            }
            columns = matrix.columns;
            sum[..columns].iter_mut().for_each(|number| *number %= self.modulus);
        }
        sum
    }

    /// A row of the value; its numbers may be above the modulus.
    fn value_row(&self, value: &Value, row: usize) -> Row {
        let mut total = Row::default();
        for term in &value.terms {
            let line = self.row_of(&term.word, row);
            total.iter_mut().zip(line).for_each(|(total, number)| *total += term.coefficient * number);
        }
        total
    }

    fn is_zero(&self, value: &Value) -> bool {
        (0..value.rows)
            .all(|row| self.value_row(value, row)[..value.columns].iter().all(|number| number % self.modulus == 0))
    }

    /// Solves for the maps of a block, and tests the assumptions behind it.
    fn solve(&mut self, block: &mut Block, system: &mut Vec<u64>) -> bool {
        let size = block.unknowns.len() + 1;
        if !block.is_eliminated {
            block.has_pivot.fill(false);
            for place in 0..block.equations.len() {
                self.fill(&block.equations[place], size, system);
                if !system.chunks_exact_mut(size).all(|row| block.add(row, self.modulus)) {
                    return false;
                }
            }
            block.is_eliminated = block.is_fixed;
        }
        block.values.clear();
        for (place, entry) in block.unknowns.iter().enumerate() {
            let mut value = self.words[*entry] % self.shape.modulus;
            if block.has_pivot[place] {
                let pivot = &block.pivots[place];
                let products =
                    pivot.iter().zip(&block.values).map(|(factor, value)| u64::from(*factor) * u64::from(*value));
                let rest = (products.sum::<u64>() + u64::from(pivot[size - 1])) % self.modulus;
                value = ((self.modulus - rest) % self.modulus) as u32;
            }
            block.values.push(value);
            self.set(*entry, value);
        }
        self.pass(&block.tests)
    }

    /// The equations of a linear assumption: for each entry of its value the factors of the unknowns, and a constant.
    fn fill(&self, equation: &Equation, size: usize, system: &mut Vec<u64>) {
        let (rows, columns) = (equation.known.rows, equation.known.columns);
        system.clear();
        system.resize(rows * columns * size, 0);
        for row in 0..rows {
            let line = self.value_row(&equation.known, row);
            (0..columns).for_each(|column| system[(row * columns + column) * size + size - 1] = line[column]);
        }
        for factor in &equation.factors {
            let mut right = [Row::default(); SIDE_LIMIT];
            (0..factor.columns).for_each(|row| right[row] = self.row_of(&factor.right, row));
            for row in 0..rows {
                let left = self.row_of(&factor.left, row);
                for inner in (0..factor.rows).filter(|inner| left[*inner] != 0) {
                    let number = left[inner] * factor.coefficient % self.modulus;
                    for other in 0..factor.columns {
                        let unknown = factor.places[inner * factor.columns + other];
                        for column in 0..columns {
                            system[(row * columns + column) * size + unknown] += number * right[other][column];
                        }
                    }
                }
            }
        }
    }

    // ---- Models

    /// The text of a model, behind its claim. Entries that nothing looked at are read from their words.
    fn model(&mut self) -> String {
        for entry in (0..self.entries).filter(|entry| !self.is_exhaustive && self.shown[*entry].is_empty()) {
            self.values[entry] = self.words[entry] % self.shape.modulus;
        }
        let mut text = format!("modulus {}\n", self.modulus);
        for (name, side) in self.tree.names.iter().zip(&self.shape.sides) {
            text += &format!("side {} {side}\n", &name[1..name.len() - 1]);
        }
        for letter in self.declared_maps() {
            let (rows, columns) = self.sides(letter);
            let number = |row, column| self.values[self.entry(letter, row, column)].to_string();
            let line = |row| (0..columns).map(|column| number(row, column)).collect::<Vec<_>>().join(" ");
            let lines: Vec<String> = (0..rows).map(line).collect();
            text += &format!("map {} = {}\n", self.tree.names[letter as usize], lines.join(" ; "));
        }
        text
    }
}

impl Block {
    /// Adds an equation, and tells whether there can still be a solution. Numbers may be above the modulus.
    fn add(&mut self, row: &mut [u64], modulus: u64) -> bool {
        let last = self.unknowns.len();
        for place in (0..last).rev() {
            let factor = row[place] % modulus;
            if factor == 0 {
                continue;
            }
            let pivot = &mut self.pivots[place];
            if !self.has_pivot[place] {
                let inverse = inverse(factor, modulus);
                let divided = |number: u64| (number % modulus * inverse % modulus) as u32;
                pivot[..place].iter_mut().zip(&row[..place]).for_each(|(to, number)| *to = divided(*number));
                pivot[last] = divided(row[last]);
                self.has_pivot[place] = true;
                return true;
            }
            let by = (modulus - factor) as u32;
            let more = |number: u32| u64::from(by) * u64::from(number);
            row[..place].iter_mut().zip(&pivot[..place]).for_each(|(to, number)| *to += more(*number));
            row[last] += more(pivot[last]);
        }
        row[last] % modulus == 0
    }
}

/// The inverse of a number from 1 to less than a prime.
fn inverse(number: u64, modulus: u64) -> u64 {
    let (mut power, mut square, mut exponent) = (1, number, modulus - 2);
    while exponent > 0 {
        if exponent % 2 == 1 {
            power = power * square % modulus;
        }
        square = square * square % modulus;
        exponent /= 2;
    }
    power
}
