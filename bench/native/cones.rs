//! The values of one term in many stores: of its whole table, and by the terms below it alone. Prints both in microseconds, and how often they differ.
use bv_term::{Term, TermId, Terms};
use rstd::alloc::Global;
use std::time::Instant;
use term_values::ConeTerms;

const CELLS: u32 = 100;
const TERMS: u32 = 10_000;
const MADE: u32 = 1_000;
const ASKED: u32 = 100_000;
const COMPARED: u32 = 2_000;

struct Dice(u64);

impl Dice {
    fn next(&mut self, below: u32) -> u32 {
        self.0 = self.0.wrapping_mul(6364136223846793005).wrapping_add(1442695040888963407);
        ((self.0 >> 33) % below as u64) as u32
    }
}

fn table(dice: &mut Dice) -> (Terms, TermId) {
    let mut widths = rstd::Vec::new(Global);
    for _ in 0..CELLS {
        let _ = widths.push(32u32);
    }
    let mut terms = Terms::new(Global, widths);
    let mut made = Vec::new();
    for cell in 0..CELLS {
        made.push(terms.put(Term::Cell(cell)).ok().unwrap());
    }
    while terms.count() < TERMS - 10 {
        let one = made[dice.next(made.len() as u32) as usize];
        let other = made[dice.next(made.len() as u32) as usize];
        let term = match dice.next(4) {
            0 => Term::Add(one, other),
            1 => Term::Xor(one, other),
            2 => Term::And(one, other),
            _ => Term::Subtract(one, other),
        };
        made.push(terms.put(term).ok().unwrap());
    }
    // Ten cells, nine sums and a comparison.
    let mut sum = made[0];
    for cell in 1..10 {
        sum = terms.append(Term::Add(sum, made[cell])).ok().unwrap();
    }
    let top = terms.append(Term::Less(sum, made[3])).ok().unwrap();
    (terms, top)
}

fn each(count: u32, mut deed: impl FnMut(u32)) -> f64 {
    let begin = Instant::now();
    for number in 0..count {
        deed(number);
    }
    begin.elapsed().as_secs_f64() * 1e6 / count as f64
}

fn main() {
    let mut dice = Dice(1);
    let (terms, top) = table(&mut dice);
    let mut store: Vec<u128> = (0..CELLS).map(|_| dice.next(1 << 31) as u128).collect();
    let mut seen = 0u128;
    let making = each(MADE, |_| drop(ConeTerms::new(Global, &terms, top).ok().unwrap()));
    let cone = ConeTerms::new(Global, &terms, top).ok().unwrap();
    let one = each(ASKED, |number| {
        store[5] = number as u128;
        seen += cone.value(Global, &store).ok().unwrap();
    });
    let whole = each(COMPARED, |number| {
        store[5] = number as u128;
        seen += terms.values(Global, &store).ok().unwrap()[top.0 as usize];
    });
    let mut differ = 0;
    for _ in 0..200 {
        store.iter_mut().for_each(|value| *value = dice.next(1 << 31) as u128);
        let term = TermId(dice.next(terms.count()));
        let cone = ConeTerms::new(Global, &terms, term).ok().unwrap();
        differ += (cone.value(Global, &store).ok().unwrap() != terms.values(Global, &store).ok().unwrap()[term.0 as usize]) as u32;
    }
    println!("terms {} making {making:.1} one {one:.2} whole {whole:.0} differ {differ} (sum {seen})", terms.count());
}
