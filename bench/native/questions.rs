//! `questions COUNT [BOUND]`: so many small questions for the solver, and the check of each refutation: 50 clauses over 26 variables whose
//! numbers lie below the bound (640,000 where it is not given), as they do where a question speaks of few of a graph's many cells. Every
//! second question can be met. It prints the seconds and the requests for memory of all, and of making the clauses alone.
use cdcl_solver::solve;
use clause_learning::Answer;
use prop::{Clauses, Lit};
use resolution_log::check_log;
use rstd::alloc::Global;
use std::alloc::{GlobalAlloc, Layout, System};
use std::sync::atomic::{AtomicU64, Ordering::Relaxed};
use std::time::Instant;

struct Counting;
static REQUESTS: AtomicU64 = AtomicU64::new(0);

// SAFETY: each call is the system's own.
unsafe impl GlobalAlloc for Counting {
    unsafe fn alloc(&self, layout: Layout) -> *mut u8 {
        REQUESTS.fetch_add(1, Relaxed);
        unsafe { System.alloc(layout) }
    }
    unsafe fn dealloc(&self, at: *mut u8, layout: Layout) {
        unsafe { System.dealloc(at, layout) }
    }
    unsafe fn realloc(&self, at: *mut u8, layout: Layout, size: usize) -> *mut u8 {
        REQUESTS.fetch_add(1, Relaxed);
        unsafe { System.realloc(at, layout, size) }
    }
}

#[global_allocator]
static ALLOCATOR: Counting = Counting;

struct Dice(u64);

impl Dice {
    fn below(&mut self, bound: u32) -> u32 {
        self.0 = self.0.wrapping_mul(6364136223846793005).wrapping_add(1442695040888963407);
        ((self.0 >> 33) % bound as u64) as u32
    }
}

const VARIABLES: usize = 26;
const EQUAL: usize = 16;

/// The first sixteen variables are equal by thirty clauses; eighteen more clauses have three literals of the others and one of these. The
/// last two clauses say of the first and of the last of the sixteen that they differ, or, where the question can be met, the same.
fn question(dice: &mut Dice, bound: u32, is_met: bool) -> Clauses {
    let vars: std::vec::Vec<u32> = (0..VARIABLES).map(|_| dice.below(bound)).collect();
    let lit = |at: usize, positive: bool| Lit { var: vars[at], positive };
    let mut clauses = Clauses::new(Global);
    for at in 1..EQUAL {
        clauses.push(&[lit(at - 1, true), lit(at, false)]).unwrap();
        clauses.push(&[lit(at - 1, false), lit(at, true)]).unwrap();
    }
    for _ in 0..18 {
        let mut clause = std::vec![lit(dice.below(EQUAL as u32) as usize, dice.below(2) == 0)];
        let first = EQUAL + dice.below(4) as usize;
        clause.extend((0..3).map(|step| lit(first + 2 * step, dice.below(2) == 0)));
        clauses.push(&clause).unwrap();
    }
    clauses.push(&[lit(0, true)]).unwrap();
    clauses.push(&[lit(EQUAL - 1, is_met)]).unwrap();
    clauses
}

fn main() {
    let words: std::vec::Vec<u32> = std::env::args().skip(1).map(|it| it.parse().expect("a number")).collect();
    let (count, bound) = (words[0], words.get(1).copied().unwrap_or(640_000));
    for asks in [false, true] {
        let mut dice = Dice(1);
        let (mut met, mut refuted, mut chains) = (0, 0, 0);
        let (begun, before) = (Instant::now(), REQUESTS.load(Relaxed));
        for number in 0..count {
            let clauses = question(&mut dice, bound, number % 2 == 0);
            if asks {
                match solve(Global, &clauses, 1000).ok().expect("memory") {
                    Answer::Sat(_) => met += 1,
                    Answer::Unsat(log) => {
                        check_log(Global, &clauses, &log).expect("a refutation");
                        refuted += 1;
                        chains += log.len();
                    }
                    Answer::Spent(_) => panic!("no question is so hard"),
                }
            }
        }
        let (took, requests) = (begun.elapsed().as_secs_f64(), REQUESTS.load(Relaxed) - before);
        println!("{} seconds {took:.3} requests {requests} met {met} refuted {refuted} chains {chains}", if asks { "answered" } else { "made" });
    }
}
