//! The claims of workers in plain Rust, for native builds: two words that all share, each step one atomic step.
use lv_base::Memory;
use rstd::alloc::Global;
use rstd::prelude::*;
use std::sync::atomic::{AtomicU64, Ordering};

pub struct Claims {
    next: AtomicU64,
    least: AtomicU64,
    total: u32,
}

pub struct Claimer;

#[derive(Clone, Copy, PartialEq, Eq, Debug)]
pub struct Closed {
    pub claimed: u32,
    pub lowest: u32,
}

impl Claims {
    pub fn new(alloc: Global, total: u32, workers: u32) -> Result<(Claims, Vec<Claimer>), Memory> {
        let mut claimers = Vec::new(alloc);
        for _ in 0..workers {
            claimers.push(Claimer)?;
        }
        let claims = Claims {
            next: AtomicU64::new(0),
            least: AtomicU64::new(4294967295),
            total,
        };
        Ok((claims, claimers))
    }

    pub fn claim(&self, _: &mut Claimer) -> Option<u32> {
        let found = self.next.fetch_add(1, Ordering::SeqCst);
        (found < u64::from(self.total)).then_some(found as u32)
    }

    pub fn report(&self, _: &mut Claimer, number: u32) {
        self.least.fetch_min(u64::from(number), Ordering::SeqCst);
    }

    pub fn lowest(&self, _: &mut Claimer) -> u32 {
        self.least.load(Ordering::SeqCst) as u32
    }

    pub fn close(self, _: Vec<Claimer>) -> Closed {
        Closed {
            claimed: (self.next.into_inner() as u32).min(self.total),
            lowest: self.least.into_inner() as u32,
        }
    }
}
