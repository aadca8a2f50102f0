//! How many cases of each kind were compared, and how many differ.

use std::{
    collections::BTreeMap,
    panic::{self, AssertUnwindSafe},
    process::ExitCode,
    sync::{
        atomic::{AtomicBool, Ordering},
        Once,
    },
};

use crate::{models::Why, random::Random};

/// How many differences of a kind are printed.
const TOLD: u64 = 5;

/// Why cases are left out, in the order of `Why`.
const WHYS: [&str; 2] = ["a NonZero cover above 16", "a listed clip that is changed"];

pub struct Tally {
    n: u64,
    seed: u64,
    /// Only kinds with this in their name are tried.
    only: String,
    compared: u64,
    differ: u64,
    left_out: [LeftOut; 2],
}

/// How many cases the second model judges in place of the Rust, and in how many the Rust has another answer: by W-205,
/// and by W-208.
#[derive(Clone, Copy, Default)]
struct LeftOut {
    cases: u64,
    others: u64,
}

pub struct Kind {
    pub random: Random,
    compared: u64,
    differ: u64,
    left_out: [LeftOut; 2],
    outcomes: BTreeMap<&'static str, u64>,
}

impl Tally {
    pub fn new(n: u64, seed: u64, only: String) -> Self {
        Self { n, seed, only, compared: 0, differ: 0, left_out: Default::default() }
    }

    /// N random cases of a kind, whose random numbers depend on its name and on the seed alone.
    pub fn random(&mut self, name: &str, mut case: impl FnMut(&mut Kind)) {
        let n = self.n;
        self.kind(name, |kind| (0..n).for_each(|_| case(kind)));
    }

    /// One of so many parts of N, at least 1.
    pub fn share(&self, parts: u64) -> u64 {
        self.n.div_ceil(parts).max(1)
    }

    /// A kind that says itself how many cases it has.
    pub fn kind(&mut self, name: &str, cases: impl FnOnce(&mut Kind)) {
        if !name.contains(&self.only) {
            return;
        }
        let seed = name.bytes().fold(self.seed, |seed, byte| seed.wrapping_mul(0x100_0000_01B3) ^ u64::from(byte));
        let random = Random::new(seed);
        let left_out = Default::default();
        let mut kind = Kind { random, compared: 0, differ: 0, left_out, outcomes: BTreeMap::new() };
        cases(&mut kind);
        println!("{name}: {} compared, {} differ{}", kind.compared, kind.differ, kind.told());
        for (left_out, why) in kind.left_out.iter().zip(WHYS) {
            if left_out.cases > 0 {
                println!("{name}, left out of the comparison with the Rust: {}", left_out.told(why));
            }
        }
        for (all, left_out) in self.left_out.iter_mut().zip(kind.left_out) {
            all.cases += left_out.cases;
            all.others += left_out.others;
        }
        self.compared += kind.compared;
        self.differ += kind.differ;
    }

    pub fn end(self) -> ExitCode {
        for (left_out, why) in self.left_out.iter().zip(WHYS) {
            println!("left out of the comparison with the Rust: {}", left_out.told(why));
        }
        println!("{} compared, {} differ", self.compared, self.differ);
        ExitCode::from(u8::from(self.differ != 0))
    }
}

impl LeftOut {
    fn told(self, why: &str) -> String {
        let Self { cases, others } = self;
        format!("{cases} by {why}, compared with the second model; {others} are otherwise in the Rust")
    }
}

impl Kind {
    /// Counts a case that the second model judges in place of the Rust, whose answer may be another one.
    pub fn leave_out(&mut self, why: Why, is_other: bool) {
        let left_out = &mut self.left_out[why as usize];
        left_out.cases += 1;
        left_out.others += u64::from(is_other);
    }

    /// Counts an outcome, so that the last lines show whether the cases meet all that they should.
    pub fn note(&mut self, outcome: &'static str) {
        *self.outcomes.entry(outcome).or_default() += 1;
    }

    fn told(&self) -> String {
        let told: Vec<String> = self.outcomes.iter().map(|(outcome, count)| format!("{outcome} {count}")).collect();
        if told.is_empty() {
            String::new()
        } else {
            format!(" ({})", told.join(", "))
        }
    }

    pub fn case(&mut self, same: bool, tell: impl FnOnce() -> String) {
        self.compared += 1;
        if !same {
            self.differ += 1;
            if self.differ <= TOLD {
                println!("differs: {}", tell());
            }
        }
    }
}

static QUIET: AtomicBool = AtomicBool::new(false);

/// What the Rust gives, or nothing where it panics: with overflow checks on, a lane that overflows does.
pub fn caught<T>(call: impl FnOnce() -> T) -> Option<T> {
    static HOOK: Once = Once::new();
    HOOK.call_once(|| {
        let loud = panic::take_hook();
        panic::set_hook(Box::new(move |info| {
            if !QUIET.load(Ordering::Relaxed) {
                loud(info);
            }
        }));
    });
    QUIET.store(true, Ordering::Relaxed);
    let result = panic::catch_unwind(AssertUnwindSafe(call)).ok();
    QUIET.store(false, Ordering::Relaxed);
    result
}
