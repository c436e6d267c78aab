//! What was compared in a kind, and what differed.
use crate::apart::Slate;
use crate::random::Random;
use std::fmt::Debug;
use std::ops::AddAssign;
use std::time::Instant;

/// What the command line asks for.
pub struct Wanted {
    pub seed: u64,
    pub short: bool,
    pub kind: Option<String>,
    pub case: Option<u64>,
    /// Where a process that runs one kind writes down how far it is.
    pub slate: Option<String>,
}

/// A kind: its name, how many cases a full run has, and what a case does.
pub type Kind = (&'static str, u64, fn(&mut Tally, &mut Random, u64));

#[derive(Clone, Copy, Default)]
pub struct Counts {
    pub compared: u64,
    pub refusals: u64,
    pub differences: u64,
}

impl AddAssign for Counts {
    fn add_assign(&mut self, other: Counts) {
        self.compared += other.compared;
        self.refusals += other.refusals;
        self.differences += other.differences;
    }
}

pub struct Tally<'a> {
    wanted: &'a Wanted,
    kind: &'static str,
    case: u64,
    counts: Counts,
}

impl Tally<'_> {
    /// Runs a kind: so many cases, or a tenth of them in a short run, each with random numbers of its own.
    pub fn run(wanted: &Wanted, (kind, cases, check): Kind, slate: &Slate) {
        let mut tally = Tally {
            wanted,
            kind,
            case: 0,
            counts: Counts::default(),
        };
        let cases = if wanted.short {
            cases.div_ceil(10)
        } else {
            cases
        };
        let from = Instant::now();
        for case in 0..cases {
            if wanted.case.is_some_and(|only| only != case) {
                continue;
            }
            slate.begins(case);
            tally.case = case;
            let random = &mut Random::of(wanted.seed, kind, case);
            check(&mut tally, random, case);
        }
        let counts = tally.counts;
        println!(
            "{kind}: {} compared, {} of them refusals, {} differences, {:.1} s",
            counts.compared,
            counts.refusals,
            counts.differences,
            from.elapsed().as_secs_f64()
        );
        slate.ended(counts);
    }

    pub fn short(&self) -> bool {
        self.wanted.short
    }

    /// Compares one answer; `input` is written out where the two differ.
    pub fn same<T: PartialEq + Debug>(
        &mut self,
        what: &str,
        ours: T,
        theirs: T,
        input: impl Fn() -> String,
    ) {
        self.counts.compared += 1;
        if ours == theirs {
            return;
        }
        self.counts.differences += 1;
        if self.counts.differences <= 5 {
            let (mut ours, mut theirs) = (format!("{ours:?}"), format!("{theirs:?}"));
            ours.truncate(2000);
            theirs.truncate(2000);
            println!(
                "{} differs: --seed {} --kind {} --case {}\n  {}\n  ours   {ours}\n  theirs {theirs}",
                what,
                self.wanted.seed,
                self.kind,
                self.case,
                input()
            );
        }
    }

    /// Counts a comparison whose right answer is a refusal.
    pub fn refusal(&mut self) {
        self.counts.refusals += 1;
    }
}
