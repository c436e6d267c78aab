//! The intended differences of docs/DIFFERENCES.md: each row of its tables at its input, what the Rust answers and what we do.
mod caps;
mod grids;
mod handed_in;
mod keys;
mod list_caps;
mod points;
mod trees;

use crate::keys::refused;
use crate::oracle;
use crate::random::Random;
use crate::tally::Tally;
use lohandema::Refusal;
use lohandema::points::Bounds;
use std::collections::BTreeSet;
use std::fmt::Debug;

const TABLES: &str = include_str!("../../../docs/DIFFERENCES.md");

/// The rows that were run.
struct Rows<'a, 'w> {
    t: &'a mut Tally<'w>,
    ran: BTreeSet<String>,
}

/// What was seen, and what the table says.
type Seen<T> = (T, T);

impl Rows<'_, '_> {
    /// Both sides answer.
    fn answered<A: PartialEq + Debug, B: PartialEq + Debug>(
        &mut self,
        row: &str,
        input: &str,
        ours: Seen<A>,
        theirs: Seen<B>,
    ) {
        self.ran.insert(row.to_string());
        self.t
            .same(row, (ours.0, theirs.0), (ours.1, theirs.1), || {
                input.to_string()
            });
    }

    /// The Rust answers, and we refuse.
    fn refused<A: PartialEq + Debug, B: PartialEq + Debug>(
        &mut self,
        row: &str,
        input: &str,
        ours: Result<A, Refusal>,
        (number, value): (u64, usize),
        theirs: Seen<B>,
    ) {
        self.t.refusal();
        self.answered(row, input, (ours, refused(number, value)), theirs);
    }

    /// The Rust answers, and we refuse point 0 on one axis, with its wall.
    fn outside<A: PartialEq + Debug, B: PartialEq + Debug>(
        &mut self,
        row: &str,
        input: &str,
        ours: Result<A, Refusal>,
        (number, b, x): (u64, &Bounds, f64),
        theirs: Seen<B>,
    ) {
        self.t.refusal();
        let right = oracle::refused_at(number, 0, b, &[x]);
        self.answered(row, input, (ours, right), theirs);
    }

    /// The Rust cannot be asked.
    fn refused_here<A: PartialEq + Debug>(
        &mut self,
        row: &str,
        input: &str,
        ours: Result<A, Refusal>,
        refusal: (u64, usize),
    ) {
        self.refused(row, input, ours, refusal, ((), ()));
    }
}

/// The numbers of the tables' rows, without those that say why they are not run.
fn rows_to_run() -> BTreeSet<String> {
    TABLES
        .lines()
        .filter(|line| !line.contains("not run"))
        .filter_map(|line| line.strip_prefix("| "))
        .filter_map(|line| line.split_once(" |"))
        .map(|(first, _)| first.to_string())
        .filter(|first| {
            let digits = first.strip_prefix(['K', 'P', 'T']);
            digits.is_some_and(|n| n.parse::<u64>().is_ok())
        })
        .collect()
}

pub fn intended(t: &mut Tally, _r: &mut Random, _case: u64) {
    let mut rows = Rows {
        t,
        ran: BTreeSet::new(),
    };
    keys::run(&mut rows);
    points::run(&mut rows);
    trees::run(&mut rows);
    grids::run(&mut rows);
    handed_in::run(&mut rows);
    caps::run(&mut rows);
    list_caps::run(&mut rows);
    let ran = rows.ran;
    t.same("the rows of the tables", ran, rows_to_run(), || {
        "docs/DIFFERENCES.md".to_string()
    });
}
