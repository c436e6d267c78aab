//! Lohandema beside the customer's Rust and beside plain Rust with sorted vectors: one process, one thread, identical trees.
//! `run` beside this folder starts it. For each measure the least of several times counts.
mod balance;
mod clock;
mod coding;
mod customer;
mod files;
mod grids;
mod growth;
mod near;
mod one_more;
mod plain;
mod plain_build;
mod report;
mod shapes;
mod slices;
mod sums;
mod survey;
mod words;
mod worst;

use report::{Named, Report};
use survey::Survey;
use words::Words;

const POINTS: usize = 100_000;
/// The limit with which growth is measured: with fewer points in a cell the lists of many points have too many keys.
const USUAL_LIMIT: usize = 64;

/// The calls on a tree, for each shape.
fn surveys(words: &Words, report: &Report) {
    for &limit in words.limits() {
        for shape in shapes::SHAPES {
            let points = shapes::points(shape, POINTS);
            for keep in [false, true] {
                let named = Named { shape, limit, keep };
                Survey::new(report, named, &points).measure(words);
            }
        }
    }
}

/// What is measured of each shape beside the calls on its tree.
fn others(words: &Words, report: &Report) {
    for shape in shapes::SHAPES {
        for keep in [false, true] {
            let limit = USUAL_LIMIT;
            let named = Named { shape, limit, keep };
            if words.wants("growth") {
                growth::measure(report, named, words.runs());
            }
            if words.wants("clearing") && !keep {
                growth::clearing(report, named, words.runs());
            }
            if words.wants("coding") && !keep {
                coding::measure(report, named, words.runs());
            }
        }
    }
}

fn main() {
    let (words, report) = (Words::read(), Report::default());
    if !words.worst {
        if ["build", "lookup", "lists"]
            .iter()
            .any(|call| words.wants(call))
        {
            surveys(&words, &report);
        }
        others(&words, &report);
        if words.wants("build") && words.limit.is_none() {
            grids::measure(&report, words.runs());
        }
    }
    near::measure(&words, &report);
    sums::measure(&words, &report);
    balance::measure(&words, &report);
    one_more::measure(&words, &report);
    files::measure(&words, &report);
    if words.limit.is_none() {
        worst::measure(&words, &report);
    }
    report.end();
}
