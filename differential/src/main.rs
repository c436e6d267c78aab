//! Compares Lohandema with the customer's Rust, call by call, on the same inputs. `run` beside this folder starts it.
mod apart;
mod balance;
mod builds;
mod differences;
mod face;
mod file_faults;
mod file_reading;
mod files;
mod grids;
mod inputs;
mod keys;
mod limits;
mod near_work;
mod one_more;
mod oracle;
mod plain_file;
mod plain_salvage;
mod points;
mod random;
mod refusals;
mod renumbered;
mod room;
mod runs;
mod salvage;
mod sums;
mod swapped;
mod tally;
mod totals;
mod trees;
mod walls;

use apart::Slate;
use std::env;
use tally::{Kind, Tally, Wanted};

/// Ends the run where its words cannot be read.
fn usage(wrong: &str) -> ! {
    eprintln!("{wrong}: the words are --short, --seed N, --kind NAME and --case N");
    std::process::exit(2)
}

fn wanted() -> Wanted {
    let mut w = Wanted {
        seed: 41_379_942,
        short: false,
        kind: None,
        case: None,
        slate: None,
    };
    let number = |text: String| text.parse().unwrap_or_else(|_| usage(&text));
    let mut words = env::args().skip(1);
    while let Some(word) = words.next() {
        let mut next = || words.next().unwrap_or_else(|| usage(&word));
        match word.as_str() {
            "--short" => w.short = true,
            "--seed" => w.seed = number(next()),
            "--kind" => w.kind = Some(next()),
            "--case" => w.case = Some(number(next())),
            // only the run itself says this, to the process of a kind
            "--slate" => w.slate = Some(next()),
            _ => usage(&word),
        }
    }
    w
}

const KINDS: &[Kind] = &[
    ("keys-small", 1, keys::small),
    ("keys-tables", 1, keys::tables),
    ("keys-random", 200_000, keys::random),
    ("keys-any", 200_000, keys::any),
    ("touching", 1_000_000, keys::touching),
    ("extents", 500_000, points::extents),
    ("boxes", 200_000, points::boxes),
    ("anchors", 200_000, points::anchors),
    ("walls", 5_000, walls::walls),
    ("cells", 300_000, points::cells),
    ("reference-depth", 1, points::depths),
    ("build", 3_000, builds::build),
    ("refine-limit", 2_000, limits::refinement),
    ("build-refusals", 10_000, builds::refusals),
    ("grid", 6_000, grids::grid),
    ("renumbered", 3_000, renumbered::renumbered),
    ("cell-sources", 3_000, runs::cell_sources),
    ("swapped", 3_000, swapped::swapped),
    ("lookup", 3_000, trees::lookup),
    ("lookup-many", 1, trees::lookup_many),
    ("grouping", 2_000, trees::grouping),
    ("sourced", 2_000, trees::sourced),
    ("lists", 20_000, trees::lists),
    ("lists-odd", 30_000, trees::odd_lists),
    ("tree-file", 4_000, files::tree_file),
    ("near-work", 3_000, near_work::near_work),
    ("sums", 800, sums::sums),
    ("salvage", 6_000, salvage::salvage),
    ("balance", 6_000, balance::balance),
    ("one-more", 10_000, one_more::one_more),
    ("well-formed", 20_000, refusals::trees_handed_in),
    ("refusals", 4_000, refusals::tree_calls),
    ("large", 1, refusals::large),
    ("intended-differences", 1, differences::intended),
];

/// Starts a process for each kind; one that was started so runs its kind.
fn main() {
    let wanted = wanted();
    let Some(path) = &wanted.slate else {
        apart::run_all(&wanted, KINDS)
    };
    let slate = Slate::given(path);
    for kind in KINDS {
        if wanted.kind.as_deref() == Some(kind.0) {
            Tally::run(&wanted, *kind, &slate);
        }
    }
}
