//! The words after `bench/run`.
use std::env;
use std::process::exit;
use std::slice;

const CALLS: [&str; 11] = [
    "build",
    "lookup",
    "lists",
    "near_work",
    "check_sums",
    "balance",
    "one_more",
    "files",
    "coding",
    "growth",
    "clearing",
];

pub struct Words {
    /// Fewer runs.
    pub short: bool,
    /// The worst cases alone.
    pub worst: bool,
    /// The usual shapes alone, with this limit of a cell: one with more sources splits.
    pub limit: Option<usize>,
    only: Option<String>,
}

/// Ends the program where its words cannot be read.
fn usage(wrong: &str) -> ! {
    eprintln!(
        "{wrong}: the words are --short, --worst, --limit N and --only CALL, which is one of {}",
        CALLS.join(", ")
    );
    exit(2)
}

impl Words {
    pub fn read() -> Words {
        let mut w = Words {
            short: false,
            worst: false,
            limit: None,
            only: None,
        };
        let mut words = env::args().skip(1);
        while let Some(word) = words.next() {
            let mut next = || words.next().unwrap_or_else(|| usage(&word));
            match word.as_str() {
                "--short" => w.short = true,
                "--worst" => w.worst = true,
                "--limit" => w.limit = Some(number(&next())),
                "--only" => w.only = Some(call(next())),
                _ => usage(&word),
            }
        }
        w
    }

    /// Whether a call is to be measured: all are, or the one after `--only`.
    pub fn wants(&self, call: &str) -> bool {
        self.only.as_ref().is_none_or(|only| only == call)
    }

    /// The limits with which the usual shapes are measured.
    pub fn limits(&self) -> &[usize] {
        self.limit.as_ref().map_or(&[64, 16], slice::from_ref)
    }

    pub fn runs(&self) -> usize {
        if self.short { 3 } else { 15 }
    }
}

fn number(word: &str) -> usize {
    match word.parse() {
        Ok(limit) if limit > 0 => limit,
        _ => usage(&format!("--limit {word}, which is no number from 1 on")),
    }
}

fn call(word: String) -> String {
    if CALLS.contains(&word.as_str()) {
        word
    } else {
        usage(&format!("--only {word}"))
    }
}
