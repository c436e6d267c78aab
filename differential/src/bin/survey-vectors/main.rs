//! Records listings and lookups of survey files, for crates/listing_vectors and crates/lookup_vectors to replay.
//!
//! Trees, own sources, lists and leaves are those of the customer's Rust, called unchanged. Refusals, the room and the
//! texts are document 01's.
use std::collections::BTreeMap;
use std::{env, fs, path::Path};

mod answers;
mod cases;
mod damaged;
mod oracle;
#[path = "../../random.rs"]
mod random;
mod room;
mod shapes;
mod survey;

/// Each file as its length (u32, little-endian) and its bytes.
fn container(files: &[Vec<u8>]) -> Vec<u8> {
    let part = |file: &Vec<u8>| [&(file.len() as u32).to_le_bytes()[..], &file[..]].concat();
    files.iter().flat_map(part).collect()
}

/// `file` and its number before each answer.
fn numbered(answers: &[String]) -> String {
    let part = |(number, answer): (usize, &String)| format!("file {number}\n{answer}");
    answers.iter().enumerate().map(part).collect()
}

/// How many answers of each kind there are: the first word, and of a refusal all words but an index and an axis.
fn kinds(answers: &[String]) -> BTreeMap<String, usize> {
    let mut kinds = BTreeMap::new();
    for answer in answers {
        let words: Vec<&str> = answer.split_whitespace().collect();
        let kind = match words[..] {
            ["refused", "8", which] => format!("refused 8 {which}"),
            ["refused", number, _, _, reason] => format!("refused {number} by {reason}"),
            ["refused", number, _] => format!("refused {number}"),
            _ => words[0].to_string(),
        };
        *kinds.entry(kind).or_insert(0) += 1;
    }
    kinds
}

fn record(folder: &Path, files: &[Vec<u8>], answer: fn(&[u8]) -> String) {
    let answers: Vec<String> = files.iter().map(|file| answer(file)).collect();
    let (given, told) = (container(files), numbered(&answers));
    println!(
        "{}: {} files, {} bytes, {} bytes of text, {:?}",
        folder.display(),
        files.len(),
        given.len(),
        told.len(),
        kinds(&answers)
    );
    fs::write(folder.join("stdin"), given).unwrap();
    fs::write(folder.join("stdout"), told).unwrap();
}

/// A single listing, to hold against one that was made otherwise.
fn print_listing(path: &str) {
    print!("{}", answers::listing(&fs::read(path).unwrap()));
}

fn main() {
    let arguments: Vec<String> = env::args().skip(1).collect();
    let words: Vec<&str> = arguments.iter().map(String::as_str).collect();
    match words[..] {
        ["listings", folder] => record(Path::new(folder), &cases::of_listing(), answers::listing),
        ["lookups", folder] => record(Path::new(folder), &cases::of_lookup(), answers::lookup),
        ["listing", file] => print_listing(file),
        _ => {
            panic!("usage: survey-vectors listings|lookups FOLDER, or survey-vectors listing FILE")
        }
    }
}
