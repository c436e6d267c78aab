//! What the two programs write for a file.
use crate::oracle::{self, Tree};
use crate::survey::{self, Refused, Survey};
use std::fmt::Write as _;

fn refusal(refused: Refused) -> String {
    let Refused(number, value, wall) = refused;
    let wall = wall.map_or(String::new(), |wall| format!(" {} {}", wall.0, wall.1));
    format!("refused {number} {value}{wall}\n")
}

fn row(keys: &[u64]) -> String {
    keys.iter().map(|key| format!(" {key}")).collect()
}

fn listing_of(s: &Survey, tree: &Tree, near_work: usize) -> String {
    let (nodes, sources) = (tree.keys.len(), s.sources.len() / s.axes);
    let depth = tree.depth;
    let mut text = format!("tree {} {nodes} {depth} {sources} {near_work}\n", s.axes);
    for (number, &key) in tree.keys.iter().enumerate() {
        let (u, v) = (row(tree.u_row(key)), row(tree.v_row(key)));
        writeln!(text, "{number} {key} {} U{u} V{v}", tree.own(key)).unwrap();
    }
    text
}

fn listed(s: &Survey) -> Result<String, Refused> {
    let tree = oracle::build_with_lists(s)?;
    let near_work = oracle::near_work(s, &tree)?;
    Ok(listing_of(s, &tree, near_work))
}

/// The listing, as document 01 writes it, with near work and its refusals as request 2 has them.
pub fn listing(bytes: &[u8]) -> String {
    let made = survey::read(bytes).and_then(|s| listed(&s));
    made.unwrap_or_else(refusal)
}

/// The bytes of the listing that a survey would have, were its sources the targets.
pub fn length(s: &Survey) -> usize {
    let text = oracle::build_with_lists(s).map(|tree| {
        let near_work = tree.near_work(&tree.leaves_of_sources());
        listing_of(s, &tree, near_work)
    });
    text.unwrap_or_else(refusal).len()
}

/// `leaves`, how many points, the sum of steps, and the key of each point's leaf.
pub fn lookup(bytes: &[u8]) -> String {
    let made = survey::read(bytes).and_then(|s| oracle::lookup(&s, &oracle::build(&s)?));
    made.map_or_else(refusal, |(keys, steps)| {
        format!("leaves {} {steps}{}\n", keys.len(), row(&keys))
    })
}
