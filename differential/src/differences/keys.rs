//! The table "Keys".
use super::Rows;
use crate::face;
use crate::oracle::dimensions;
use ferreus_bbfmm::morton;
use lohandema::keys;
use std::collections::HashSet;

pub fn run(rows: &mut Rows) {
    root_and_deepest(rows);
    not_valid(rows);
    no_axes(rows);
    shapes(rows);
    encode(rows);
}

fn root_and_deepest(rows: &mut Rows) {
    let d = dimensions(1);
    let parent = (morton::get_parent(0, &d), None);
    rows.refused("K1", "key 0", keys::get_parent(1, 0), (10, 0), parent);
    let siblings = (morton::get_siblings(0, &d), vec![0, 32768]);
    rows.refused("K2", "key 0", keys::get_siblings(1, 0), (10, 0), siblings);
    let children = (morton::get_children(16, &d), vec![17, 32785]);
    rows.refused("K3", "key 16", keys::get_children(1, 16), (11, 0), children);
}

/// What the Rust answers of a key.
struct Told {
    level: u64,
    parent: u64,
    child_index: usize,
    children: Vec<u64>,
    siblings: Vec<u64>,
    ancestors: Vec<u64>,
    neighbours: Vec<u64>,
    anchor: Vec<u64>,
}

fn not_valid_key(rows: &mut Rows, row: &str, axes: usize, key: u64, told: Told) {
    let d = dimensions(axes);
    let kind = |call: &str| format!("{call}, {axes} axes, key {key}");
    let level = (morton::get_level(key), told.level);
    let ours = keys::get_level(axes, key);
    rows.refused(row, &kind("level"), ours, (9, 0), level);
    let parent = (morton::get_parent(key, &d), Some(told.parent));
    let ours = keys::get_parent(axes, key);
    rows.refused(row, &kind("parent"), ours, (9, 0), parent);
    let index = (morton::get_child_index(&key, &d), told.child_index);
    let ours = keys::get_child_index(axes, key);
    rows.refused(row, &kind("child index"), ours, (9, 0), index);
    let children = (morton::get_children(key, &d), told.children);
    let ours = keys::get_children(axes, key);
    rows.refused(row, &kind("children"), ours, (9, 0), children);
    let siblings = (morton::get_siblings(key, &d), told.siblings);
    let ours = keys::get_siblings(axes, key);
    rows.refused(row, &kind("siblings"), ours, (9, 0), siblings);
    let said: HashSet<u64> = told.ancestors.into_iter().collect();
    let ours = keys::get_ancestors(axes, key);
    let ancestors = (morton::get_ancestors(key, &d), said);
    rows.refused(row, &kind("ancestors"), ours, (9, 0), ancestors);
    let neighbours = (morton::get_neighbours(key, &d), told.neighbours);
    let ours = keys::get_neighbours(axes, key);
    rows.refused(row, &kind("neighbours"), ours, (9, 0), neighbours);
    let anchor = (morton::decode_key(key, &d), told.anchor);
    let ours = keys::decode_key(axes, key);
    rows.refused(row, &kind("decode"), ours, (9, 0), anchor);
    rows.refused_here(row, &kind("touching"), keys::touching(axes, key, 0), (9, 0));
}

fn not_valid(rows: &mut Rows) {
    let code_too_large = Told {
        level: 1,
        parent: 32768,
        child_index: 0,
        children: vec![524290, 557058, 589826, 622594],
        siblings: vec![131073, 163841, 196609, 229377],
        ancestors: vec![131073, 32768],
        neighbours: vec![32769, 98305],
        anchor: vec![2, 0, 1],
    };
    not_valid_key(rows, "K4", 2, 131073, code_too_large);
    let too_deep = Told {
        level: 17,
        parent: 16,
        child_index: 0,
        children: vec![18, 32786],
        siblings: vec![17, 32785],
        ancestors: (0..=17).collect(),
        neighbours: vec![32785],
        anchor: vec![0, 17],
    };
    not_valid_key(rows, "K5", 1, 17, too_deep);
    // where the level is no shift; in a debug build of the Rust this fails
    let neighbours = (morton::get_neighbours(32767, &dimensions(1)), vec![]);
    let ours = keys::get_neighbours(1, 32767);
    rows.refused("K6", "key 32767", ours, (9, 0), neighbours);
}

/// The Rust's type has no such number of axes.
fn no_axes(rows: &mut Rows) {
    for axes in [0, 4] {
        let input = format!("{axes} axes");
        let numbers = [
            keys::get_level(axes, 0),
            keys::get_parent(axes, 0),
            keys::get_child_index(axes, 0),
            keys::encode_morton_point(axes, [0; 3], 0),
        ];
        let lists = [
            keys::get_children(axes, 0),
            keys::get_siblings(axes, 0),
            keys::get_ancestors(axes, 0),
            keys::get_neighbours(axes, 0),
        ];
        for ours in numbers {
            rows.refused_here("K7", &input, ours, (1, 0));
        }
        for ours in lists {
            rows.refused_here("K7", &input, ours, (1, 0));
        }
        rows.refused_here("K7", &input, keys::decode_key(axes, 0), (1, 0));
        rows.refused_here("K7", &input, keys::touching(axes, 0, 0), (1, 0));
    }
}

/// The same answer in another form.
fn shapes(rows: &mut Rows) {
    let d = dimensions(1);
    rows.answered(
        "K8",
        "key 32770",
        (keys::get_ancestors(1, 32770), Ok(vec![32770, 1, 0])),
        (
            morton::get_ancestors(32770, &d),
            HashSet::from([0, 1, 32770]),
        ),
    );
    let mut said = [0; 26];
    said[..2].copy_from_slice(&[2, 32770]);
    rows.answered(
        "K9",
        "key 1",
        (face::get_children(1, 1), (said, 2)),
        (morton::get_children(1, &d), vec![2, 32770]),
    );
    rows.answered(
        "K10",
        "key 32769",
        (keys::decode_key(1, 32769), Ok(([1, 0, 0], 1))),
        (morton::decode_key(32769, &d), vec![1, 1]),
    );
}

fn encode(rows: &mut Rows) {
    let cases = [
        ("K12", 2, 1, 65537),
        ("K13", 65536, 16, 16),
        ("K14", 0, 17, 17),
        ("K15", 0, 32768, 32768),
    ];
    for (row, anchor, level, said) in cases {
        let theirs = morton::encode_morton_point(vec![anchor, level], &dimensions(1));
        let ours = keys::encode_morton_point(1, [anchor, 0, 0], level);
        let input = format!("anchor {anchor} at level {level}");
        rows.refused(row, &input, ours, (9, 0), (theirs, said));
    }
}
