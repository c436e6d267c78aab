//! Records the answers of the key calls, for crates/key_vectors to replay.
//!
//! Answers to valid arguments are those of the customer's Rust, called unchanged. Refusals are document 01's: the Rust
//! has none. `touching` has no function in the Rust; a cell touches itself and what `get_neighbours` gives.
use ferreus_bbfmm::bbfmm::Dimensions;
use ferreus_bbfmm::morton;
use std::collections::BTreeSet;
use std::fmt::Write as _;
use std::{env, fs, path::Path};

const SEED: u64 = 41_379_942;
const LARGEST: u64 = u64::MAX;
const KEY_CALLS: [&str; 8] = [
    "level",
    "parent",
    "index",
    "children",
    "siblings",
    "ancestors",
    "neighbours",
    "decode",
];

// Document 01's refusal numbers; the value of each is 0.
const DIMS: u64 = 1;
const KEY: u64 = 9;
const ROOT: u64 = 10;
const DEEP: u64 = 11;

fn dimensions(axes: usize) -> Dimensions {
    match axes {
        1 => Dimensions::One,
        2 => Dimensions::Two,
        3 => Dimensions::Three,
        _ => panic!("{axes} axes"),
    }
}

/// Whole numbers that are the same in every run (SplitMix64).
struct Random(u64);

impl Random {
    fn next(&mut self) -> u64 {
        self.0 = self.0.wrapping_add(0x9E37_79B9_7F4A_7C15);
        let mut z = self.0;
        z = (z ^ (z >> 30)).wrapping_mul(0xBF58_476D_1CE4_E5B9);
        z = (z ^ (z >> 27)).wrapping_mul(0x94D0_49BB_1331_11EB);
        z ^ (z >> 31)
    }

    fn below(&mut self, end: u64) -> u64 {
        self.next() % end
    }

    /// Anchors of a level, on the axes.
    fn anchors(&mut self, axes: usize, level: u64) -> Vec<u64> {
        (0..axes).map(|_| self.below(1 << level)).collect()
    }
}

// The Rust's answers, each as the numbers of a line.

fn encode(axes: usize, anchors: &[u64], level: u64) -> u64 {
    let mut anchor = anchors[..axes].to_vec();
    anchor.push(level);
    morton::encode_morton_point(anchor, &dimensions(axes))
}

/// Three anchors, those past the axes 0, and the level.
fn decode(axes: usize, key: u64) -> Vec<u64> {
    let anchor = morton::decode_key(key, &dimensions(axes));
    let mut numbers = anchor[..axes].to_vec();
    numbers.resize(3, 0);
    numbers.push(anchor[axes]);
    numbers
}

/// The Rust gives a set: here by falling level, which is the key itself up to the root.
fn ancestors(axes: usize, key: u64) -> Vec<u64> {
    let mut keys: Vec<u64> = morton::get_ancestors(key, &dimensions(axes))
        .into_iter()
        .collect();
    keys.sort_by_key(|&key| std::cmp::Reverse(morton::get_level(key)));
    keys
}

fn neighbours(axes: usize, key: u64) -> Vec<u64> {
    morton::get_neighbours(key, &dimensions(axes))
}

fn answer(call: &str, axes: usize, key: u64) -> Vec<u64> {
    let d = dimensions(axes);
    match call {
        "level" => vec![morton::get_level(key)],
        "parent" => vec![morton::get_parent(key, &d).expect("a cell below the root")],
        "index" => vec![morton::get_child_index(&key, &d) as u64],
        "children" => morton::get_children(key, &d),
        "siblings" => morton::get_siblings(key, &d),
        "ancestors" => ancestors(axes, key),
        "neighbours" => neighbours(axes, key),
        "decode" => decode(axes, key),
        _ => panic!("{call}"),
    }
}

/// The file as it grows; a case that stands there already is left out.
struct Lines {
    text: String,
    given: BTreeSet<String>,
}

impl Lines {
    fn comment(&mut self, words: &str) {
        writeln!(self.text, "# {words}").unwrap();
    }

    fn case(&mut self, call: &str, axes: u64, arguments: &[u64], answer: &str) {
        let mut given = format!("{call} {axes}");
        for number in arguments {
            write!(given, " {number}").unwrap();
        }
        if self.given.insert(given.clone()) {
            writeln!(self.text, "{given} ={answer}").unwrap();
        }
    }

    fn answers(&mut self, call: &str, axes: usize, arguments: &[u64], numbers: &[u64]) {
        let answer: String = numbers.iter().map(|number| format!(" {number}")).collect();
        self.case(call, axes as u64, arguments, &answer);
    }

    fn refused(&mut self, call: &str, axes: u64, arguments: &[u64], number: u64) {
        self.case(call, axes, arguments, &format!(" ! {number} 0"));
    }

    /// All calls on a valid key; what document 01 refuses of the root and of level 16 is refused here.
    fn valid_key(&mut self, axes: usize, key: u64) {
        let anchor = decode(axes, key);
        self.answers("encode", axes, &anchor, &[encode(axes, &anchor, anchor[3])]);
        for call in KEY_CALLS {
            match (call, anchor[3]) {
                ("parent" | "siblings", 0) => self.refused(call, axes as u64, &[key], ROOT),
                ("children", 16) => self.refused(call, axes as u64, &[key], DEEP),
                _ => self.answers(call, axes, &[key], &answer(call, axes, key)),
            }
        }
    }

    /// A key that is not valid, or a number of axes that is not known, in each call on a key.
    fn refused_key(&mut self, axes: u64, key: u64, number: u64) {
        for call in KEY_CALLS {
            self.refused(call, axes, &[key], number);
        }
        self.refused("touching", axes, &[key, 0], number);
        self.refused("touching", axes, &[0, key], number);
    }

    /// Two valid keys, both ways round.
    fn touching(&mut self, axes: usize, a: u64, b: u64) {
        for (a, b) in [(a, b), (b, a)] {
            // Keys of other levels are never among the neighbours.
            let touch = a == b || neighbours(axes, a).contains(&b);
            self.answers("touching", axes, &[a, b], &[touch as u64]);
        }
    }
}

/// Document 01's proved table: its numbers as they stand there, which the Rust must give too.
fn proved_table(lines: &mut Lines) {
    lines.comment("Document 01, proved table.");
    let encoded: [(usize, [u64; 4], u64); 4] = [
        (2, [3, 5, 0, 3], 1277955),
        (3, [1, 0, 1, 1], 163841),
        (1, [65535, 0, 0, 16], 2147450896),
        (3, [65535, 65535, 65535, 16], 9223372036854743056),
    ];
    for (axes, anchor, key) in encoded {
        assert_eq!(encode(axes, &anchor, anchor[3]), key);
        assert_eq!(decode(axes, key), anchor);
        lines.answers("encode", axes, &anchor, &[key]);
        lines.answers("decode", axes, &[key], &anchor);
    }
    let answered: [(&str, usize, u64, &[u64]); 7] = [
        ("parent", 2, 1277955, &[294914]),
        ("index", 2, 1277955, &[3]),
        ("neighbours", 2, 1, &[65537, 32769, 98305]),
        ("children", 1, 1, &[2, 32770]),
        ("neighbours", 1, 0, &[]),
        ("neighbours", 2, 0, &[]),
        ("neighbours", 3, 0, &[]),
    ];
    for (call, axes, key, numbers) in answered {
        assert_eq!(answer(call, axes, key), numbers);
        lines.answers(call, axes, &[key], numbers);
    }
    lines.refused_key(2, 131073, KEY);
}

/// The root, level 1, the corners of level 16, and anchors at the edge of a table's byte or of the middle.
fn chosen_keys(axes: usize) -> Vec<u64> {
    let mut keys = vec![0];
    for (level, last) in [(1, 1), (16, 65535)] {
        for corner in 0..1u64 << axes {
            let anchors: Vec<u64> = (0..axes).map(|a| (corner >> a & 1) * last).collect();
            keys.push(encode(axes, &anchors, level));
        }
    }
    for (level, anchor) in [
        (9, 255),
        (9, 256),
        (16, 255),
        (16, 256),
        (16, 32767),
        (16, 32768),
    ] {
        keys.push(encode(axes, &[anchor; 3], level));
    }
    keys
}

/// A cell at the low and one at the high wall of each axis, and two cells anywhere, at levels 2 to 16.
fn random_keys(axes: usize, random: &mut Random) -> Vec<u64> {
    let mut keys = Vec::new();
    for axis in 0..axes {
        for high in [false, true, false, true] {
            let level = 2 + random.below(15);
            let mut anchors = random.anchors(axes, level);
            anchors[axis] = if high { (1 << level) - 1 } else { 0 };
            keys.push(encode(axes, &anchors, level));
        }
    }
    for level in 2..=16 {
        for _ in 0..2 {
            keys.push(encode(axes, &random.anchors(axes, level), level));
        }
    }
    keys
}

/// A cell with itself, neighbours, cells 2 apart on one axis, a cell anywhere, its parent, and that level's cell of its code.
fn touching_pairs(lines: &mut Lines, axes: usize, random: &mut Random) {
    lines.comment(&format!("Touching, {axes} axes."));
    for level in [1, 2, 5, 9, 13, 16] {
        let anchors = random.anchors(axes, level);
        let key = encode(axes, &anchors, level);
        lines.touching(axes, key, key);
        let near = neighbours(axes, key);
        lines.touching(axes, key, near[0]);
        lines.touching(axes, key, near[near.len() - 1]);
        lines.touching(axes, key, near[random.below(near.len() as u64) as usize]);
        for axis in 0..axes {
            let mut apart = anchors.clone();
            apart[axis] ^= 2;
            if apart[axis] < 1 << level {
                lines.touching(axes, key, encode(axes, &apart, level));
            }
        }
        lines.touching(axes, key, encode(axes, &random.anchors(axes, level), level));
        lines.touching(axes, key, answer("parent", axes, key)[0]);
        if level < 16 {
            lines.touching(axes, key, key + 1);
        }
    }
}

/// Keys that are not valid: the level, the code, or both.
fn refused_keys(lines: &mut Lines, axes: usize, random: &mut Random) {
    lines.comment(&format!("Keys that are not valid, {axes} axes."));
    let middle = 2 + random.below(14);
    let mut keys = vec![
        17,
        32767,
        (random.below(1 << 16) << 15) + 17 + random.below(32751),
    ];
    keys.extend([0, 1, middle, 16].map(|level| (1u64 << (axes as u64 * level + 15)) + level));
    keys.extend([1 << 63, (1 << 63) + 15, LARGEST]);
    for key in keys {
        lines.refused_key(axes as u64, key, KEY);
    }
}

/// Encode with a level that is not one, with anchors off their level, and with any anchors past the axes.
fn refused_anchors(lines: &mut Lines, axes: usize, random: &mut Random) {
    lines.comment(&format!("Anchors and levels to encode, {axes} axes."));
    for level in [17, 32767, 32768, LARGEST] {
        lines.refused("encode", axes as u64, &[0, 0, 0, level], KEY);
    }
    for level in [0, 1, 2 + random.below(14), 16] {
        let mut inside = random.anchors(axes, level);
        inside.resize(3, 0);
        for axis in 0..3 {
            for off in [1 << level, 65536, LARGEST] {
                let mut given = inside.clone();
                given[axis] = off;
                given.push(level);
                if axis < axes {
                    lines.refused("encode", axes as u64, &given, KEY);
                } else {
                    lines.answers("encode", axes, &given, &[encode(axes, &inside, level)]);
                }
            }
        }
    }
}

/// Numbers of axes that are not 1 to 3: refused before anything else.
fn refused_axes(lines: &mut Lines) {
    lines.comment("Axes that are not 1 to 3.");
    for axes in [0, 4, LARGEST] {
        for key in [0, 17, LARGEST] {
            lines.refused_key(axes, key, DIMS);
        }
        lines.refused("encode", axes, &[0, 0, 0, 0], DIMS);
        lines.refused("encode", axes, &[1, 1, 1, 1], DIMS);
        lines.refused("encode", axes, &[LARGEST, LARGEST, LARGEST, 17], DIMS);
    }
}

fn all_lines() -> Lines {
    let mut random = Random(SEED);
    let mut lines = Lines {
        text: String::new(),
        given: BTreeSet::new(),
    };
    lines.comment("Recorded answers of the key calls. A case is CALL AXES ARGUMENTS = ANSWER, or = ! NUMBER VALUE where it is refused.");
    lines.comment(
        "Made in differential/ by: cargo run --offline --bin key-vectors -- ../crates/key_vectors",
    );
    lines.comment(&format!(
        "Answers: the Rust of graphic-goose/ferreus_rbf_rs at 41379942eb, unchanged; seed {SEED}."
    ));
    lines.comment("Refusals: document 01, not the Rust. Touching is not in the Rust: 1 where the cells are one, or get_neighbours of the first has the second.");
    proved_table(&mut lines);
    for axes in 1..=3 {
        lines.comment(&format!("Chosen keys, {axes} axes."));
        chosen_keys(axes)
            .into_iter()
            .for_each(|key| lines.valid_key(axes, key));
        lines.comment(&format!("Random keys, {axes} axes."));
        random_keys(axes, &mut random)
            .into_iter()
            .for_each(|key| lines.valid_key(axes, key));
        touching_pairs(&mut lines, axes, &mut random);
        refused_keys(&mut lines, axes, &mut random);
        refused_anchors(&mut lines, axes, &mut random);
    }
    refused_axes(&mut lines);
    lines
}

fn main() {
    let folder = env::args().nth(1).expect("usage: key-vectors FOLDER");
    let lines = all_lines();
    let cases = lines.given.len();
    fs::write(Path::new(&folder).join("stdin"), &lines.text).unwrap();
    fs::write(
        Path::new(&folder).join("stdout"),
        format!("key vectors: {cases} cases, 0 differ\n"),
    )
    .unwrap();
    println!("{cases} cases, {} bytes", lines.text.len());
}
