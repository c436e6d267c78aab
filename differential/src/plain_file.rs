//! A tree file by a plain writer and a plain reader, made from the text of request 6 alone. The reader judges lists by making
//! each row anew, as document 01 defines it: no row is made by the library or by the Rust.
use crate::oracle::{self, level};
use crate::refusals::well_formed;
use lohandema::trees::{Lists, Rows, Tree};

/// Codes whose entries are keys, which take eight bytes; other numbers take four.
const KEYS: [u32; 3] = [1, 7, 9];
const MOST_NODES: usize = 1_048_576;
const MOST_KEYS: usize = 16_777_216;

/// What stands in the trailer of a section: its code, where it starts in the file, and its length in bytes.
#[derive(Clone, Copy, Debug)]
pub struct Entry {
    pub code: u32,
    pub at: usize,
    pub length: usize,
}

/// A file before it is one: what stands before the trailer, and what the trailer says.
#[derive(Clone, Debug)]
pub struct Draft {
    pub body: Vec<u8>,
    pub entries: Vec<Entry>,
    pub axes: u32,
}

impl Draft {
    /// Sections 1 to 9, ascending and without gaps.
    pub fn of(tree: &Tree, lists: &Lists) -> Draft {
        let keys = |column: &[u64]| column.iter().flat_map(|k| k.to_le_bytes()).collect();
        let numbers = |column: &[usize]| {
            let four = |n: &usize| (*n as u32).to_le_bytes();
            column.iter().flat_map(four).collect()
        };
        let sections: [Vec<u8>; 9] = [
            keys(&tree.key),
            numbers(&tree.own),
            numbers(&tree.begin),
            numbers(&tree.total),
            numbers(&tree.order),
            numbers(&lists.u.starts),
            keys(&lists.u.keys),
            numbers(&lists.v.starts),
            keys(&lists.v.keys),
        ];
        let (mut body, mut entries) = (vec![], vec![]);
        for (code, section) in (1..).zip(&sections) {
            let (at, length) = (body.len(), section.len());
            entries.push(Entry { code, at, length });
            body.extend(section);
        }
        let axes = tree.axes() as u32;
        Draft {
            body,
            entries,
            axes,
        }
    }

    /// The bytes: the sections, then an entry of three u32 each, u32 axes and u32 number of entries.
    pub fn file(&self) -> Vec<u8> {
        let trailer = self.body.len();
        let entry = |e: &Entry| [e.code, (trailer - e.at) as u32, e.length as u32];
        let mut numbers: Vec<u32> = self.entries.iter().flat_map(entry).collect();
        numbers.extend([self.axes, self.entries.len() as u32]);
        let bytes = numbers.into_iter().flat_map(u32::to_le_bytes);
        self.body.iter().copied().chain(bytes).collect()
    }
}

fn number_at(file: &[u8], at: usize) -> u32 {
    u32::from_le_bytes(file[at..at + 4].try_into().expect("four bytes"))
}

/// Where the trailer starts, and its axes; none where it does not fit the file.
fn trailer(file: &[u8]) -> Option<(usize, u32)> {
    let last = file.len().checked_sub(8)?;
    let entries = number_at(file, last + 4) as usize;
    let start = last.checked_sub(12 * entries)?;
    Some((start, number_at(file, last)))
}

/// The bytes of the sections 1 to 9; none where a code, a place or a length is wrong.
fn sections(file: &[u8], start: usize) -> Option<[&[u8]; 9]> {
    let mut found = [None; 32];
    for at in (start..file.len() - 8).step_by(12) {
        let [code, back, length] = [0, 4, 8].map(|more| number_at(file, at + more) as usize);
        let inside = back <= start && length <= back;
        if code == 0 || code > 31 || found[code].is_some() || !inside {
            return None;
        }
        found[code] = Some(&file[start - back..start - back + length]);
    }
    let mut nine = [&[][..]; 9];
    for (code, place) in (1..).zip(&mut nine) {
        *place = found[code as usize]?;
        let width = if KEYS.contains(&code) { 8 } else { 4 };
        if place.len() % width != 0 {
            return None;
        }
    }
    Some(nine)
}

fn keys(bytes: &[u8]) -> Vec<u64> {
    let key = |eight: &[u8]| u64::from_le_bytes(eight.try_into().expect("eight bytes"));
    bytes.chunks_exact(8).map(key).collect()
}

fn numbers(bytes: &[u8]) -> Vec<usize> {
    let number = |four: &[u8]| number_at(four, 0) as usize;
    bytes.chunks_exact(4).map(number).collect()
}

/// The tree and the lists of a file, or the number of the refusal. The box, which no file has, is any.
pub fn read(file: &[u8]) -> Result<(Tree, Lists), u64> {
    let (start, axes) = trailer(file).ok_or(17_u64)?;
    if !(1..=3).contains(&axes) {
        return Err(1);
    }
    let [key, own, begin, total, order, u, u_keys, v, v_keys] =
        sections(file, start).ok_or(17_u64)?;
    let columns = [own, begin, total, order].map(numbers);
    let [own, begin, total, order] = columns;
    let any = oracle::any_box(axes as usize);
    let tree = Tree::from_columns(any, keys(key), own, begin, total, order);
    if !well_formed(&tree) {
        return Err(13);
    }
    let rows = |starts: &[u8], entries: &[u8]| Rows {
        starts: numbers(starts),
        keys: keys(entries),
    };
    let lists = Lists {
        u: rows(u, u_keys),
        v: rows(v, v_keys),
    };
    if !arranged(&tree) || lists != lists_of(&tree) {
        return Err(17);
    }
    Ok((tree, lists))
}

/// Whether the order column has each index below the total once.
fn arranged(tree: &Tree) -> bool {
    let mut sorted = tree.order.clone();
    sorted.sort_unstable();
    sorted.into_iter().eq(0..tree.total[0])
}

/// How many entries are lent for indices, key, own, begin, total, U starts and keys, V starts and keys.
pub type Room = [usize; 9];

/// As many as are needed.
pub fn needed(tree: &Tree, lists: &Lists) -> Room {
    let (nodes, starts) = (tree.key.len(), tree.key.len() + 1);
    let sources = tree.total[0];
    let (u, v) = (lists.u.keys.len(), lists.v.keys.len());
    [sources, nodes, nodes, nodes, nodes, starts, u, starts, v]
}

/// Which slice is short, the lowest number of ROOM.
pub fn short(room: &Room, needed: &Room) -> Option<usize> {
    let [
        order,
        key,
        own,
        begin,
        total,
        u_starts,
        u_keys,
        v_starts,
        v_keys,
    ] = *room;
    let nodes = key.min(own).min(begin).min(total).min(MOST_NODES);
    let (u_keys, v_keys) = (u_keys.min(MOST_KEYS), v_keys.min(MOST_KEYS));
    let short = [
        (2, order < needed[0]),
        (3, nodes < needed[1]),
        (4, u_starts < needed[5]),
        (5, v_starts < needed[7]),
        (6, u_keys < needed[6]),
        (7, v_keys < needed[8]),
    ];
    short.iter().find(|(_, is)| *is).map(|(value, _)| *value)
}

/// A node as the rows see it.
struct Cell {
    key: u64,
    level: u64,
    anchor: [u64; 3],
    is_leaf: bool,
    sourced: bool,
}

/// Bit i of axis a's anchor is bit axes * i + a of the code.
fn anchor(axes: usize, key: u64) -> [u64; 3] {
    let mut anchor = [0; 3];
    for bit in 0..axes * level(key) as usize {
        anchor[bit % axes] |= (oracle::code(key) >> bit & 1) << (bit / axes);
    }
    anchor
}

/// Whether two cells, both seen at the coarser one's level, are one or touch.
fn near(a: &Cell, b: &Cell) -> bool {
    let level = a.level.min(b.level);
    let at = |c: &Cell, axis: usize| c.anchor[axis] >> (c.level - level);
    (0..3).all(|axis| at(a, axis).abs_diff(at(b, axis)) <= 1)
}

/// Whether the parents of two cells of one level touch and are two.
fn of_neighbours(a: &Cell, b: &Cell) -> bool {
    let apart = |axis: usize| (a.anchor[axis] >> 1).abs_diff(b.anchor[axis] >> 1);
    let most = (0..3).map(apart).max().unwrap_or(0);
    a.level == b.level && a.level > 0 && most == 1
}

/// The nodes of a well-formed tree, whose nodes stand depth first.
fn cells(tree: &Tree) -> Vec<Cell> {
    let level_at = |node: usize| tree.key.get(node).map_or(0, |k| level(*k));
    let cell = |node: usize| Cell {
        key: tree.key[node],
        level: level_at(node),
        anchor: anchor(tree.axes(), tree.key[node]),
        is_leaf: node > 0 && level_at(node + 1) <= level_at(node),
        sourced: tree.total[node] > 0,
    };
    (0..tree.key.len()).map(cell).collect()
}

/// The row of each cell: those that belong in it, ascending by whole key.
fn rows(cells: &[Cell], belongs: impl Fn(&Cell, &Cell) -> bool) -> Rows {
    let (mut starts, mut keys) = (vec![0], vec![]);
    for of in cells {
        let listed = cells
            .iter()
            .filter(|other| other.sourced && belongs(of, other));
        let mut row: Vec<u64> = listed.map(|other| other.key).collect();
        row.sort_unstable();
        keys.extend(row);
        starts.push(keys.len());
    }
    Rows { starts, keys }
}

/// V of a cell: sourced children of its parent's neighbours that do not touch it. U of a leaf: sourced leaves at or under itself
/// and its neighbours, with sourced leaves touching an ancestor at that ancestor's level.
pub fn lists_of(tree: &Tree) -> Lists {
    let cells = cells(tree);
    Lists {
        u: rows(&cells, |a, b| a.is_leaf && b.is_leaf && near(a, b)),
        v: rows(&cells, |a, b| of_neighbours(a, b) && !near(a, b)),
    }
}
