//! The file of a tree: written beside a plain writer, and read beside a plain reader, both made from request 6's text alone.
//! The columns, order and rows that are written are the Rust's.
use crate::file_faults as faults;
use crate::file_reading::{compare_in, compare_read, compare_rooms, compare_same, compare_told};
use crate::inputs;
use crate::keys::refused;
use crate::oracle::{self, level};
use crate::plain_file::{self as plain, Draft};
use crate::random::Random;
use crate::tally::Tally;
use crate::trees::{axes_of, flat, odd_tree, rust_rows, show};
use ferreus_bbfmm::morton;
use lohandema::Asked;
use lohandema::points::Bounds;
use lohandema::trees::{Lists, Rows, Tree};

/// The plain reader looks at each pair of nodes, so a file with more of them is compared with what was written alone.
const MOST_BY_PAIRS: usize = 420;

/// The writer's answer for a right tree, and for an order column and lists with one fault.
fn compare_written(t: &mut Tally, r: &mut Random, tree: &Tree, lists: &Lists, input: &str) {
    let input = || input.to_string();
    let right = Draft::of(tree, lists).file();
    t.same("file", tree.to_file(lists), Ok(right), input);
    let mut other = lists.clone();
    match other.v.keys.len() {
        0 => other.v.keys.push(0),
        n => other.v.keys[r.index(n)] ^= 1,
    }
    t.refusal();
    t.same("V key", tree.to_file(&other), refused(17, 0), input);
    let mut tree = tree.clone();
    match tree.order.len() {
        0 => tree.order.push(0),
        1 => tree.order[0] = 1,
        n => tree.order[r.index(n - 1)] = tree.order[n - 1],
    }
    t.refusal();
    t.same("order", tree.to_file(lists), refused(17, 0), input);
}

/// The same tree in other words.
fn in_other_words(r: &mut Random, draft: &Draft) -> [(&'static str, Draft); 6] {
    [
        ("as it was written", draft.clone()),
        ("entries permuted", faults::permuted(r, draft)),
        ("a gap", faults::with_gap(r, draft).0),
        ("a section to skip", faults::with_skipped(r, draft)),
        ("all codes to skip", faults::with_all_skipped(r, draft)),
        ("sections that overlap", faults::overlapping(draft)),
    ]
}

/// Files of a tree with one thing changed, which most times is a fault.
fn changed(r: &mut Random, draft: &Draft) -> Vec<(&'static str, Vec<u8>)> {
    let mut all = vec![
        ("an entry twice", faults::with_repeat(r, draft).file()),
        ("an entry left out", faults::without_one(r, draft).file()),
        ("a wrong code", faults::with_wrong_code(r, draft).file()),
        ("the trailer", faults::trailer_changed(r, draft)),
    ];
    let others = [
        draft.clone(),
        faults::permuted(r, draft),
        faults::with_skipped(r, draft),
    ];
    for other in &others {
        all.push(("a length", faults::length_changed(r, other).file()));
        let number = faults::section_changed(r, other);
        all.extend(number.map(|draft| ("a number", draft.file())));
    }
    all
}

/// A tree's file in other words, with faults, and with little room, also for lists with a fault.
fn compare_drafts(t: &mut Tally, r: &mut Random, tree: &Tree, lists: &Lists) {
    let (draft, room) = (Draft::of(tree, lists), plain::needed(tree, lists));
    for (what, same) in in_other_words(r, &draft) {
        compare_same(t, what, &same, tree, lists);
    }
    for (what, file) in changed(r, &draft) {
        compare_read(t, what, &file, &room);
    }
    compare_rooms(t, r, "rooms", &draft.file(), &room);
    let mut other = lists.clone();
    match other.u.keys.len() {
        0 => other.u.starts[0] = 1,
        n => other.u.keys[r.index(n)] ^= 1 << 15,
    }
    let file = Draft::of(tree, &other).file();
    compare_rooms(t, r, "rooms and a bad list", &file, &room);
}

/// The root alone, which has a file of 152 bytes; document 01's example; and a tree of two axes with empty cells.
fn small() -> [(Tree, Lists); 3] {
    let made = |axes: usize, sources: &[f64], keep: bool| {
        let bounds = Bounds::new(&[4.0; 3][..axes], 4.0);
        let mut asked = Asked::new(&bounds, sources, 1);
        asked.keep_empty = keep;
        let tree = Tree::build(asked).expect("a tree");
        let lists = plain::lists_of(&tree);
        (tree, lists)
    };
    [
        made(1, &[], false),
        made(1, &[0.5, 1.5, 6.5, 7.5], false),
        made(2, &[0.5, 0.5, 3.5, 3.5, 7.5, 0.5], true),
    ]
}

/// A file's bytes with one u32 set.
fn with(file: &[u8], at: usize, number: u32) -> Vec<u8> {
    let mut other = file.to_vec();
    other[at..at + 4].copy_from_slice(&number.to_le_bytes());
    other
}

/// What the text says of the file of 152 bytes with one thing changed, and of files that are no more than a trailer: the number of
/// the refusal. The entries start at byte 36, twelve bytes each; own's entry at 48, that of the totals at 72.
fn examples(root: &[u8]) -> Vec<(&'static str, Vec<u8>, u64)> {
    let trailer = |axes: u32, entries: u32| [axes.to_le_bytes(), entries.to_le_bytes()].concat();
    let no_axes = with(root, 144, 0);
    let draft = {
        let [(tree, lists), ..] = small();
        Draft::of(&tree, &lists)
    };
    let mut longer = draft.clone();
    // an order entry more, where there is none
    longer.entries[4].length = 4;
    let mut twice = draft.clone();
    twice.entries.push(draft.entries[0]);
    vec![
        ("no axes", no_axes.clone(), 1),
        ("four axes", with(root, 144, 4), 1),
        ("no axes and a code 0", with(&no_axes, 48, 0), 1),
        ("code 0", with(root, 48, 0), 17),
        ("code 32", with(root, 48, 32), 17),
        ("code 31 for own", with(root, 48, 31), 17),
        ("a second code 1", twice.file(), 17),
        ("own of 3 bytes", with(root, 56, 3), 17),
        ("own 37 bytes back", with(root, 52, 37), 17),
        ("no own", with(root, 56, 0), 13),
        ("a total of 1", with(root, 16, 1), 13),
        ("U's second start is 1", with(root, 24, 1), 17),
        ("an order entry more", longer.file(), 17),
        ("nothing", vec![], 17),
        ("seven bytes", vec![1; 7], 17),
        ("no axes, one entry in eight bytes", trailer(0, 1), 17),
        ("no axes and no entry", trailer(0, 0), 1),
        ("no entry", trailer(1, 0), 17),
        (
            "so many entries that 32 bits wrap",
            with(root, 148, 357_913_942),
            17,
        ),
    ]
}

/// Small files with every byte changed in four ways and cut at every place; and the plain reader's own examples.
fn chosen(t: &mut Tally, r: &mut Random) {
    let all = small();
    let root = Draft::of(&all[0].0, &all[0].1).file();
    t.same("bytes of the root's file", root.len(), 152, String::new);
    for (what, file, number) in examples(&root) {
        let told = compare_told(t, what, &file, &[2; 9]);
        t.same("plain reader", told.err(), Some(number), || {
            what.to_string()
        });
    }
    for (tree, lists) in &all {
        let (draft, room) = (Draft::of(tree, lists), plain::needed(tree, lists));
        let file = draft.file();
        for (what, other) in faults::bytes_changed(&file).chain(faults::cut(&file)) {
            compare_read(t, &what, &other, &room);
        }
        for _ in 0..200 {
            compare_drafts(t, r, tree, lists);
        }
    }
}

/// A cell and those inside it to level 10, depth first, as long as there are not so many.
fn put_cells(key: u64, most: usize, keys: &mut Vec<u64>) {
    if keys.len() == most {
        return;
    }
    keys.push(key);
    if level(key) < 10 {
        let children = morton::get_children(key, &oracle::dimensions(2));
        children
            .iter()
            .for_each(|child| put_cells(*child, most, keys));
    }
}

/// As many nodes as count, and one more, which no room is enough for; without sources, so that all rows are empty.
fn most_nodes(t: &mut Tally) {
    for nodes in [1_048_576, 1_048_577] {
        let mut key = vec![];
        put_cells(0, nodes, &mut key);
        let zeros = || vec![0; nodes];
        let any = oracle::any_box(2);
        let tree = Tree::from_columns(any, key, zeros(), zeros(), zeros(), vec![]);
        let rows = || Rows {
            starts: vec![0; nodes + 1],
            keys: vec![],
        };
        let lists = Lists {
            u: rows(),
            v: rows(),
        };
        let (file, needed) = (
            Draft::of(&tree, &lists).file(),
            plain::needed(&tree, &lists),
        );
        let longer = needed.map(|entries| entries + 1);
        let told = Ok((tree, lists));
        for room in [needed, longer, [0; 9]] {
            compare_in(t, "most nodes", &file, &told, &room);
        }
    }
}

pub fn tree_file(t: &mut Tally, r: &mut Random, case: u64) {
    if case == 0 {
        if !t.short() {
            most_nodes(t);
        }
        return chosen(t, r);
    }
    let (tree, u, v, shown) = if case % 2 == 0 {
        let s = inputs::survey(r, 500);
        let (lists, _) = oracle::build(&s);
        let tree = oracle::columns(&s.bounds, &lists);
        let (u, v) = (flat(&tree, &lists.u_lists), flat(&tree, &lists.v_lists));
        (tree, u, v, show(&s))
    } else {
        let given = odd_tree(r, 400);
        let axes = axes_of(&given);
        let tree = oracle::columns(&oracle::any_box(axes), &given);
        let right = rust_rows(&given, axes);
        let (u, v) = (flat(&tree, &right.u), flat(&tree, &right.v));
        let shown = format!("{tree:?}");
        (tree, u, v, shown)
    };
    let lists = Lists { u, v };
    compare_written(t, r, &tree, &lists, &shown);
    if tree.key.len() <= MOST_BY_PAIRS {
        return compare_drafts(t, r, &tree, &lists);
    }
    let (file, room) = (
        Draft::of(&tree, &lists).file(),
        plain::needed(&tree, &lists),
    );
    compare_in(t, "as it was written", &file, &Ok((tree, lists)), &room);
}
