//! Salvage of columns, for which there is no Rust: beside the plain reading of request 8 in plain_salvage.rs. Trees of the Rust
//! and trees that nobody built, with rows gone, doubled and moved, keys that are none, counts and begins at and past
//! the order column's end; and what is salvaged once more.
use crate::inputs;
use crate::keys::refused;
use crate::oracle::{self, valid};
use crate::plain_salvage::{BY_HAND, Given, Had, MOST, keys_alone};
use crate::random::Random;
use crate::refusals::{asked, left, lent_slice, well_formed};
use crate::tally::Tally;
use crate::trees::{axes_of, odd_tree};
use lohandema::trees::Tree;
use lohandema::{Change, Refusal, lent};

/// What is lent to the call: the order column; key, own, begin and total; codes and changed keys.
#[derive(Clone)]
struct Room {
    order: Vec<usize>,
    key: Vec<u64>,
    columns: [Vec<usize>; 3],
    changes: [Vec<u64>; 2],
}

impl Room {
    /// Just enough, and full of junk.
    fn exact(sources: usize, nodes: usize, changes: usize) -> Room {
        Room {
            order: vec![77; sources],
            key: vec![77; nodes],
            columns: [0; 3].map(|_| vec![77; nodes]),
            changes: [0; 2].map(|_| vec![77; changes]),
        }
    }

    /// Enough, or too little of something.
    fn any(r: &mut Random, had: &Had) -> Room {
        let (sources, nodes, changes) = had.sizes();
        Room {
            order: lent_slice(r, sources, 77),
            key: lent_slice(r, nodes, 77),
            columns: [0; 3].map(|_| lent_slice(r, nodes, 77)),
            changes: [0; 2].map(|_| lent_slice(r, changes, 77)),
        }
    }

    /// The same with one entry less in one of the seven slices.
    fn one_less(&self, which: usize) -> Room {
        let mut room = self.clone();
        match which {
            0 => drop(room.order.pop()),
            1 => drop(room.key.pop()),
            2..=4 => drop(room.columns[which - 2].pop()),
            _ => drop(room.changes[which - 5].pop()),
        }
        room
    }

    fn nodes(&self) -> usize {
        let columns = self.columns.iter().map(|c| c.len()).min().unwrap();
        columns.min(self.key.len()).min(MOST)
    }

    fn call(&mut self, g: &Given) -> Result<(usize, usize, usize), Refusal> {
        let [own, begin, total] = &mut self.columns;
        let [codes, changed] = &mut self.changes;
        lent::salvage(
            g.axes,
            &g.key,
            &g.own,
            &g.begin,
            &g.order,
            &mut self.order,
            &mut self.key,
            own,
            begin,
            total,
            codes,
            changed,
        )
    }

    /// Whether the slices hold this and then zeros.
    fn holds(&self, had: &Had) -> bool {
        let [own, begin, total] = &self.columns;
        let [codes, changed] = &self.changes;
        let (numbers, keys): (Vec<u64>, Vec<u64>) = had.changes.iter().copied().unzip();
        self.order == left(self.order.len(), &had.order)
            && self.key == left(self.key.len(), &had.key)
            && *own == left(own.len(), &had.own)
            && *begin == left(begin.len(), &had.begin)
            && *total == left(total.len(), &had.total)
            && *codes == left(codes.len(), &numbers)
            && *changed == left(changed.len(), &keys)
    }
}

/// An input in a few words, where it is long.
fn show(g: &Given) -> String {
    let mut text = format!("{g:?}");
    text.truncate(3000);
    text
}

/// The call with so much room.
fn compare(t: &mut Tally, g: &Given, right: &Result<Had, Refusal>, mut room: Room) {
    let wanted = right.clone().and_then(|had| {
        let changes = room.changes.iter().map(|c| c.len()).min().unwrap();
        asked(had.order.len() <= room.order.len(), (8, 2))?;
        asked(had.key.len() <= room.nodes(), (8, 3))?;
        asked(had.changes.len() <= changes, (8, 10))?;
        Ok(had)
    });
    if wanted.is_err() {
        t.refusal();
    }
    let lengths = (
        room.order.len(),
        room.nodes(),
        room.changes.clone().map(|c| c.len()),
    );
    let input = || format!("room {lengths:?} of {}", show(g));
    let told = wanted
        .as_ref()
        .map(|had| (had.key.len(), had.order.len(), had.changes.len()));
    let ours = room.call(g);
    t.same("salvage", ours, told.map_err(|refusal| *refusal), input);
    let held = room.holds(&wanted.unwrap_or_default());
    t.same("salvage's slices", held, true, input);
}

/// The call that makes its own room.
fn compare_whole(t: &mut Tally, g: &Given, right: &Result<Had, Refusal>) {
    let mut bounds = oracle::any_box(1);
    bounds.axes = g.axes;
    let ours = Tree::salvage(bounds, &g.key, &g.own, &g.begin, &g.order);
    let right = right.clone().and_then(|had| {
        asked(had.key.len() <= MOST, (8, 3))?;
        let changes = had
            .changes
            .iter()
            .map(|(code, key)| Change::new(*code, *key));
        let changes: Vec<Change> = changes.collect();
        let tree = Tree::from_columns(bounds, had.key, had.own, had.begin, had.total, had.order);
        Ok((tree, changes))
    });
    t.same("Tree::salvage", ours, right, || show(g));
}

/// With just the room, with one entry less in each slice, and with any; what comes out is a tree, and comes back the same.
fn all_of(t: &mut Tally, r: &mut Random, g: &Given) {
    let right = g.judged();
    compare_whole(t, g, &right);
    let Ok(had) = &right else {
        let some = Had::default();
        compare(t, g, &right, Room::exact(4, 9, 9));
        compare(t, g, &right, Room::exact(0, 0, 0));
        return compare(t, g, &right, Room::any(r, &some));
    };
    let (sources, nodes, changes) = had.sizes();
    let room = Room::exact(sources, nodes, changes);
    compare(t, g, &right, room.clone());
    (0..7).for_each(|which| compare(t, g, &right, room.one_less(which)));
    compare(t, g, &right, Room::any(r, had));
    compare(t, g, &right, Room::exact(0, 0, 0));
    properties(t, g, had);
}

/// What is promised of the answer, and of what is well formed.
fn properties(t: &mut Tally, g: &Given, had: &Had) {
    let bounds = oracle::any_box(g.axes);
    let columns = |h: &Had| {
        let (key, own) = (h.key.clone(), h.own.clone());
        let (begin, total) = (h.begin.clone(), h.total.clone());
        Tree::from_columns(bounds, key, own, begin, total, h.order.clone())
    };
    let input = || show(g);
    let tree = columns(had);
    t.same("well formed", well_formed(&tree), true, input);
    t.same("well formed, by us", tree.is_well_formed(), true, input);
    t.same(
        "as long as its total",
        tree.total[0],
        tree.order.len(),
        input,
    );
    let unchanged = Had {
        changes: vec![],
        ..had.clone()
    };
    let again = had.again(g.axes);
    t.same("plain, again", again.salvaged(), unchanged, input);
    compare_whole(t, &again, &again.judged());
}

/// A well-formed tree comes back, whoever built it.
fn comes_back(t: &mut Tally, tree: &Tree) {
    let g = Given::of(tree);
    let ours = Tree::salvage(tree.bounds, &g.key, &g.own, &g.begin, &g.order);
    let same = Ok((tree.clone(), vec![]));
    t.same("comes back", ours, same, || show(&g));
}

/// The plain reading and the call on what was worked out by hand.
fn known(t: &mut Tally, r: &mut Random) {
    for (rows, order, changes, new_order) in BY_HAND {
        let mut g = keys_alone(1, &[]);
        for (at, (key, own, begin)) in rows.iter().enumerate() {
            g.insert(at, *key, *own, *begin);
        }
        g.order = order.to_vec();
        let had = g.salvaged();
        t.same("by hand", &had.changes[..], changes, || show(&g));
        t.same("by hand, order", &had.order[..], new_order, || show(&g));
        all_of(t, r, &g);
    }
}

/// Keys that are none: of level 17, with a code that is too large, the largest number.
fn no_keys(t: &mut Tally, r: &mut Random) {
    for axes in 1..=3 {
        let wide = 32768 << axes;
        let bad = [17, 17 * 32769, wide + 1, 32768, u64::MAX, 32767, 1 << 63];
        let g = keys_alone(axes, &bad);
        let mut right = bad.map(|key| (1, key)).to_vec();
        right.push((3, 0));
        t.same("by hand", g.salvaged().changes, right, || show(&g));
        all_of(t, r, &g);
    }
}

/// Other numbers of axes, and columns of several lengths.
fn no_columns(t: &mut Tally, r: &mut Random) {
    let wrong = [
        (0, 1, 1, 1),
        (4, 0, 1, 1),
        (usize::MAX, 1, 2, 1),
        (2, 2, 1, 3),
        (2, 1, 2, 3),
        (2, 0, 1, 3),
        (2, 1, 0, 3),
        (2, 2, 2, 3),
    ];
    for (axes, own, begin, number) in wrong {
        let mut g = keys_alone(axes, &[0]);
        (g.own, g.begin) = (vec![0; own], vec![0; begin]);
        t.same("by hand", g.judged(), refused(number, 0), || show(&g));
        all_of(t, r, &g);
    }
}

/// All inputs of so many rows over a few keys, counts and begins of one axis, with an order column of none to two entries.
fn exhaustive(t: &mut Tally, rows: u32, begins: usize) {
    let keys = [0, 1, 2, 32770, 32769, 17];
    let each = keys.len() * 3 * begins;
    for order in 0..3 {
        for number in 0..each.pow(rows) {
            let mut g = keys_alone(1, &[]);
            g.order = (5..5 + order).collect();
            let mut rest = number;
            for _ in 0..rows {
                let (one, more) = (rest % each, rest / each);
                g.insert(g.key.len(), keys[one % 6], one / 6 % 3, one / 18);
                rest = more;
            }
            let right = g.judged();
            let (sources, nodes, changes) = right.as_ref().map_or((0, 0, 0), Had::sizes);
            compare(t, &g, &right, Room::exact(sources, nodes, changes));
        }
    }
}

/// A thousand rows of one key, and as many of a key that is none.
fn repeats(t: &mut Tally, r: &mut Random) {
    for axes in 1..=3 {
        for key in [0, 1, inputs::key(r, axes, 16), 17] {
            let mut g = keys_alone(axes, &vec![key; 1000]);
            (g.own, g.begin, g.order) = (vec![1; 1000], (0..1000).collect(), (0..1000).collect());
            all_of(t, r, &g);
        }
    }
}

/// Leaves over one run, so that the new order column has exactly 1,048,576 entries, or one more: with room, with short node
/// columns, and with none.
fn overlaps(t: &mut Tally) {
    let half = MOST / 2;
    let order: Vec<usize> = (0..600_000).collect();
    let counts = [
        [half, half],
        [half, half + 1],
        [600_000, 600_000],
        [600_000, MOST - 600_000],
    ];
    for [first, second] in counts {
        let mut g = Given {
            axes: 1,
            key: vec![1, 32769],
            own: vec![first, second],
            begin: vec![0, 600_000 - second.min(600_000)],
            order: order.clone(),
        };
        for rows in 2..5 {
            let right = g.judged();
            let (sources, nodes, changes) = right.as_ref().map_or((MOST, 9, 9), Had::sizes);
            for room in [
                Room::exact(sources, nodes, changes),
                Room::exact(sources - 1, nodes, changes),
                Room::exact(sources, nodes - 1, changes),
                Room::exact(sources, nodes, changes - 1),
                Room::exact(sources - 1, 0, 0),
                Room::exact(sources, 0, 0),
                Room::exact(0, 0, 0),
            ] {
                compare(t, &g, &right, room);
            }
            compare_whole(t, &g, &right);
            // a repeat, which has no say; and a child, which takes a leaf's count away
            let more = [(32769, 600_000, 0), (3, 0, 0), (65538, 1, 5)][rows - 2];
            g.key.push(more.0);
            g.own.push(more.1);
            g.begin.push(more.2);
        }
    }
}

/// Cells of level 7 from the first on, as many as give so many nodes with all above them, or a few less.
fn cells_for(nodes: usize) -> Vec<u64> {
    let above = |cells: usize| {
        (1..=7)
            .map(|up| cells.div_ceil(1 << (3 * up)))
            .sum::<usize>()
    };
    let mut cells = nodes - above(nodes);
    while cells + 1 + above(cells + 1) <= nodes {
        cells += 1;
    }
    // and the rest below the first of them
    let rest = nodes - cells - above(cells);
    let deeper = (0..rest as u64).map(|code| code * 32768 + 8);
    (0..cells as u64)
        .map(|code| code * 32768 + 7)
        .chain(deeper)
        .collect()
}

/// As many nodes as there may be, and one more, whatever is lent.
fn many_nodes(t: &mut Tally) {
    for nodes in [MOST, MOST + 1] {
        let g = keys_alone(3, &cells_for(nodes));
        let right = g.judged();
        let had = right.as_ref().map(Had::sizes);
        t.same("nodes", had.map(|had| had.1), Ok(nodes), || show(&g));
        compare_whole(t, &g, &right);
        let (_, _, changes) = had.unwrap_or_default();
        compare(t, &g, &right, Room::exact(0, nodes, changes));
        compare(t, &g, &right, Room::exact(0, nodes + 9, changes));
        compare(t, &g, &right, Room::exact(0, nodes, changes - 1));
        compare(t, &g, &right, Room::exact(0, MOST - 1, 0));
    }
}

/// A tree that the Rust builds, or that nobody built.
fn some_tree(r: &mut Random, case: u64) -> Tree {
    if case % 2 == 0 {
        let s = inputs::survey(r, 120);
        oracle::columns(&s.bounds, &oracle::build(&s).0)
    } else {
        let given = odd_tree(r, 60);
        oracle::columns(&oracle::any_box(axes_of(&given)), &given)
    }
}

/// A count or a begin at every place that matters.
fn number(r: &mut Random, end: usize) -> usize {
    let any = (r.next() >> r.below(64)) as usize;
    let within = r.index(end + 1);
    let all = [
        0,
        1,
        end,
        end + 1,
        usize::MAX,
        usize::MAX - 1,
        any,
        within,
        within,
    ];
    r.pick(&all)
}

/// A key that is none: its level or its code is too large.
fn no_key(r: &mut Random, axes: usize) -> u64 {
    let level = r.below(17);
    let past = 1_u64 << (axes as u64 * level);
    let code = past + r.below(past.min(9));
    let any = r.next() | 17;
    let all = [
        code * 32768 + level,
        r.below(64) * 32768 + 17,
        32767,
        any,
        u64::MAX,
    ];
    r.pick(&all)
}

impl Given {
    fn insert(&mut self, at: usize, key: u64, own: usize, begin: usize) {
        self.key.insert(at, key);
        self.own.insert(at, own);
        self.begin.insert(at, begin);
    }

    fn remove(&mut self, at: usize) {
        self.key.remove(at);
        self.own.remove(at);
        self.begin.remove(at);
    }

    fn swap(&mut self, a: usize, b: usize) {
        self.key.swap(a, b);
        self.own.swap(a, b);
        self.begin.swap(a, b);
    }

    /// One thing changed in the rows, of which there is at least one.
    fn change_rows(&mut self, r: &mut Random) {
        let (rows, end) = (self.key.len(), self.order.len());
        let (at, to) = (r.index(rows), r.index(rows + 1));
        let key = self.key[at];
        match r.below(13) {
            0 => self.remove(at),
            1 => (0..r.index(rows - at + 1)).for_each(|_| self.remove(at)),
            2 => self.insert(to, key, self.own[at], self.begin[at]),
            3 => self.insert(to, key, number(r, end), number(r, end)),
            4 => self.swap(at, rows - 1 - r.index(rows)),
            5 => (0..rows / 2).for_each(|row| self.swap(row, rows - 1 - row)),
            6 => self.key[at] = no_key(r, self.axes),
            7 => self.insert(to, no_key(r, self.axes), number(r, end), number(r, end)),
            8 => self.own[at] = number(r, end),
            9 => self.begin[at] = number(r, end),
            10 => {
                // a run that ends with the column, passes it by one, or comes round to 0 or 1
                let count = r.index(end + 2);
                self.own[at] = count;
                let past = r.pick(&[0, 0, 1]);
                let from = r.pick(&[end + past, past]);
                self.begin[at] = from.wrapping_sub(count);
            }
            11 => {
                // a cell below one that is there, in any row
                let below =
                    inputs::key_near(r, self.axes, if valid(self.axes, key) { key } else { 0 });
                self.insert(to, below, r.index(3), r.index(end + 1));
            }
            _ => self.key[at] = r.next() >> r.below(64),
        }
    }

    /// One thing changed, which may leave all as it has to be.
    fn change(&mut self, r: &mut Random) {
        match r.below(16) {
            0 => drop(self.order.pop()),
            1 => self.order.push(r.index(9)),
            2 => self.order.truncate(r.index(self.order.len() + 1)),
            3 if !self.order.is_empty() => {
                let at = r.index(self.order.len());
                self.order[at] = r.pick(&[0, at, usize::MAX, 1 << 32]);
            }
            _ if !self.key.is_empty() => self.change_rows(r),
            _ => self.insert(0, r.pick(&[0, 1, 17]), r.index(2), r.index(2)),
        }
    }

    /// What is refused before the rows are looked at.
    fn spoil(&mut self, r: &mut Random) {
        match r.below(5) {
            0 => self.axes = r.pick(&[0, 4, usize::MAX]),
            1 => drop(self.own.pop()),
            2 => drop(self.begin.pop()),
            3 => self.own.push(r.index(3)),
            _ => drop(self.key.pop()),
        }
    }
}

pub fn salvage(t: &mut Tally, r: &mut Random, case: u64) {
    if case == 0 {
        known(t, r);
        no_keys(t, r);
        no_columns(t, r);
        repeats(t, r);
        overlaps(t);
        exhaustive(t, 1, 4);
        exhaustive(t, 2, if t.short() { 2 } else { 4 });
        if !t.short() {
            exhaustive(t, 3, 2);
            many_nodes(t);
        }
    }
    let tree = some_tree(r, case);
    comes_back(t, &tree);
    for _ in 0..3 {
        let mut g = Given::of(&tree);
        for _ in 0..1 + r.index(5) {
            g.change(r);
        }
        all_of(t, r, &g);
    }
    let mut g = Given::of(&tree);
    g.spoil(r);
    all_of(t, r, &g);
}
