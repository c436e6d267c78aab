//! Tree files read by the library beside a plain reader: the answer, and what is left in each lent slice.
use crate::keys::refused;
use crate::oracle;
use crate::plain_file::{self as plain, Draft, Room};
use crate::random::Random;
use crate::refusals::left;
use crate::tally::Tally;
use lohandema::Refusal;
use lohandema::lent::{self, Held};
use lohandema::trees::{Lists, Rows, Tree};

/// What is lent to the reader.
#[derive(Debug, PartialEq)]
struct Slices {
    order: Vec<usize>,
    key: Vec<u64>,
    own: Vec<usize>,
    begin: Vec<usize>,
    total: Vec<usize>,
    u: Rows,
    v: Rows,
}

impl Slices {
    /// Slices of these lengths that hold anything.
    fn lent(room: &Room) -> Slices {
        let [
            order,
            key,
            own,
            begin,
            total,
            u_starts,
            u_keys,
            v_starts,
            v_keys,
        ] = *room;
        let rows = |starts, keys| Rows {
            starts: vec![usize::MAX; starts],
            keys: vec![77; keys],
        };
        Slices {
            order: vec![77; order],
            key: vec![u64::MAX; key],
            own: vec![77; own],
            begin: vec![usize::MAX; begin],
            total: vec![77; total],
            u: rows(u_starts, u_keys),
            v: rows(v_starts, v_keys),
        }
    }

    /// What is right to be left in slices of these lengths: the tree and its lists and then zeros, or zeros throughout.
    fn left(room: &Room, tree: &Tree, lists: &Lists) -> Slices {
        let rows = |starts, keys, rows: &Rows| Rows {
            starts: left(starts, &rows.starts),
            keys: left(keys, &rows.keys),
        };
        Slices {
            order: left(room[0], &tree.order),
            key: left(room[1], &tree.key),
            own: left(room[2], &tree.own),
            begin: left(room[3], &tree.begin),
            total: left(room[4], &tree.total),
            u: rows(room[5], room[6], &lists.u),
            v: rows(room[7], room[8], &lists.v),
        }
    }

    /// The reader's answer.
    fn read(&mut self, file: &[u8]) -> Result<Held, Refusal> {
        lent::read_tree(
            file,
            &mut self.order,
            &mut self.key,
            &mut self.own,
            &mut self.begin,
            &mut self.total,
            &mut self.u.starts,
            &mut self.u.keys,
            &mut self.v.starts,
            &mut self.v.keys,
        )
    }
}

/// What the plain reader says of a file.
pub type Told = Result<(Tree, Lists), u64>;

/// What is right for a file of which the plain reader says this, in slices of these lengths: the counts of axes, nodes, sources
/// and keys, or the refusal; and what is left in the slices.
fn right_in(told: &Told, room: &Room) -> (Result<[usize; 5], Refusal>, Slices) {
    let none = Tree::from_columns(oracle::any_box(1), vec![], vec![], vec![], vec![], vec![]);
    let zeros = Slices::left(room, &none, &Lists::default());
    let (tree, lists) = match told {
        Ok(held) => held,
        Err(number) => return (refused(*number, 0), zeros),
    };
    if let Some(value) = plain::short(room, &plain::needed(tree, lists)) {
        return (refused(8, value), zeros);
    }
    let (nodes, sources) = (tree.key.len(), tree.order.len());
    let (u, v) = (lists.u.keys.len(), lists.v.keys.len());
    let counts = [tree.axes(), nodes, sources, u, v];
    (Ok(counts), Slices::left(room, tree, lists))
}

/// The reader's answer and what it leaves in slices of these lengths, beside the plain reader's word.
pub fn compare_in(t: &mut Tally, what: &str, file: &[u8], told: &Told, room: &Room) {
    let (right, after) = right_in(told, room);
    if right.is_err() {
        t.refusal();
    }
    let mut slices = Slices::lent(room);
    let ours = slices.read(file);
    let ours = ours.map(|held| [held.axes, held.nodes, held.sources, held.u, held.v]);
    let input = || {
        let shown = &file[..file.len().min(4096)];
        format!("{what}, room {room:?}, file {shown:?}")
    };
    t.same("read", ours, right, input);
    t.same("what reading leaves", slices, after, input);
}

/// A file with the room that it needs, or, if it is refused, that of the file it was made from; and what the plain reader says.
pub fn compare_told(t: &mut Tally, what: &str, file: &[u8], room: &Room) -> Told {
    let told = plain::read(file);
    let room = match &told {
        Ok((tree, lists)) => plain::needed(tree, lists),
        Err(_) => *room,
    };
    compare_in(t, what, file, &told, &room);
    told
}

/// The same where nobody asks what the plain reader says.
pub fn compare_read(t: &mut Tally, what: &str, file: &[u8], room: &Room) {
    let _ = compare_told(t, what, file, room);
}

/// A file with each lent slice one short, with none, and with some entries over.
pub fn compare_rooms(t: &mut Tally, r: &mut Random, what: &str, file: &[u8], room: &Room) {
    let told = plain::read(file);
    for i in 0..room.len() {
        let mut short = *room;
        short[i] = room[i].saturating_sub(1);
        compare_in(t, what, file, &told, &short);
    }
    compare_in(t, what, file, &told, &[0; 9]);
    let longer = room.map(|entries| entries + r.index(4));
    compare_in(t, what, file, &told, &longer);
}

/// A file of the same tree in other words: it is read as the tree, by the plain reader too.
pub fn compare_same(t: &mut Tally, what: &str, draft: &Draft, tree: &Tree, lists: &Lists) {
    let room = plain::needed(tree, lists);
    let told = compare_told(t, what, &draft.file(), &room);
    let columns = |tree: &Tree| format!("{:?} {:?}", tree.columns(), tree.order);
    let same = told.map(|(other, rows)| columns(&other) == columns(tree) && rows == *lists);
    t.same(what, same, Ok(true), || format!("{draft:?}"));
}
