//! What a call is lent, made once.
use lohandema::Refusal;
use lohandema::lent::{self, Asked, Held};
use lohandema::trees::{Lists, Tree};

/// Lists as long as some others, or with at least so many keys each. All entries are written, so that no later call is the
/// first to touch a page of them.
pub fn room_for(lists: &Lists, least: usize) -> Lists {
    let mut room = lists.clone();
    for rows in [&mut room.u, &mut room.v] {
        let keys = rows.keys.len().max(least);
        rows.keys.resize(keys, 1);
    }
    room
}

/// Our list call, with lists of these lengths lent to it.
pub fn fill(tree: &Tree, lists: &mut Lists) -> (usize, usize) {
    let (u, v) = (&mut lists.u, &mut lists.v);
    lent::get_interaction_lists(
        tree.columns(),
        &mut u.starts,
        &mut u.keys,
        &mut v.starts,
        &mut v.keys,
    )
    .expect("room enough")
}

/// The columns of a build of 3 axes without targets.
pub struct Room {
    work: Vec<u64>,
    order: Vec<usize>,
    key: Vec<u64>,
    own: Vec<usize>,
    begin: Vec<usize>,
    total: Vec<usize>,
}

impl Room {
    pub fn new(points: usize, nodes: usize) -> Room {
        Room {
            work: vec![0; 2 * points],
            order: vec![0; points],
            key: vec![0; nodes],
            own: vec![0; nodes],
            begin: vec![0; nodes],
            total: vec![0; nodes],
        }
    }

    pub fn build(&mut self, asked: Asked) -> (usize, u64) {
        lent::build_tree(
            asked,
            &mut self.work,
            &mut self.order,
            &mut self.key,
            &mut self.own,
            &mut self.begin,
            &mut self.total,
        )
        .expect("room enough")
    }

    /// The balanced tree of a tree of these points.
    pub fn balance(&mut self, tree: &Tree, points: &[f64]) -> (usize, u64) {
        lent::balance_tree(
            &tree.bounds,
            points,
            tree.columns(),
            &tree.order,
            &mut self.work,
            &mut self.order,
            &mut self.key,
            &mut self.own,
            &mut self.begin,
            &mut self.total,
        )
        .expect("room enough")
    }

    /// The tree of the sources that were asked for and one more.
    pub fn add(
        &mut self,
        asked: Asked,
        point: &[f64],
        tree: &Tree,
    ) -> Result<(usize, u64), Refusal> {
        lent::add_source(
            asked,
            point,
            tree.columns(),
            &tree.order,
            &mut self.work,
            &mut self.order,
            &mut self.key,
            &mut self.own,
            &mut self.begin,
            &mut self.total,
        )
    }

    /// The tree of a file, with its lists.
    pub fn read(&mut self, file: &[u8], lists: &mut Lists) -> Held {
        let (u, v) = (&mut lists.u, &mut lists.v);
        lent::read_tree(
            file,
            &mut self.order,
            &mut self.key,
            &mut self.own,
            &mut self.begin,
            &mut self.total,
            &mut u.starts,
            &mut u.keys,
            &mut v.starts,
            &mut v.keys,
        )
        .expect("a tree's file, and room enough")
    }

    /// Whether these are the columns of a tree, and no more.
    pub fn holds(&self, tree: &Tree) -> bool {
        self.key == tree.key
            && self.own == tree.own
            && self.begin == tree.begin
            && self.total == tree.total
            && self.order == tree.order
    }
}
