//! What it costs that room is guessed: build and lists of a survey, with room made by the crate and with exactly the room
//! that is needed. `cargo run --release --example room`, or with the number of points after `--`.
#[path = "../../bench/src/clock.rs"]
mod clock;
#[path = "../../bench/src/shapes.rs"]
mod shapes;

use clock::least_of_two;
use lohandema::{Asked, Lists, Tree, lent};

const LIMIT: usize = 64;

/// The build with as much room as the tree needs.
fn build_exactly(asked: Asked, tree: &Tree) -> Tree {
    let (rows, nodes) = (tree.order.len(), tree.key.len());
    let (mut work, mut order) = (vec![0; 2 * rows], vec![0; rows]);
    let (mut key, mut own) = (vec![0; nodes], vec![0; nodes]);
    let (mut begin, mut total) = (vec![0; nodes], vec![0; nodes]);
    lent::build_tree(
        asked, &mut work, &mut order, &mut key, &mut own, &mut begin, &mut total,
    )
    .expect("room");
    Tree::from_columns(*asked.bounds, key, own, begin, total, order)
}

/// The lists with as much room as they need.
fn lists_exactly(tree: &Tree, lists: &Lists) -> Lists {
    let mut same = Lists::default();
    same.u.starts = vec![0; lists.u.starts.len()];
    same.u.keys = vec![0; lists.u.keys.len()];
    same.v.starts = vec![0; lists.v.starts.len()];
    same.v.keys = vec![0; lists.v.keys.len()];
    let (u, v) = (&mut same.u, &mut same.v);
    let columns = tree.columns();
    lent::get_interaction_lists(
        columns,
        &mut u.starts,
        &mut u.keys,
        &mut v.starts,
        &mut v.keys,
    )
    .expect("room");
    same
}

fn tell(call: &str, [guessed, exact]: [f64; 2]) {
    let ratio = guessed / exact;
    println!("  {call}: {guessed:.1} ms, with exact room {exact:.1} ms: {ratio:.3}");
}

fn measure(name: &str, asked: Asked) {
    let tree = Tree::build(asked).expect("a tree");
    let lists = tree.get_interaction_lists().expect("lists");
    assert!(build_exactly(asked, &tree) == tree && lists_exactly(&tree, &lists) == lists);
    let nodes = tree.key.len();
    let a_node = |keys: usize| keys as f64 / nodes as f64;
    let (u, v) = (a_node(lists.u.keys.len()), a_node(lists.v.keys.len()));
    println!("{name}: {nodes} nodes, a node {u:.1} U keys and {v:.1} V keys");
    tell(
        "build",
        least_of_two(5, || Tree::build(asked), || build_exactly(asked, &tree)),
    );
    tell(
        "lists",
        least_of_two(
            5,
            || tree.get_interaction_lists(),
            || lists_exactly(&tree, &lists),
        ),
    );
}

fn main() {
    let word = std::env::args().nth(1);
    let points = word.map_or(1_000_000, |word| word.parse().expect("a number of points"));
    for shape in shapes::SHAPES {
        let sources = shapes::points(shape, points);
        let asked = shapes::asked(&sources, LIMIT, false);
        measure(&format!("{shape}, {points} points"), asked);
        let kept = shapes::asked(&sources, LIMIT, true);
        measure(&format!("{shape}, {points} points, empty cells kept"), kept);
    }
}
