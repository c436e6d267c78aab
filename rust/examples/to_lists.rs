//! The time from points to lists, for `python/measure` to stand beside: writes the bench's surveys to a folder, as f64 one after
//! the other, and prints for each the least time of build and lists. `cargo run --release --example to_lists -- FOLDER`.
#[path = "../../bench/src/clock.rs"]
#[allow(dead_code)]
mod clock;
#[path = "../../bench/src/shapes.rs"]
mod shapes;

use lohandema::Tree;
use lohandema::limits::MOST_POINTS;
use std::{env, fs, io, path::Path};

const LIMIT: usize = 64;
const ROUNDS: usize = 7;

fn main() -> io::Result<()> {
    let folder = env::args().nth(1).expect("a folder to write to");
    for shape in shapes::SHAPES {
        let points = shapes::points(shape, MOST_POINTS);
        let bytes: Vec<u8> = points.iter().flat_map(|x| x.to_le_bytes()).collect();
        fs::write(Path::new(&folder).join(format!("{shape}.f64")), bytes)?;
        let asked = shapes::asked(&points, LIMIT, false);
        let mut least = f64::INFINITY;
        for _ in 0..ROUNDS {
            clock::lower(&mut least, || {
                let tree = Tree::build(asked).expect("a tree");
                let lists = tree.get_interaction_lists().expect("lists");
                (tree, lists)
            });
        }
        println!("{shape} {least:.1}");
    }
    Ok(())
}
