//! Room is made: no build is refused for want of it, and long lists are whole.

use lohandema::{Asked, Bounds, Lists, Rows, Tree, lent};

/// Numbers from 0 to 1, by a fixed rule.
struct Unit(u64);

impl Unit {
    fn next(&mut self) -> f64 {
        self.0 ^= self.0 << 13;
        self.0 ^= self.0 >> 7;
        self.0 ^= self.0 << 17;
        (self.0 >> 11) as f64 / (1u64 << 53) as f64
    }

    /// Pairs of points so close that they part at level 16 only, if at all.
    fn pairs(&mut self, axes: usize, count: usize) -> Vec<f64> {
        let mut points = vec![];
        for _ in 0..count {
            let place: Vec<f64> = (0..axes).map(|_| 0.5 + 7.0 * self.next()).collect();
            points.extend(&place);
            points.extend(place.iter().map(|x| x + 1e-4 * self.next()));
        }
        points
    }
}

#[test]
fn the_deepest_trees_have_room() {
    let mut unit = Unit(88_172_645_463_325_252);
    for axes in 1..=3 {
        let bounds = Bounds::new(&[4.0; 3][..axes], 4.0);
        for count in [0, 1, 2, 7, 40] {
            let (sources, targets) = (unit.pairs(axes, count), unit.pairs(axes, 3 * count));
            for limit in [0, 1, 2, 9] {
                let asked = Asked::new(&bounds, &sources, limit);
                let plain = Tree::build(asked).unwrap();
                let kept = Tree::build(asked.keeping_empty()).unwrap();
                assert!(plain.is_well_formed() && kept.is_well_formed());
                let refined = Tree::build(asked.refined(&targets, 1)).unwrap();
                assert!(refined.key.len() >= kept.key.len());
            }
        }
    }
}

/// A cluster in one small cell, and one source in each cell that touches a cell above it: long U rows.
fn shells(bounds: &Bounds) -> Vec<f64> {
    let mut unit = Unit(362_436_069);
    let heart = [2.9, 3.1, 2.7];
    let mut sources = vec![];
    for level in 2..10 {
        let side = bounds.get_side_length(level).unwrap();
        for step in 0..27 {
            let steps = [step % 3, step / 3 % 3, step / 9];
            sources.extend((0..3).map(|a| heart[a] + side * (f64::from(steps[a]) - 1.0)));
        }
    }
    for _ in 0..1000 {
        sources.extend(heart.map(|x| x + 0.01 * unit.next()));
    }
    sources
}

/// The lists with room to spare.
fn with_much_room(tree: &Tree) -> Lists {
    let starts = vec![0; tree.key.len() + 1];
    let keys = vec![0; 4_000_000];
    let u = Rows { starts, keys };
    let mut lists = Lists { v: u.clone(), u };
    let (u, v) = (&mut lists.u, &mut lists.v);
    let columns = tree.columns();
    let written = lent::get_interaction_lists(
        columns,
        &mut u.starts,
        &mut u.keys,
        &mut v.starts,
        &mut v.keys,
    );
    let (u_keys, v_keys) = written.unwrap();
    u.keys.truncate(u_keys);
    v.keys.truncate(v_keys);
    lists
}

#[test]
fn lists_are_whole_where_the_first_guess_is_short() {
    let bounds = Bounds::new(&[4.0; 3], 4.0);
    let mut unit = Unit(521_288_629);
    // far more U keys than so many nodes have as a rule
    let mut sources = shells(&bounds);
    sources.extend(unit.pairs(3, 300));
    let long_u = Tree::build(Asked::new(&bounds, &sources, 1)).unwrap();
    // a full level of cells, whose V rows are long, among many more that are empty
    let steps = (0..512).flat_map(|i| [i % 8, i / 8 % 8, i / 64]);
    let mut sources: Vec<f64> = steps.map(|step| 0.5 + f64::from(step)).collect();
    sources.extend(unit.pairs(3, 60));
    let long_v = Tree::build(Asked::new(&bounds, &sources, 1).keeping_empty()).unwrap();
    for tree in [long_u, long_v] {
        assert!(tree.get_interaction_lists().unwrap() == with_much_room(&tree));
    }
}
