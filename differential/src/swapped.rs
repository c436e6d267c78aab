//! What a program holds that was written against the Rust's `TreeLists`: every field of it beside that of `lohandema::ferreus`.
use crate::builds::asked_of;
use crate::inputs;
use crate::oracle;
use crate::random::Random;
use crate::tally::Tally;
use crate::trees::show;
use lohandema::ferreus;
use lohandema::trees::Tree;
use std::collections::{HashMap, HashSet};

/// The values of a map in ascending order: the Rust leaves their order to chance.
fn ascending(map: HashMap<u64, Vec<u64>>) -> HashMap<u64, Vec<u64>> {
    let sorted = |mut keys: Vec<u64>| {
        keys.sort_unstable();
        keys
    };
    map.into_iter().map(|(k, keys)| (k, sorted(keys))).collect()
}

/// Whether each key has a number of its own, from 0 on, and the root the first.
fn numbered(map: &HashMap<u64, usize>) -> bool {
    let numbers: HashSet<usize> = map.values().copied().collect();
    numbers.len() == map.len() && numbers.iter().all(|n| *n < map.len()) && map[&0] == 0
}

/// How many keys the rows of a map have.
fn keys_of(rows: &HashMap<u64, Vec<u64>>) -> usize {
    rows.values().map(Vec::len).sum()
}

/// Where the sources are the targets too, the Rust's own grouping of them by leaf.
fn targets(t: &mut Tally, s: &oracle::Survey, tree: &Tree, maps: &mut ferreus::TreeLists) {
    let looked_up = maps.set_targets(tree, &s.sources);
    t.same("targets are looked up", looked_up, Ok(()), || show(s));
    let keys = tree.points_to_keys(&s.sources).map(|(keys, _)| keys);
    let right = ferreus_bbfmm::linear_tree::get_points_to_leaves_map(&keys.unwrap_or_default());
    let ours = maps.leaf_target_indices.clone();
    t.same("leaf_target_indices", ours, right, || show(s));
}

pub fn swapped(t: &mut Tally, r: &mut Random, _case: u64) {
    let s = inputs::survey(r, 400);
    let (theirs, depth) = oracle::build(&s);
    let built = Tree::build(asked_of(&s, true));
    t.same("build", built.is_ok(), true, || show(&s));
    let Ok(tree) = built else { return };
    let ours = ferreus::TreeLists::of(&tree);
    t.same("maps", ours.is_ok(), true, || show(&s));
    let Ok(mut ours) = ours else { return };
    t.same("depth", tree.depth(), depth, || show(&s));
    targets(t, &s, &tree, &mut ours);
    let sizes = (keys_of(&theirs.u_lists), keys_of(&theirs.v_lists));
    t.same(
        "sizes of the lists",
        tree.get_list_sizes(),
        Ok(sizes),
        || show(&s),
    );
    let numbers = [&ours.key_to_index_map, &theirs.key_to_index_map];
    let right = [true, true];
    t.same("each node its number", numbers.map(numbered), right, || {
        show(&s)
    });
    let keys = numbers.map(|map| map.keys().copied().collect::<HashSet<_>>());
    t.same("numbered keys", &keys[0], &keys[1], || show(&s));
    t.same("tree", ours.tree, theirs.tree, || show(&s));
    t.same("leaves", ours.leaves, theirs.leaves, || show(&s));
    t.same("children", ours.children, theirs.children, || show(&s));
    t.same("u_lists", ours.u_lists, theirs.u_lists, || show(&s));
    t.same("v_lists", ours.v_lists, theirs.v_lists, || show(&s));
    let cells = ascending(theirs.level_cells_map);
    t.same("level_cells_map", ours.level_cells_map, cells, || show(&s));
    let (places, right) = (ours.source_key_to_index_map, theirs.source_key_to_index_map);
    t.same("source_key_to_index_map", places, right, || show(&s));
    let (sources, right) = (ours.leaf_source_indices, theirs.leaf_source_indices);
    t.same("leaf_source_indices", sources, right, || show(&s));
}
