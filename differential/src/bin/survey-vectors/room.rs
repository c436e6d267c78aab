//! Surveys whose tree or lists have a wanted size: found by changing one source after another.
use crate::oracle::{self, ENTRIES, NODES, Tree};
use crate::random::Random;
use crate::survey::Survey;

/// Which size is wanted. The room that is judged before it has to suffice, and the rest too where it fits itself.
#[derive(Clone, Copy, Debug)]
pub enum Wanted {
    Nodes(usize),
    U(usize),
    V(usize),
}

const TRIES: usize = 2_000;

/// Sources lie in the middle of cells of this level, so that leaves are no deeper without need.
const LEVEL: u64 = 11;

fn miss(tree: &Tree, wanted: Wanted) -> usize {
    let over = |size: usize, room: usize| size.saturating_sub(room);
    let nodes = over(tree.keys.len(), NODES);
    let (u, v) = (tree.u_entries(), tree.v_entries());
    match wanted {
        Wanted::Nodes(size) if size > NODES => tree.keys.len().abs_diff(size),
        Wanted::Nodes(size) => tree.keys.len().abs_diff(size) + over(u, ENTRIES) + over(v, ENTRIES),
        Wanted::U(size) => u.abs_diff(size) + nodes + over(v, ENTRIES),
        Wanted::V(size) => v.abs_diff(size) + nodes + over(u, ENTRIES),
    }
}

/// A new source, in the middle of a cell. Many U entries and few V entries come of a line in one corner of the box.
fn source(random: &mut Random, s: &Survey, wanted: Wanted) -> Vec<f64> {
    let mut step = |axis: usize| match (wanted, axis) {
        (Wanted::U(_), 0) => random.below(1 << (LEVEL - 1)),
        (Wanted::U(_), _) => 0,
        _ => random.below(1 << LEVEL),
    };
    let side = 2.0 * s.radius / (1u64 << LEVEL) as f64;
    let mut on = |a: usize| s.centre[a] - s.radius + (step(a) as f64 + 0.5) * side;
    (0..s.axes).map(&mut on).collect()
}

/// So many sources more, fewer, or elsewhere; the first so many stay.
fn changed(random: &mut Random, s: &Survey, wanted: Wanted, many: usize, stay: usize) -> Survey {
    let mut next = s.clone();
    let what = random.below(3);
    for _ in 0..many {
        let loose = next.sources.len() / s.axes - stay;
        if what > 0 && loose > 0 {
            let at = (stay + random.index(loose)) * s.axes;
            next.sources.drain(at..at + s.axes);
        }
        if what < 2 {
            next.sources.extend(source(random, s, wanted));
        }
    }
    next
}

/// A survey with the wanted size, sought from another; that one's sources stay.
pub fn sized(random: &mut Random, first: Survey, wanted: Wanted) -> Survey {
    let stay = first.sources.len() / first.axes;
    let mut best = first;
    let mut least = miss(&oracle::grown(&best), wanted);
    for _ in 0..TRIES {
        if least == 0 {
            return best;
        }
        // Far away, many sources change at once.
        let next = changed(random, &best, wanted, 1 + least / 64, stay);
        let missed = miss(&oracle::grown(&next), wanted);
        if missed <= least {
            (best, least) = (next, missed);
        }
    }
    panic!("{wanted:?}: {least} away after {TRIES} tries");
}
