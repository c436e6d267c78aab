//! The key calls: against the Rust inside its domain, against document 01's refusals elsewhere.
use crate::inputs;
use crate::oracle::{code, dimensions, level, valid};
use crate::random::Random;
use crate::tally::Tally;
use ferreus_bbfmm::morton;
use lohandema::Refusal;
use lohandema::keys;

pub fn refused<T>(number: u64, value: usize) -> Result<T, Refusal> {
    Err(Refusal::new(number, value))
}

/// Every call on one valid key.
fn compare_key(t: &mut Tally, axes: usize, key: u64) {
    let d = dimensions(axes);
    let input = || format!("axes {axes} key {key}");
    t.same(
        "level",
        keys::get_level(axes, key),
        Ok(morton::get_level(key)),
        input,
    );
    let parent = morton::get_parent(key, &d);
    t.same(
        "parent",
        keys::get_parent(axes, key),
        parent.map_or(refused(10, 0), Ok),
        input,
    );
    t.same(
        "child index",
        keys::get_child_index(axes, key),
        Ok(morton::get_child_index(&key, &d) as u64),
        input,
    );
    let children = if level(key) == 16 {
        refused(11, 0)
    } else {
        Ok(morton::get_children(key, &d))
    };
    t.same("children", keys::get_children(axes, key), children, input);
    let siblings = if level(key) == 0 {
        refused(10, 0)
    } else {
        Ok(morton::get_siblings(key, &d))
    };
    t.same("siblings", keys::get_siblings(axes, key), siblings, input);
    let mut ancestors: Vec<u64> = morton::get_ancestors(key, &d).into_iter().collect();
    ancestors.sort_by_key(|&k| std::cmp::Reverse(level(k)));
    t.same(
        "ancestors",
        keys::get_ancestors(axes, key),
        Ok(ancestors),
        input,
    );
    t.same(
        "neighbours",
        keys::get_neighbours(axes, key),
        Ok(morton::get_neighbours(key, &d)),
        input,
    );
    let anchor = morton::decode_key(key, &d);
    let mut three = [0; 3];
    three[..axes].copy_from_slice(&anchor[..axes]);
    t.same(
        "decode",
        keys::decode_key(axes, key),
        Ok((three, anchor[axes])),
        input,
    );
    // anchors past the axes are not read
    let mut given = [u64::MAX; 3];
    given[..axes].copy_from_slice(&three[..axes]);
    t.same(
        "encode",
        keys::encode_morton_point(axes, given, anchor[axes]),
        Ok(morton::encode_morton_point(anchor, &d)),
        input,
    );
}

/// Every valid key of the first levels.
pub fn small(t: &mut Tally, _r: &mut Random, _case: u64) {
    for (axes, levels) in [(1, 12), (2, 6), (3, 4)] {
        for level in 0..=levels {
            for code in 0..1u64 << (axes as u64 * level) {
                compare_key(t, axes, code * 32768 + level);
            }
        }
    }
}

/// Keys of all levels.
pub fn random(t: &mut Tally, r: &mut Random, _case: u64) {
    let axes = 1 + r.index(3);
    let level = r.below(17);
    let key = inputs::key(r, axes, level);
    compare_key(t, axes, key);
}

/// Touching, against the Rust's neighbours.
pub fn touching(t: &mut Tally, r: &mut Random, _case: u64) {
    let axes = 1 + r.index(3);
    let level = r.below(17);
    let a = inputs::key(r, axes, level);
    let b = inputs::key_near(r, axes, a);
    let near = a == b || morton::get_neighbours(a, &dimensions(axes)).contains(&b);
    t.same("touching", keys::touching(axes, a, b), Ok(near), || {
        format!("axes {axes} keys {a} {b}")
    });
}

/// Any number as a key, any number of axes, anchors off their level: what document 01 says.
pub fn any(t: &mut Tally, r: &mut Random, _case: u64) {
    let axes = if r.once_in(4) {
        r.pick(&[0, 4, 5, usize::MAX])
    } else {
        1 + r.index(3)
    };
    let key = match r.below(4) {
        0 => r.next(),
        1 => (r.below(1 << 49) << 15) | r.below(20),
        2 => (1u64 << r.below(64)) + r.below(18),
        _ => r.next() >> r.below(64),
    };
    let known = (1..=3).contains(&axes);
    if known && valid(axes, key) {
        compare_key(t, axes, key);
    } else {
        let number = if known { 9 } else { 1 };
        let input = || format!("axes {axes} key {key}");
        t.refusal();
        t.same(
            "level",
            keys::get_level(axes, key),
            refused(number, 0),
            input,
        );
        t.same(
            "parent",
            keys::get_parent(axes, key),
            refused(number, 0),
            input,
        );
        t.same(
            "child index",
            keys::get_child_index(axes, key),
            refused(number, 0),
            input,
        );
        t.same(
            "children",
            keys::get_children(axes, key),
            refused(number, 0),
            input,
        );
        t.same(
            "siblings",
            keys::get_siblings(axes, key),
            refused(number, 0),
            input,
        );
        t.same(
            "ancestors",
            keys::get_ancestors(axes, key),
            refused(number, 0),
            input,
        );
        t.same(
            "neighbours",
            keys::get_neighbours(axes, key),
            refused(number, 0),
            input,
        );
        t.same(
            "decode",
            keys::decode_key(axes, key),
            refused(number, 0),
            input,
        );
        t.same(
            "touching",
            keys::touching(axes, key, 0),
            refused(number, 0),
            input,
        );
        t.same(
            "touching",
            keys::touching(axes, 0, key),
            refused(number, 0),
            input,
        );
    }
    let level = r.pick(&[0, 1, 2, 15, 16, 17, 18, 64, u64::MAX]);
    let top = if level <= 16 { 1u64 << level } else { 65536 };
    let mut anchor = [0; 3];
    for x in anchor.iter_mut() {
        *x = r.pick(&[0, top / 2, top - 1, top, top + 1, 65536, u64::MAX]);
    }
    let good = level <= 16 && known && anchor[..axes].iter().all(|x| *x < top);
    let right = if !known {
        refused(1, 0)
    } else if !good {
        refused(9, 0)
    } else {
        let mut words = anchor[..axes].to_vec();
        words.push(level);
        Ok(morton::encode_morton_point(words, &dimensions(axes)))
    };
    if right.is_err() {
        t.refusal();
    }
    t.same(
        "encode",
        keys::encode_morton_point(axes, anchor, level),
        right,
        || format!("axes {axes} anchor {anchor:?} level {level}"),
    );
}

/// Our decode and the Rust's, of one code at level 16.
fn compare_decode(t: &mut Tally, axes: usize, code: u64) {
    let key = code * 32768 + 16;
    let theirs = morton::decode_key(key, &dimensions(axes));
    let mut anchor = [0; 3];
    anchor[..axes].copy_from_slice(&theirs[..axes]);
    t.same(
        "decode",
        keys::decode_key(axes, key),
        Ok((anchor, 16)),
        || format!("axes {axes} code {code}"),
    );
}

/// The Rust's decode tables: each entry at each place of a code where it is read, every other bit of the code 0, and 1.
fn decode_tables(t: &mut Tally, axes: usize) {
    let width = if axes == 3 { 9 } else { 8 };
    let all = (1u64 << (16 * axes)) - 1;
    for place in (0..16 * axes).step_by(width) {
        let read = (((1u64 << width) - 1) << place) & all;
        for entry in 0..=read >> place {
            for rest in [0, all & !read] {
                compare_decode(t, axes, rest | (entry << place));
            }
        }
    }
}

/// The Rust's tables, through the two calls: each anchor of each axis encoded and decoded, and each decode entry.
pub fn tables(t: &mut Tally, _r: &mut Random, _case: u64) {
    for axes in 1..=3 {
        for axis in 0..axes {
            for x in 0..65536u64 {
                let mut anchor = [0; 3];
                anchor[axis] = x;
                let mut words = anchor[..axes].to_vec();
                words.push(16);
                let theirs = morton::encode_morton_point(words, &dimensions(axes));
                let ours = keys::encode_morton_point(axes, anchor, 16);
                t.same("encode", ours, Ok(theirs), || {
                    format!("axes {axes} {anchor:?}")
                });
                compare_decode(t, axes, code(theirs));
            }
        }
        decode_tables(t, axes);
    }
}
