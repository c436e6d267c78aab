//! Calls of the C face that the Rust crate does not let through: a centre and a point that have something past the axes,
//! all places of a list, and where a cell's run starts. Each array held something before the call.
use lohandema::points::Bounds;
use lohandema::{Columns, Reason, Refusal, Tree};

#[repr(C)]
struct Ended {
    number: u32,
    axis: u16,
    reason: u16,
    value: usize,
}

unsafe extern "C" {
    fn lohandema_get_children(
        axes: usize,
        key: u64,
        keys: *mut [u64; 26],
        len: *mut usize,
    ) -> Ended;
    fn lohandema_point_to_anchor(
        centre: *const [f64; 3],
        radius: f64,
        axes: usize,
        point: *const [f64; 3],
        level: u64,
        anchor: *mut [u64; 3],
    ) -> Ended;
    fn lohandema_point_to_key(
        centre: *const [f64; 3],
        radius: f64,
        axes: usize,
        point: *const [f64; 3],
        level: u64,
        key: *mut u64,
    ) -> Ended;
    fn lohandema_point_to_leaf(
        centre: *const [f64; 3],
        radius: f64,
        axes: usize,
        key: *const u64,
        key_len: usize,
        own: *const usize,
        own_len: usize,
        begin: *const usize,
        begin_len: usize,
        total: *const usize,
        total_len: usize,
        point: *const [f64; 3],
        leaf: *mut u64,
        steps: *mut u64,
    ) -> Ended;
    fn lohandema_cell_sources(
        total: *const usize,
        total_len: usize,
        begin: *const usize,
        begin_len: usize,
        order: *const usize,
        order_len: usize,
        node: usize,
        start: *mut usize,
    ) -> usize;
}

/// The answer. A refusal that has not written 0 is taken as one too, and differs from what is right.
fn answer<T: PartialEq + Default>(ended: Ended, written: T) -> Result<T, Refusal> {
    if ended.number == 0 || written != T::default() {
        return Ok(written);
    }
    let refusal = Refusal::new(u64::from(ended.number), ended.value);
    match Reason::numbered(ended.reason) {
        Some(reason) => Err(refusal.behind(usize::from(ended.axis), reason)),
        // an axis without a reason is told by no call
        None if ended.axis == 0 => Err(refusal),
        None => Ok(written),
    }
}

/// All 26 places and the length.
pub fn get_children(axes: usize, key: u64) -> ([u64; 26], usize) {
    let (mut keys, mut len) = ([7; 26], 7);
    // SAFETY: 26 keys and their number are written, to `keys` and `len`, which are ours.
    unsafe { lohandema_get_children(axes, key, &mut keys, &mut len) };
    (keys, len)
}

/// The box's centre and the point are taken as they are, past the axes too.
pub fn point_to_anchor(b: &Bounds, point: &[f64; 3], level: u64) -> Result<[u64; 3], Refusal> {
    let mut anchor = [7; 3];
    // SAFETY: centre and point are read and three anchors are written; all are ours.
    let ended = unsafe {
        lohandema_point_to_anchor(&b.centre, b.radius, b.axes, point, level, &mut anchor)
    };
    answer(ended, anchor)
}

pub fn point_to_key(b: &Bounds, point: &[f64; 3], level: u64) -> Result<u64, Refusal> {
    let mut key = 7;
    // SAFETY: centre and point are read and one key is written; all are ours.
    let ended =
        unsafe { lohandema_point_to_key(&b.centre, b.radius, b.axes, point, level, &mut key) };
    answer(ended, key)
}

pub fn point_to_leaf(
    b: &Bounds,
    tree: Columns<'_>,
    point: &[f64; 3],
) -> Result<(u64, u64), Refusal> {
    let (mut leaf, mut steps) = (7, 7);
    // SAFETY: columns are read with their own lengths, centre and point as three numbers; `leaf` and `steps` are ours.
    let ended = unsafe {
        lohandema_point_to_leaf(
            &b.centre,
            b.radius,
            b.axes,
            tree.key.as_ptr(),
            tree.key.len(),
            tree.own.as_ptr(),
            tree.own.len(),
            tree.begin.as_ptr(),
            tree.begin.len(),
            tree.total.as_ptr(),
            tree.total.len(),
            point,
            &mut leaf,
            &mut steps,
        )
    };
    answer(ended, (leaf, steps))
}

/// How many entries of the order column a cell's run has, and where they start.
pub fn cell_sources(tree: &Tree, node: usize) -> (usize, usize) {
    let mut start = 7;
    // SAFETY: columns are read with their own lengths; `start` is ours.
    let count = unsafe {
        lohandema_cell_sources(
            tree.total.as_ptr(),
            tree.total.len(),
            tree.begin.as_ptr(),
            tree.begin.len(),
            tree.order.as_ptr(),
            tree.order.len(),
            node,
            &mut start,
        )
    };
    (count, start)
}

/// These numbers, and past them something that a call has to leave unread: one of four, by turns.
pub fn odd_past(numbers: &[f64], turn: usize) -> [f64; 3] {
    let odd = [f64::NAN, f64::NEG_INFINITY, 1e300, -7.5][turn % 4];
    let mut three = [odd; 3];
    three[..numbers.len()].copy_from_slice(numbers);
    three
}

/// The box with such a centre.
pub fn odd_box(b: &Bounds, turn: usize) -> Bounds {
    let centre = odd_past(&b.centre[..b.axes], turn);
    Bounds { centre, ..*b }
}
