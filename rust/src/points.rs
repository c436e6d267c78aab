//! The box, a point's cell in it, and the two calls on the centres of cells.

use crate::Refusal;
use crate::raw;
use crate::refusal::answered;

/// A box: its centre, radius and number of axes.
///
/// It holds what lies from centre − radius on, and below centre + radius, on every axis. Its domain: 1 to 3 axes, a radius
/// from 0.25 to 1,048,576, and a centre that is finite and at most 16,777,216 in size on each axis. Any other value can be
/// made, and is refused by each call that takes it.
#[derive(Clone, Copy, Debug, PartialEq)]
#[must_use]
pub struct Bounds {
    /// The centre; values past the axes do not matter, and are 0 in an answer.
    pub centre: [f64; 3],
    /// Half the length of the box along each axis.
    pub radius: f64,
    /// The number of axes.
    pub axes: usize,
}

/// The first three coordinates, and 0 for those that are missing.
fn three(coordinates: &[f64]) -> [f64; 3] {
    let mut all = [0.0; 3];
    for (to, from) in all.iter_mut().zip(coordinates) {
        *to = *from;
    }
    all
}

impl Bounds {
    /// The box with this centre: one axis for each of its coordinates. With none, or with more than three, of which only
    /// three can be kept, each call refuses the box, [`DIMS`](Refusal::DIMS).
    ///
    /// ```
    /// use lohandema::{Bounds, Refusal};
    /// let four = Bounds::new(&[1.0, 2.0, 3.0, 4.0], 8.0);
    /// assert_eq!(four.axes, 4);
    /// assert_eq!(four.check().unwrap_err().number, Refusal::DIMS);
    /// ```
    pub fn new(centre: &[f64], radius: f64) -> Bounds {
        Bounds {
            centre: three(centre),
            radius,
            axes: centre.len(),
        }
    }

    /// A point's coordinates, 0 past the axes. Where there is not one for each axis the box is judged first, then the shape.
    pub(crate) fn coordinates(&self, point: &[f64]) -> Result<[f64; 3], Refusal> {
        if point.len() == self.axes {
            // with more than three the call refuses the axes
            return Ok(three(point));
        }
        self.check()?;
        Err(Refusal::new(Refusal::SHAPE, 0))
    }

    /// The box that extents ask for: the lows of the axes, then the highs. Lows are rounded down, highs up, and the radius
    /// is half the longest axis and 0.001 more.
    ///
    /// ```
    /// use lohandema::points::Bounds;
    /// let bounds = Bounds::from_extents(&[0.2, 7.8])?;
    /// assert_eq!((bounds.centre[0], bounds.radius, bounds.axes), (4.0, 4.001, 1));
    /// assert_eq!(Bounds::from_extents(&[3.0, 3.0]).unwrap_err().number, 2);
    /// # Ok::<(), lohandema::Refusal>(())
    /// ```
    ///
    /// # Errors
    /// [`DIMS`](Refusal::DIMS) unless there are 2, 4 or 6 numbers; [`BOX`](Refusal::BOX) if one is not finite, or the box is
    /// outside its domain.
    pub fn from_extents(extents: &[f64]) -> Result<Bounds, Refusal> {
        let mut b = Bounds {
            centre: [0.0; 3],
            radius: 0.0,
            axes: 0,
        };
        // SAFETY: the extents are read with their own length; centre, radius and axes are written, and are ours.
        let ended = unsafe {
            raw::lohandema_calculate_tree_center_and_radius(
                extents.as_ptr(),
                extents.len(),
                &mut b.centre,
                &mut b.radius,
                &mut b.axes,
            )
        };
        answered(ended, b)
    }

    /// Whether the box is in its domain.
    ///
    /// # Errors
    /// [`DIMS`](Refusal::DIMS) unless it has 1 to 3 axes; [`BOX`](Refusal::BOX) if radius or centre is outside its range.
    pub fn check(&self) -> Result<(), Refusal> {
        // SAFETY: the centre is read, and is ours.
        let ended = unsafe { raw::lohandema_box_outcome(&self.centre, self.radius, self.axes) };
        answered(ended, ())
    }

    /// The anchors of the cell of a level in which a point lies, 0 past the axes.
    ///
    /// # Errors
    /// [`DIMS`](Refusal::DIMS); [`BOX`](Refusal::BOX); [`SHAPE`](Refusal::SHAPE) unless the point has one coordinate for
    /// each axis; [`KEY`](Refusal::KEY) if the level is above 16; [`POINT`](Refusal::POINT) if the point is outside the box.
    pub fn point_to_anchor(&self, point: &[f64], level: u64) -> Result<[u64; 3], Refusal> {
        let point = self.coordinates(point)?;
        let mut anchor = [0; 3];
        // SAFETY: centre and point are read and three anchors are written; all are ours.
        let ended = unsafe {
            raw::lohandema_point_to_anchor(
                &self.centre,
                self.radius,
                self.axes,
                &point,
                level,
                &mut anchor,
            )
        };
        answered(ended, anchor)
    }

    /// The key of the cell of a level in which a point lies.
    ///
    /// ```
    /// use lohandema::{Bounds, Refusal};
    /// let bounds = Bounds::new(&[4.0], 4.0);
    /// assert_eq!(bounds.point_to_key(&[6.5], 3)?, 196611);
    /// assert_eq!(bounds.point_to_key(&[6.5, 1.0], 3).unwrap_err().number, Refusal::SHAPE);
    /// # Ok::<(), lohandema::Refusal>(())
    /// ```
    ///
    /// # Errors
    /// As [`point_to_anchor`](Bounds::point_to_anchor).
    pub fn point_to_key(&self, point: &[f64], level: u64) -> Result<u64, Refusal> {
        let point = self.coordinates(point)?;
        let mut key = 0;
        // SAFETY: centre and point are read and one key is written; all are ours.
        let ended = unsafe {
            raw::lohandema_point_to_key(
                &self.centre,
                self.radius,
                self.axes,
                &point,
                level,
                &mut key,
            )
        };
        answered(ended, key)
    }

    /// The side of a cell at a level.
    ///
    /// # Errors
    /// [`DIMS`](Refusal::DIMS); [`BOX`](Refusal::BOX); [`KEY`](Refusal::KEY) if the level is above 16.
    pub fn get_side_length(&self, level: u64) -> Result<f64, Refusal> {
        let mut side = 0.0;
        // SAFETY: the centre is read and one number is written; both are ours.
        let ended = unsafe {
            raw::lohandema_get_side_length(&self.centre, self.radius, self.axes, level, &mut side)
        };
        answered(ended, side)
    }

    /// A cell's centre, 0 past the axes, and the length of its side.
    ///
    /// # Errors
    /// [`DIMS`](Refusal::DIMS); [`BOX`](Refusal::BOX); [`KEY`](Refusal::KEY) if the key is not valid.
    pub fn get_center_length(&self, key: u64) -> Result<([f64; 3], f64), Refusal> {
        let (mut middle, mut length) = ([0.0; 3], 0.0);
        // SAFETY: the centre is read, three numbers and one more are written; all are ours.
        let ended = unsafe {
            raw::lohandema_get_center_length(
                &self.centre,
                self.radius,
                self.axes,
                key,
                &mut middle,
                &mut length,
            )
        };
        answered(ended, (middle, length))
    }

    /// Whether two cells of any levels touch or overlap, by a test of their centres and sides in f64.
    /// For two cells of one level this is proved to be the answer of [`touching`](crate::keys::touching) wherever neither
    /// call refuses; of two levels `touching` is always no, and this need not be.
    ///
    /// ```
    /// use lohandema::{Bounds, keys};
    ///
    /// let b = Bounds::new(&[4.0], 4.0);
    /// // two cells of level 3: side by side, and with one between them
    /// assert_eq!(b.are_adjacent(3, 32771), Ok(true));
    /// assert_eq!(keys::touching(1, 3, 32771), Ok(true));
    /// assert_eq!(b.are_adjacent(3, 65539), Ok(false));
    /// assert_eq!(keys::touching(1, 3, 65539), Ok(false));
    /// // the root and a cell in it
    /// assert_eq!(b.are_adjacent(0, 3), Ok(true));
    /// assert_eq!(keys::touching(1, 0, 3), Ok(false));
    /// ```
    ///
    /// # Errors
    /// [`DIMS`](Refusal::DIMS); [`BOX`](Refusal::BOX); [`KEY`](Refusal::KEY) if one of the keys is not valid.
    pub fn are_adjacent(&self, first: u64, second: u64) -> Result<bool, Refusal> {
        let mut adjacent = false;
        // SAFETY: the centre is read and one truth value is written; both are ours.
        let ended = unsafe {
            raw::lohandema_are_adjacent(
                &self.centre,
                self.radius,
                self.axes,
                first,
                second,
                &mut adjacent,
            )
        };
        answered(ended, adjacent)
    }
}

/// The least depth whose cells are at least as many as the sources, held to 1..16.
///
/// # Errors
/// [`DIMS`](Refusal::DIMS).
pub fn reference_depth(axes: usize, sources: usize) -> Result<u64, Refusal> {
    let mut depth = 0;
    // SAFETY: one number is written, to `depth`, which is ours.
    let ended = unsafe { raw::lohandema_reference_depth(axes, sources, &mut depth) };
    answered(ended, depth)
}
