use crate::raw::Ended;
use std::error::Error;
use std::fmt;

/// Why a coordinate is at no cell of the box, in the order in which it is asked.
#[derive(Clone, Copy, Debug, PartialEq, Eq, Hash)]
pub enum Reason {
    /// The coordinate itself is a NaN or an infinity.
    NotFinite = 1,
    /// It is finite, and below the box.
    Below = 2,
    /// It is finite, and above the box.
    Above = 3,
}

impl Reason {
    /// The reason with this number, if it is one of 1, 2 and 3.
    #[must_use]
    pub const fn numbered(number: u16) -> Option<Reason> {
        match number {
            1 => Some(Reason::NotFinite),
            2 => Some(Reason::Below),
            3 => Some(Reason::Above),
            _ => None,
        }
    }

    /// Its number, as the C face and the listing tell it.
    #[must_use]
    pub const fn number(self) -> u16 {
        self as u16
    }
}

/// Which wall of the box a point is behind: the first axis on which it is at no cell, and why.
#[derive(Clone, Copy, Debug, PartialEq, Eq, Hash)]
pub struct Wall {
    /// The axis, from 0.
    pub axis: usize,
    /// Why the point is outside there.
    pub reason: Reason,
}

/// Why a call was refused: a number, for some numbers a value, and for 6 and 7 a wall. Its text is a sentence with the cure.
///
/// ```
/// use lohandema::{Asked, Bounds, Reason, Refusal, Tree, Wall};
/// let bounds = Bounds::new(&[4.0], 4.0);
/// let refusal = Tree::build(Asked::new(&bounds, &[0.5, 9.0], 1)).unwrap_err();
/// assert_eq!((refusal.number, refusal.value), (Refusal::SOURCE, 1));
/// assert_eq!(refusal.wall, Some(Wall { axis: 0, reason: Reason::Above }));
/// assert_eq!(
///     refusal.to_string(),
///     "source 1 lies above the box on axis 0: enlarge the box and build anew, or mend or remove the source (refused 6 SOURCE)"
/// );
/// ```
#[derive(Clone, Copy, Debug, PartialEq, Eq, Hash)]
#[non_exhaustive]
pub struct Refusal {
    /// One of the numbers below.
    pub number: u64,
    /// The index of the lowest point, key or reading that fails, the number of the node to check, or which slice is short; for
    /// other numbers 0.
    pub value: usize,
    /// The wall of that point, for [`SOURCE`](Refusal::SOURCE) and [`POINT`](Refusal::POINT) alone.
    pub wall: Option<Wall>,
}

const NAMES: [&str; 21] = [
    "", "DIMS", "BOX", "SHAPE", "COUNT", "ORDER", "SOURCE", "POINT", "ROOM", "KEY", "ROOT", "DEEP",
    "UNSTORED", "TREE", "NOTLEAF", "FILE", "GRID", "SECTION", "NOTBUILT", "PARTIAL", "READING",
];

impl Refusal {
    /// The axes are not 1, 2 or 3 (extents: not 2, 4 or 6 numbers), or those of the box are not those of the tree.
    pub const DIMS: u64 = 1;
    /// The box is outside its domain.
    pub const BOX: u64 = 2;
    /// The coordinates are not whole points, those of a single point are not one for each axis, the readings are not as many
    /// as the tree has sources, or the columns to salvage differ in length.
    pub const SHAPE: u64 = 3;
    /// There are more than 1,048,576 points (a source that is added counts) or keys to group, or more than a tree file holds.
    pub const COUNT: u64 = 4;
    /// The order is not 1 to 64, and targets are used.
    pub const ORDER: u64 = 5;
    /// A source is outside the box or not finite; the value is the lowest index of such, and the wall says where and why.
    pub const SOURCE: u64 = 6;
    /// A target or a looked-up point is outside the box or not finite; the value is the lowest index of such, 0 for a
    /// single point, and the wall says where and why.
    pub const POINT: u64 = 7;
    /// A lent slice is short. The value says which: 1 work (of a build, of a balanced tree, of a source that is added, of the
    /// list sizes, or the sums of the sum check),
    /// 2 order, 3 a node column, 4 U starts, 5 V starts, 6 U keys, 7 V keys, 8 the output of a lookup, the starts or indices
    /// of a grouping or near work's counts, 9 sourced cells, 10 the list of changes of a salvage, 11 the file of a tree.
    pub const ROOM: u64 = 8;
    /// A key or level is not valid, or an anchor is off its level.
    pub const KEY: u64 = 9;
    /// The root has no parent and no siblings.
    pub const ROOT: u64 = 10;
    /// A cell of level 16 has no children.
    pub const DEEP: u64 = 11;
    /// A point is in the box, but no leaf of the tree holds it; the value is its index.
    pub const UNSTORED: u64 = 12;
    /// The columns are not a well-formed tree; a wrong total is enough, or nodes that do not stand depth first. Of a salvage:
    /// the tree would have more than 1,048,576 sources.
    pub const TREE: u64 = 13;
    /// A key to group, or the node to check, is not a leaf's; the value is the lowest index of such keys, or the node's number.
    pub const NOTLEAF: u64 = 14;
    /// A survey file breaks its rules. No call of this crate reads one.
    pub const FILE: u64 = 15;
    /// A grid of targets has a shape of 0, an origin or a spacing that is not finite, or a spacing that is not above 0.
    pub const GRID: u64 = 16;
    /// A tree file breaks its rules, or is to hold an order or lists that are not its tree's. No call of this crate reads one.
    pub const SECTION: u64 = 17;
    /// The tree, its order or its lists are not those that the points give.
    pub const NOTBUILT: u64 = 18;
    /// A cell that is split lacks a child.
    pub const PARTIAL: u64 = 19;
    /// A reading is over 1,099,511,627,776 in size; the value is the lowest index of such.
    pub const READING: u64 = 20;

    /// The refusal with this number and value, and no wall.
    #[must_use]
    pub const fn new(number: u64, value: usize) -> Refusal {
        let wall = None;
        Refusal {
            number,
            value,
            wall,
        }
    }

    /// The same with a wall.
    #[must_use]
    pub const fn behind(self, axis: usize, reason: Reason) -> Refusal {
        let wall = Some(Wall { axis, reason });
        Refusal { wall, ..self }
    }

    /// The name of the number, as the constants have it; empty for a number that has none.
    #[must_use]
    pub fn name(&self) -> &'static str {
        let place = usize::try_from(self.number).ok();
        place.and_then(|place| NAMES.get(place)).map_or("", |n| n)
    }

    /// Which lent slice is short, and how long it has to be.
    fn short_slice(&self) -> &'static str {
        match self.value {
            1 => {
                "work is short: for a build, a balanced tree and a source that is added lend two entries for each source (the added one too) and one for each target that is used, for list sizes one for each node in each slice, for the sum check one more than there are sources"
            }
            2 => {
                "the order column is short: lend one entry for each source, and where one is added for that too"
            }
            3 => {
                "a node column is short: lend one entry for each node, or, where the most that count (1048576) were lent, hand fewer rows to a salvage or raise the limit of a cell and build anew"
            }
            4 => "the U starts are short: lend one entry more than there are nodes",
            5 => "the V starts are short: lend one entry more than there are nodes",
            6 => {
                "the U keys are short: lend more, or, where the most that count (16777216) were lent, raise the limit of a cell and build anew"
            }
            7 => {
                "the V keys are short: lend more, or, where the most that count (16777216) were lent, raise the limit of a cell and build anew"
            }
            8 => {
                "the lookup output, the grouping's starts or indices, or near work's counts are short: lend one output or index for each point, one start more than there are nodes, one count for each node"
            }
            9 => "the sourced cells are short: lend one entry for each node",
            10 => {
                "the list of changes is short: lend two entries for each row and one for each node"
            }
            11 => {
                "the file of the tree is short: lend 8 bytes for each key, 4 for each other number, and 116"
            }
            _ => {
                "a lent slice is short: lend a longer one, or, where the most was lent, raise the limit of a cell and build anew"
            }
        }
    }

    /// The sentence with its cure, but for what needs the value.
    fn sentence(&self) -> &'static str {
        match self.number {
            Refusal::DIMS => {
                "the axes are not 1, 2 or 3, or the box and the tree differ in them: give a centre of 1 to 3 coordinates, extents of 2, 4 or 6 numbers, and the tree's own box"
            }
            Refusal::BOX => {
                "the box is outside its domain: give a radius from 0.25 to 1048576 and a centre that is finite and at most 16777216 in size on each axis"
            }
            Refusal::SHAPE => {
                "the coordinates are not whole points, or the readings are not as many as the tree has sources, or the columns to salvage differ in length: give as many coordinates for each point as there are axes, one reading for each source, and key, own and begin of one length"
            }
            Refusal::COUNT => {
                "there are more than 1048576 points (a source that is added counts) or keys, or more than a tree file holds (1048576 nodes, 16777216 keys of a list, 4294967295 bytes of sections): hand in fewer at a time"
            }
            Refusal::ORDER => {
                "the order is not 1 to 64: choose one of these, or hand in no targets"
            }
            Refusal::ROOM => self.short_slice(),
            Refusal::KEY => {
                "a key, level or anchor is not valid: a level is at most 16, each anchor below 2 to the level, and a key is code times 32768 plus level"
            }
            Refusal::ROOT => {
                "the root has no parent and no siblings: ask for those of a cell of level 1 or more"
            }
            Refusal::DEEP => {
                "a cell of level 16 has no children: ask for those of a cell of level 15 or less"
            }
            Refusal::TREE => {
                "the columns are not a well-formed tree, or those to salvage have more than 1048576 sources: hand in all four (key, own, begin and total) as a build of this version wrote them, each cut to its number of nodes, or to the salvage fewer rows"
            }
            Refusal::FILE => "the survey file breaks its rules: write the file anew",
            Refusal::GRID => {
                "the grid has a shape of 0, an origin or a spacing that is not finite, or a spacing that is not above 0: give each axis a shape of 1 or more, a finite origin and a finite spacing above 0"
            }
            Refusal::SECTION => {
                "the tree file breaks its rules, or it holds, or is to hold, an order or lists that are not its tree's: write the file anew from what the build and the list call answered"
            }
            Refusal::NOTBUILT => {
                "the tree, its order or its lists are not those that the points give: hand them in as the build and the list call answered them, with the points and the box of that build, and each source that was added since; where limit and flag are asked for, those of the build, and a tree that targets or a grid refined, or that was balanced, is to be built anew without"
            }
            Refusal::PARTIAL => {
                "a cell that is split lacks a child: build the tree with empty cells kept"
            }
            _ => "the call was refused: docs/REFUSALS.md says why",
        }
    }
}

impl fmt::Display for Wall {
    fn fmt(&self, f: &mut fmt::Formatter<'_>) -> fmt::Result {
        let axis = self.axis;
        match self.reason {
            Reason::NotFinite => write!(f, "is not a finite number on axis {axis}"),
            Reason::Below => write!(f, "lies below the box on axis {axis}"),
            Reason::Above => write!(f, "lies above the box on axis {axis}"),
        }
    }
}

impl Refusal {
    /// A point that is outside, with its cure: the first where it is not finite.
    fn write_outside(
        &self,
        f: &mut fmt::Formatter<'_>,
        point: &str,
        cures: [&str; 2],
    ) -> fmt::Result {
        let value = self.value;
        match self.wall {
            Some(wall) => {
                let finite = wall.reason != Reason::NotFinite;
                write!(f, "{point} {value} {wall}: {}", cures[usize::from(finite)])
            }
            None => write!(
                f,
                "{point} {value} lies outside the box or is not a finite number: {}",
                cures[1]
            ),
        }
    }
}

impl fmt::Display for Refusal {
    fn fmt(&self, f: &mut fmt::Formatter<'_>) -> fmt::Result {
        let value = self.value;
        match self.number {
            Refusal::SOURCE => {
                let cures = [
                    "mend or remove the source",
                    "enlarge the box and build anew, or mend or remove the source",
                ];
                self.write_outside(f, "source", cures)
            }
            Refusal::POINT => {
                let cures = [
                    "mend or remove the point",
                    "enlarge the box, or mend or remove the point",
                ];
                self.write_outside(f, "target or looked-up point", cures)
            }
            Refusal::UNSTORED => write!(
                f,
                "no leaf holds point {value}: build the tree with empty cells kept or remove the point"
            ),
            Refusal::NOTLEAF => write!(
                f,
                "key {value} of those to group, or node {value} that is to be checked, is not a leaf's: hand in keys that a lookup in this tree answers, or the number of a leaf"
            ),
            Refusal::READING => write!(
                f,
                "reading {value} is over 1099511627776 in size: mend it, or give all readings in a larger unit"
            ),
            _ => f.write_str(self.sentence()),
        }?;
        match self.name() {
            "" => write!(f, " (refused {} {value})", self.number),
            name => write!(f, " (refused {} {name})", self.number),
        }
    }
}

impl Error for Refusal {}

/// The answer of a call that ended so.
pub(crate) fn answered<T>(ended: Ended, answer: T) -> Result<T, Refusal> {
    if ended.number == 0 {
        return Ok(answer);
    }
    let refusal = Refusal::new(u64::from(ended.number), ended.value);
    match Reason::numbered(ended.reason) {
        Some(reason) => Err(refusal.behind(usize::from(ended.axis), reason)),
        None => Err(refusal),
    }
}
