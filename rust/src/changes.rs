use std::fmt;

/// What a salvage changed: its code, and the key of the row or of the cell. Its text is a sentence.
///
/// ```
/// use lohandema::Change;
/// let change = Change::new(Change::REPEATED, 98306);
/// assert_eq!(change.to_string(), "key 98306: a row was dropped, as an earlier one has this key (change 2)");
/// ```
#[derive(Clone, Copy, Debug, PartialEq, Eq, Hash)]
#[non_exhaustive]
pub struct Change {
    /// One of the codes below.
    pub code: u64,
    /// The key, which for [`NOT_VALID`](Change::NOT_VALID) is none.
    pub key: u64,
}

impl Change {
    /// A row was dropped, as its key is not valid.
    pub const NOT_VALID: u64 = 1;
    /// A row was dropped, as an earlier one has its key.
    pub const REPEATED: u64 = 2;
    /// A cell was added: the root, or one that holds a cell of the input.
    pub const ADDED: u64 = 3;
    /// A count above 0 was cleared: the cell is the root, has children now, or its run passes the order column's end.
    pub const CLEARED: u64 = 4;
    /// The begin of a kept row was changed.
    pub const MOVED: u64 = 5;

    /// The change with this code and key.
    #[must_use]
    pub const fn new(code: u64, key: u64) -> Change {
        Change { code, key }
    }

    /// What was done, without the key.
    fn sentence(&self) -> &'static str {
        match self.code {
            Change::NOT_VALID => "a row was dropped, as this is no valid key",
            Change::REPEATED => "a row was dropped, as an earlier one has this key",
            Change::ADDED => "this cell was added, as it is the root or holds another",
            Change::CLEARED => {
                "its count was cleared, as it is the root, has children, or its run passes the order column's end"
            }
            Change::MOVED => "its begin was changed to the sum of the counts before it",
            _ => "it was changed in a way that this version does not know",
        }
    }
}

impl fmt::Display for Change {
    fn fmt(&self, f: &mut fmt::Formatter<'_>) -> fmt::Result {
        let (key, code) = (self.key, self.code);
        write!(f, "key {key}: {} (change {code})", self.sentence())
    }
}
