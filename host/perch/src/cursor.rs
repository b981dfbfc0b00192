//! A cursor: a log's items one behind the other.

use crate::log::{Fault, Item, item_of, value};
use crate::raw;

/// How many bytes a cursor is.
pub const CURSOR: usize = 88;

/// What a cursor comes to.
#[derive(Clone, Copy, Debug, PartialEq, Eq)]
pub enum Found {
    /// An item, and the cursor is behind it.
    Item(Item),
    /// The log's end, at which the cursor stays.
    End,
    /// 2,000,002 lines with no item among them, and the cursor is behind them; of a log that passes this is never said.
    Moved,
}

/// A place in a log, with the turns that its loops have left. It doesn't hold the log: hand it the same one each time. A copy is
/// a bookmark.
#[derive(Clone, Copy, Debug, PartialEq, Eq)]
pub struct Cursor([u8; CURSOR]);

impl Cursor {
    /// A cursor at a log's beginning.
    pub fn new() -> Self {
        let mut bytes = [0; CURSOR];
        value(raw::cursor_start(&mut bytes)).expect("a cursor's bytes aren't refused");
        Self(bytes)
    }

    /// The cursor that the bytes are; any are one.
    pub fn from_bytes(bytes: [u8; CURSOR]) -> Self {
        Self(bytes)
    }

    /// The cursor's bytes.
    pub fn bytes(&self) -> &[u8; CURSOR] {
        &self.0
    }

    /// The next item; refused by the line that the cursor comes to, it stays. The log needn't pass the check.
    pub fn next(&mut self, log: &[u8]) -> Result<Found, Fault> {
        let value = value(raw::cursor_next(&mut self.0, log))?;
        Ok(match value >> 24 {
            0 => Found::End,
            4 => Found::Moved,
            _ => Found::Item(item_of(value)),
        })
    }
}

impl Default for Cursor {
    fn default() -> Self {
        Self::new()
    }
}

/// The items of a log that passes, one behind the other; or its fault.
pub fn all_items(log: &[u8]) -> Result<impl Iterator<Item = Item>, Fault> {
    value(raw::check(log))?;
    let mut cursor = Cursor::new();
    Ok(std::iter::from_fn(move || match cursor.next(log) {
        Ok(Found::Item(item)) => Some(item),
        _ => None,
    }))
}
