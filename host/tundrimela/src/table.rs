use crate::bytes::{array, items};
use crate::layout::table;
use crate::Refusal;

/// A table of rows of one size. The rows in use stand first, in the order in which they came.
#[derive(Clone, Debug, PartialEq, Eq)]
pub struct Table<const ROW: usize> {
    bytes: Vec<u8>,
}

impl<const ROW: usize> Table<ROW> {
    /// An empty table of at least one place.
    pub fn new(places: usize) -> Result<Self, Refusal> {
        if places == 0 {
            return Err(Refusal::BadShape);
        }
        let bytes = vec![0; table::ROWS + places * ROW];
        Ok(Table { bytes })
    }

    /// How many rows are in use.
    pub fn len(&self) -> usize {
        u64::from_le_bytes(array(&self.bytes, 0)) as usize
    }

    /// How many rows there are places for.
    pub fn places(&self) -> usize {
        (self.bytes.len() - table::ROWS) / ROW
    }

    pub fn rows(&self) -> impl ExactSizeIterator<Item = [u8; ROW]> + '_ {
        items(&self.bytes, table::ROWS, self.len())
    }

    pub fn as_bytes(&self) -> &[u8] {
        &self.bytes
    }

    pub fn as_bytes_mut(&mut self) -> &mut [u8] {
        &mut self.bytes
    }
}
