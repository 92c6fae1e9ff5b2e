//! Tables of rows of one size: of the domain, full, and damaged; and document 01's domain.

use crate::made::{self, Made};
use crate::rng::Rng;
use tundrimela::layout::table::ROWS;

/// The rows in use, or none for bytes that are no table.
pub fn read(bytes: &[u8], size: usize) -> Option<Vec<&[u8]>> {
    let places: Vec<_> = bytes.get(ROWS..)?.chunks(size).collect();
    let count = u64::from_le_bytes(bytes[..ROWS].try_into().expect("8 bytes"));
    let whole = places.last()?.len() == size;
    let in_domain = whole && count <= places.len() as u64;
    in_domain.then(|| places[..count as usize].to_vec())
}

/// The table with a row more at its end, or none where it is full.
pub fn appended(bytes: &[u8], size: usize, row: &[u8]) -> Option<Vec<u8>> {
    let count = read(bytes, size)?.len();
    let at = ROWS + count * size;
    let mut after = bytes.to_vec();
    after.get_mut(at..at + size)?.copy_from_slice(row);
    after[..ROWS].copy_from_slice(&(count as u64 + 1).to_le_bytes());
    Some(after)
}

const LENGTHS_AND_BITS: [&str; 4] = [
    "table: cut short",
    "table: grown",
    "table: a bit flipped",
    "table: noise",
];

/// A table with these rows in use. In the places behind them stand the rows `behind`, which
/// mean nothing, and noise.
pub fn make(rng: &mut Rng, size: usize, rows: &[Vec<u8>], behind: &[Vec<u8>]) -> Made {
    let free = rng.within(0, 3);
    let free = if rows.is_empty() { free.max(1) } else { free };
    let count = rows.len() as u64;
    let mut bytes = [&count.to_le_bytes()[..], &rows.concat(), &behind.concat()].concat();
    let length = ROWS + (rows.len() + free) * size;
    bytes.truncate(length);
    let noise = rng.bytes(length - bytes.len());
    bytes.extend(noise);
    match rng.below(16) {
        0 => {
            let over = count + free as u64 + 1;
            let wide = (1 << 32) | count;
            let count: u64 = *rng.pick(&[over, over + 1, wide, u64::MAX]);
            bytes[..ROWS].copy_from_slice(&count.to_le_bytes());
            Made::new("table: more rows than places", bytes)
        }
        1 => {
            bytes[..ROWS].fill(0);
            bytes.truncate(*rng.pick(&[0, 1, 7, 8]));
            Made::new("table: no place", bytes)
        }
        2 => made::damaged(rng, &LENGTHS_AND_BITS, bytes),
        _ if free == 0 => Made::new("table: full", bytes),
        _ if rows.is_empty() => Made::new("table: empty", bytes),
        _ => Made::new("table: some rows", bytes),
    }
}

#[cfg(test)]
mod tests {
    use super::*;

    #[test]
    fn a_row_goes_behind_those_in_use() {
        let table = [1, 0, 0, 0, 0, 0, 0, 0, 5, 6, 7, 8];
        assert_eq!(read(&table, 2), Some(vec![&[5, 6][..]]));
        let more = appended(&table, 2, &[9, 9]).unwrap();
        assert_eq!(more[..], [2, 0, 0, 0, 0, 0, 0, 0, 5, 6, 9, 9]);
        assert_eq!(appended(&more, 2, &[1, 1]), None);
    }

    #[test]
    fn no_place_a_part_of_one_and_rows_without_one_are_no_table() {
        for bytes in [&[0; 7][..], &[0; 8], &[0; 9], &[0; 11]] {
            assert_eq!(read(bytes, 2), None);
        }
        assert_eq!(read(&[2, 0, 0, 0, 0, 0, 0, 0, 1, 1], 2), None);
        assert_eq!(read(&[0, 0, 0, 0, 1, 0, 0, 0, 1, 1], 2), None);
    }
}
