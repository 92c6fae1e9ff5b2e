//! Member lists as bytes: of the domain, at its edges, and damaged; and document 01's domain.

use crate::made::Made;
use crate::rng::Rng;
use std::collections::BTreeSet;
use tundrimela::layout::member;

/// The most stake of a committee, as document 01 has it.
const MAX_TOTAL: u64 = 16_777_216;

pub type Key = [u8; 32];

pub struct Row {
    pub key: Key,
    pub stake: u32,
    pub workers: Vec<u32>,
}

type Maker = (&'static str, fn(&mut Rng) -> Vec<u8>);

const OF_THE_DOMAIN: [Maker; 5] = [
    ("list: any of the domain", any),
    ("list: 1 member", |rng| of_size(rng, 1)),
    ("list: 32 members", |rng| of_size(rng, 32)),
    ("list: total 16,777,216", |rng| of_total(rng, MAX_TOTAL)),
    ("list: 8 workers each", |rng| of_workers(rng, 8)),
];

const DAMAGED: [Maker; 12] = [
    ("list: no member", |_| Vec::new()),
    ("list: 33 members or more", too_many),
    ("list: total 16,777,217", |rng| of_total(rng, MAX_TOTAL + 1)),
    ("list: total past 32 bits", past_32_bits),
    ("list: a stake of 0", without_stake),
    ("list: equal keys", equal_keys),
    ("list: falling keys", falling_keys),
    ("list: 9 workers or more", too_many_workers),
    ("list: cut short", cut_short),
    ("list: grown", grown),
    ("list: a bit flipped", bit_flipped),
    ("list: noise", noise),
];

/// A list, every other time one of the domain.
pub fn list(rng: &mut Rng) -> Made {
    let (kind, make) = if rng.once_in(2) {
        rng.pick(&OF_THE_DOMAIN)
    } else {
        rng.pick(&DAMAGED)
    };
    Made::new(kind, make(rng))
}

/// A list, mostly one of the domain.
pub fn mostly_good(rng: &mut Rng) -> Made {
    if rng.once_in(10) {
        return list(rng);
    }
    let (kind, make) = rng.pick(&OF_THE_DOMAIN);
    Made::new(kind, make(rng))
}

/// Document 01's domain, read on its own: the members, or none for a list outside it.
pub fn read(bytes: &[u8]) -> Option<Vec<Row>> {
    if bytes.len() % member::SIZE != 0 {
        return None;
    }
    let rows: Vec<Row> = bytes
        .chunks(member::SIZE)
        .map(read_row)
        .collect::<Option<_>>()?;
    let total: u64 = rows.iter().map(|row| u64::from(row.stake)).sum();
    let in_domain = (1..=32).contains(&rows.len())
        && rows.windows(2).all(|pair| pair[0].key < pair[1].key)
        && rows.iter().all(|row| row.stake >= 1)
        && total <= MAX_TOTAL;
    in_domain.then_some(rows)
}

fn read_row(row: &[u8]) -> Option<Row> {
    let count = usize::from(row[member::WORKER_COUNT]);
    let workers = (0..count).map(|place| worker_at(row, place));
    (count <= 8).then(|| Row {
        key: row[..32].try_into().expect("32 bytes"),
        stake: number(&row[member::STAKE..]),
        workers: workers.collect(),
    })
}

/// The id at a place of a row, below the row's count or not.
pub fn worker_at(row: &[u8], place: usize) -> u32 {
    number(&row[member::WORKERS + place * member::WORKER..])
}

fn number(bytes: &[u8]) -> u32 {
    u32::from_le_bytes(bytes[..4].try_into().expect("4 bytes"))
}

/// The rows as bytes. Places past the workers hold noise, at times ids that others have.
fn write(rng: &mut Rng, rows: &[Row]) -> Vec<u8> {
    let mut bytes = Vec::new();
    for row in rows {
        bytes.extend_from_slice(&row.key);
        bytes.extend_from_slice(&row.stake.to_le_bytes());
        bytes.push(row.workers.len() as u8);
        for place in 0..8 {
            let id = row.workers.get(place).copied();
            let id = id.unwrap_or_else(|| worker_id(rng));
            bytes.extend_from_slice(&id.to_le_bytes());
        }
    }
    bytes
}

fn any(rng: &mut Rng) -> Vec<u8> {
    let rows = some_rows(rng);
    write(rng, &rows)
}

fn of_size(rng: &mut Rng, size: usize) -> Vec<u8> {
    let rows = rows(rng, size);
    write(rng, &rows)
}

fn too_many(rng: &mut Rng) -> Vec<u8> {
    let size = *rng.pick(&[33, 34, 64, 100]);
    of_size(rng, size)
}

fn of_total(rng: &mut Rng, total: u64) -> Vec<u8> {
    let mut rows = some_rows(rng);
    share(rng, &mut rows, total);
    write(rng, &rows)
}

/// A total that 32 bits would show as a small one.
fn past_32_bits(rng: &mut Rng) -> Vec<u8> {
    let size = rng.within(2, 32);
    let mut rows = rows(rng, size);
    let small = rng.within(0, 1000) as u64;
    share(rng, &mut rows, (1 << 32) + small);
    write(rng, &rows)
}

fn of_workers(rng: &mut Rng, count: usize) -> Vec<u8> {
    let mut rows = some_rows(rng);
    for row in &mut rows {
        row.workers = (0..count).map(|_| worker_id(rng)).collect();
    }
    write(rng, &rows)
}

fn without_stake(rng: &mut Rng) -> Vec<u8> {
    let mut rows = some_rows(rng);
    let place = rng.below(rows.len());
    rows[place].stake = 0;
    write(rng, &rows)
}

fn equal_keys(rng: &mut Rng) -> Vec<u8> {
    let size = rng.within(2, 32);
    let mut rows = rows(rng, size);
    let place = rng.within(1, size - 1);
    rows[place].key = rows[place - 1].key;
    write(rng, &rows)
}

fn falling_keys(rng: &mut Rng) -> Vec<u8> {
    let size = rng.within(2, 32);
    let mut rows = rows(rng, size);
    let place = rng.within(1, size - 1);
    rows.swap(place - 1, place);
    write(rng, &rows)
}

fn too_many_workers(rng: &mut Rng) -> Vec<u8> {
    let mut bytes = any(rng);
    let place = rng.below(bytes.len() / member::SIZE);
    let count = rng.within(9, 255) as u8;
    bytes[place * member::SIZE + member::WORKER_COUNT] = *rng.pick(&[9, 16, 128, 255, count]);
    bytes
}

fn cut_short(rng: &mut Rng) -> Vec<u8> {
    let mut bytes = any(rng);
    let gone = rng.within(1, member::SIZE - 1);
    bytes.truncate(bytes.len() - gone);
    bytes
}

fn grown(rng: &mut Rng) -> Vec<u8> {
    let mut bytes = any(rng);
    let more = rng.within(1, member::SIZE - 1);
    bytes.extend(rng.bytes(more));
    bytes
}

fn bit_flipped(rng: &mut Rng) -> Vec<u8> {
    let mut bytes = any(rng);
    let place = rng.below(bytes.len());
    bytes[place] ^= 1 << rng.below(8);
    bytes
}

fn noise(rng: &mut Rng) -> Vec<u8> {
    let whole = rng.within(1, 32) * member::SIZE;
    let length = if rng.once_in(2) {
        whole
    } else {
        rng.below(whole)
    };
    rng.bytes(length)
}

fn some_rows(rng: &mut Rng) -> Vec<Row> {
    let random = rng.within(1, 32);
    let size = *rng.pick(&[1, 2, 3, 4, 11, 32, random, random, random]);
    rows(rng, size)
}

fn rows(rng: &mut Rng, size: usize) -> Vec<Row> {
    let mut rows: Vec<Row> = keys(rng, size)
        .into_iter()
        .map(|key| Row {
            key,
            stake: 1,
            workers: workers(rng),
        })
        .collect();
    let large = size + rng.below(MAX_TOTAL as usize - size);
    let small = rng.within(size, 10 * size);
    let total = *rng.pick(&[size, small, small, large]);
    share(rng, &mut rows, total as u64);
    rows
}

/// Keys in ascending order, which at times differ in a single byte.
pub fn keys(rng: &mut Rng, size: usize) -> BTreeSet<Key> {
    let base = key(rng);
    let alike = rng.once_in(3);
    let place = rng.below(32);
    let mut keys = BTreeSet::new();
    while keys.len() < size {
        let mut next = if alike { base } else { key(rng) };
        next[place] = rng.byte();
        keys.insert(next);
    }
    keys
}

pub fn key(rng: &mut Rng) -> Key {
    rng.bytes(32).try_into().expect("32 bytes")
}

fn workers(rng: &mut Rng) -> Vec<u32> {
    let count = rng.within(0, 8);
    (0..count).map(|_| worker_id(rng)).collect()
}

/// Mostly a small id, so that members share them.
pub fn worker_id(rng: &mut Rng) -> u32 {
    let small = rng.below(12) as u32;
    let random = rng.u32();
    *rng.pick(&[small, small, small, random, u32::MAX])
}

/// Shares a total among the rows, at least 1 for each; what one row can't hold goes to the next.
fn share(rng: &mut Rng, rows: &mut [Row], total: u64) {
    let mut left = total;
    let mut waiting = rows.len() as u64;
    for row in rows {
        waiting -= 1;
        let most = (left - waiting).min(u64::from(u32::MAX));
        let least = left.saturating_sub(waiting * u64::from(u32::MAX)).max(1);
        let random = least + rng.u64() % (most - least + 1);
        let even = (left / (waiting + 1)).max(least);
        let stake = if waiting == 0 {
            left
        } else {
            *rng.pick(&[random, even, even])
        };
        row.stake = stake as u32;
        left -= stake;
    }
}

#[cfg(test)]
mod tests {
    use super::*;

    fn total(bytes: &[u8]) -> u64 {
        let rows = bytes.chunks(member::SIZE);
        rows.map(|row| u64::from(number(&row[member::STAKE..])))
            .sum()
    }

    #[test]
    fn each_kind_is_what_it_says() {
        for case in 0..2000 {
            let mut rng = Rng::of_case(7, case);
            let list = list(&mut rng);
            let members = read(&list.bytes);
            let good = OF_THE_DOMAIN.iter().any(|(kind, _)| *kind == list.kind);
            let either = ["list: a bit flipped", "list: noise"].contains(&list.kind);
            assert!(either || members.is_some() == good, "{}", list.kind);
        }
    }

    #[test]
    fn totals_are_shared_out_whole() {
        for case in 0..500 {
            let mut rng = Rng::of_case(8, case);
            assert_eq!(total(&of_total(&mut rng, MAX_TOTAL)), MAX_TOTAL);
            let past = total(&past_32_bits(&mut rng)) - (1 << 32);
            assert!(past <= 1000);
        }
    }

    #[test]
    fn the_domain_ends_where_document_01_says() {
        let mut rng = Rng::of_case(9, 0);
        let mut bytes = of_size(&mut rng, 1);
        bytes[member::STAKE..][..4].copy_from_slice(&16_777_216_u32.to_le_bytes());
        bytes[member::WORKER_COUNT] = 8;
        let rows = read(&bytes).expect("of the domain");
        assert_eq!((rows[0].stake, rows[0].workers.len()), (16_777_216, 8));
        bytes[member::STAKE] = 1;
        assert!(read(&bytes).is_none());
        assert!(read(&[]).is_none());
    }
}
