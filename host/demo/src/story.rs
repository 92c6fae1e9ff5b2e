//! The committee of the story: nine clinics and two laboratories.

use tundrimela::layout::{MAX_MEMBERS, MAX_TOTAL_STAKE, MAX_WORKERS};
use tundrimela::{Key, Member};

/// A house that runs a node.
#[derive(Clone, Copy)]
pub struct House {
    pub name: &'static str,
    pub kind: &'static str,
    pub stake: u32,
}

const fn clinic(name: &'static str, stake: u32) -> House {
    let kind = "clinic";
    House { name, kind, stake }
}

const fn laboratory(name: &'static str, stake: u32) -> House {
    let kind = "laboratory";
    House { name, kind, stake }
}

/// In key order, which is the order of the names here.
pub const TODAY: [House; 11] = [
    clinic("Angelica", 3),
    clinic("Bilberry", 2),
    clinic("Cloudberry", 2),
    clinic("Fireweed", 4),
    clinic("Heather", 1),
    clinic("Juniper", 2),
    clinic("Lingonberry", 3),
    laboratory("Rowan", 5),
    clinic("Saxifrage", 1),
    laboratory("Willow", 5),
    clinic("Yarrow", 2),
];

/// Today's houses and one more, in key order.
pub fn joined(house: House) -> Vec<House> {
    let mut houses = TODAY.to_vec();
    houses.push(house);
    houses.sort_by_key(|x| x.name);
    houses
}

pub fn crowberry() -> House {
    clinic("Crowberry", 4)
}

/// Today's houses without one.
pub fn left(name: &str) -> Vec<House> {
    TODAY.into_iter().filter(|x| x.name != name).collect()
}

/// A node's key is its house's name here, filled up with zeros.
pub fn key(name: &str) -> Key {
    let mut key = Key::default();
    key[..name.len()].copy_from_slice(name.as_bytes());
    key
}

pub fn members(houses: &[House]) -> Vec<Member> {
    let houses = houses.iter();
    houses
        .map(|house| Member {
            key: key(house.name),
            stake: house.stake,
            workers: vec![0, 1],
        })
        .collect()
}

pub fn total(houses: &[House]) -> u32 {
    houses.iter().map(|house| house.stake).sum()
}

/// A member list outside the domain: what is wrong, and what the domain asks.
pub struct Damaged {
    pub what: &'static str,
    pub domain: &'static str,
    pub members: Vec<Member>,
}

fn damage(what: &'static str, domain: &'static str, change: fn(&mut Vec<Member>)) -> Damaged {
    let mut members = members(&TODAY);
    change(&mut members);
    Damaged {
        what,
        domain,
        members,
    }
}

/// Every way in which a list of members leaves the domain.
pub fn damaged() -> Vec<Damaged> {
    let size = "1 to 32 members";
    let order = "keys strictly ascending";
    vec![
        damage("no member", size, Vec::clear),
        damage("33 members", size, fill_up),
        damage("Heather twice", order, |x| x[5].key = x[4].key),
        damage("Heather before Fireweed", order, |x| x.swap(3, 4)),
        damage("Heather with stake 0", "each stake at least 1", |x| {
            x[4].stake = 0
        }),
        damage("all stake 16,777,217", "at most 16,777,216", |x| {
            outweigh(x)
        }),
        damage("Heather with 9 workers", "0 to 8 workers each", |x| {
            overwork(x)
        }),
    ]
}

fn fill_up(list: &mut Vec<Member>) {
    for number in list.len()..=MAX_MEMBERS {
        let mut newcomer = list[0].clone();
        newcomer.key = key("Z");
        newcomer.key[1] = number as u8;
        list.push(newcomer);
    }
}

fn outweigh(list: &mut [Member]) {
    let others: u32 = list[1..].iter().map(|x| x.stake).sum();
    list[0].stake = MAX_TOTAL_STAKE + 1 - others;
}

fn overwork(list: &mut [Member]) {
    list[4].workers = (0..=MAX_WORKERS as u32).collect();
}
