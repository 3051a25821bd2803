//! Tables: some that obey document 01's rules, and stored forms that are certain to break one.

use crate::gen_holder::{self, Holder};
use crate::gen_name::{self, MOST_NAME};
use crate::rng::Rng;
use crate::tlv::{self, Child};

pub const MOST_RECORDS: usize = 32;
pub const MOST_OWN: usize = 8;

#[derive(Clone, PartialEq, Eq, Debug)]
pub struct Record {
    pub key_id: [u8; 32],
    pub mixed: [u8; 32],
    pub name: Vec<u8>,
    pub counter: u32,
}

impl Record {
    pub fn children(&self) -> Vec<Child> {
        vec![
            Child::new(tlv::KEYID, self.key_id),
            Child::new(tlv::ACCESS_TOKEN, self.mixed),
            Child::new(tlv::USERNAME, self.name.clone()),
            Child::new(tlv::COUNTERS, self.counter.to_le_bytes()),
        ]
    }
}

/// The stored form.
pub fn encode(records: &[Record]) -> Vec<u8> {
    let mut table = Vec::new();
    for record in records {
        tlv::put(
            &mut table,
            tlv::USERNAME_AND_KEYHANDLE,
            &tlv::run(&record.children()),
        );
    }
    table
}

/// The records of a stored form that the token has taken; of another it may panic.
pub fn decode(mut table: &[u8]) -> Vec<Record> {
    let mut records = Vec::new();
    while !table.is_empty() {
        let size = usize::from(u16::from_le_bytes([table[2], table[3]]));
        let (record, rest) = table.split_at(4 + size);
        let mut key_id = [0; 32];
        let mut mixed = [0; 32];
        let mut counter = [0; 4];
        key_id.copy_from_slice(&record[8..40]);
        mixed.copy_from_slice(&record[44..76]);
        counter.copy_from_slice(&record[record.len() - 4..]);
        records.push(Record {
            key_id,
            mixed,
            name: record[80..record.len() - 8].to_vec(),
            counter: u32::from_le_bytes(counter),
        });
        table = rest;
    }
    records
}

/// The same 32 bytes but for one bit.
pub fn near(rng: &mut Rng, bytes: &[u8; 32]) -> [u8; 32] {
    let mut other = *bytes;
    other[rng.pick(&[0, 1, 7, 8, 15, 16, 30, 31])] ^= 1 << rng.below(8);
    other
}

/// So many different mixed tokens, first the holders', then some that are nearly so or nobody's.
fn mixed_tokens(rng: &mut Rng, holders: &[Holder], number: usize) -> Vec<[u8; 32]> {
    let mut tokens: Vec<[u8; 32]> = holders.iter().map(Holder::mixed).collect();
    tokens.truncate(number);
    while tokens.len() < number {
        let next = match tokens.last() {
            Some(last) if rng.one_in(6) => near(rng, last),
            _ if holders.is_empty() || rng.one_in(3) => rng.array(),
            _ => {
                let one = &holders[rng.below(holders.len())];
                rng.pick(&gen_holder::nearly(one))
            }
        };
        if !tokens.contains(&next) {
            tokens.push(next);
        }
    }
    tokens
}

fn fresh_key_id(rng: &mut Rng, records: &[Record]) -> [u8; 32] {
    loop {
        let next = match records.last() {
            Some(last) if rng.one_in(6) => near(rng, &last.key_id),
            Some(last) if rng.one_in(20) => last.mixed,
            _ => rng.array(),
        };
        if records.iter().all(|record| record.key_id != next) {
            return next;
        }
    }
}

fn counter(rng: &mut Rng) -> u32 {
    match rng.below(8) {
        0 => 0,
        1 => u32::MAX,
        2 => u32::MAX - 1,
        3 => rng.pick(&[1, 0xFE, 0xFF, 0xFFFF, 0x00FF_FFFF, 0x7FFF_FFFF, 0x8000_0000]),
        _ => rng.next() as u32,
    }
}

/// A record beside these.
pub fn record(rng: &mut Rng, records: &[Record], mixed: [u8; 32]) -> Record {
    Record {
        key_id: fresh_key_id(rng, records),
        mixed,
        name: gen_name::right(rng),
        counter: counter(rng),
    }
}

pub fn own_of(records: &[Record], mixed: &[u8; 32]) -> usize {
    records.iter().filter(|r| r.mixed == *mixed).count()
}

/// So many records of the holders and of others, at most eight of any.
pub fn records(rng: &mut Rng, holders: &[Holder], number: usize) -> Vec<Record> {
    let more = rng.below(4);
    let tokens = mixed_tokens(rng, holders, number / MOST_OWN + 1 + more);
    let mut records = Vec::new();
    while records.len() < number {
        let mixed = rng.pick(&tokens);
        if own_of(&records, &mixed) < MOST_OWN {
            let next = record(rng, &records, mixed);
            records.push(next);
        }
    }
    records
}

/// The first holder, or nobody, with so many records among others.
fn with_own(rng: &mut Rng, holders: &[Holder], own: usize) -> Vec<Record> {
    let mixed = holders.first().map_or_else(|| rng.array(), Holder::mixed);
    let mut records = Vec::new();
    for _ in 0..own {
        let next = record(rng, &records, mixed);
        records.push(next);
    }
    let others = rng.below(MOST_RECORDS - own + 1);
    let others = rng.pick(&[0, others.min(3), others]);
    let mut strangers = self::records(rng, holders, others);
    strangers.retain(|stranger| stranger.mixed != mixed);
    strangers.retain(|stranger| records.iter().all(|r| r.key_id != stranger.key_id));
    records.append(&mut strangers);
    rng.shuffle(&mut records);
    records
}

/// A table that obeys the rules: empty, small, large, full, with eight of one holder, with a last
/// count, or of the greatest size.
pub fn right(rng: &mut Rng, holders: &[Holder]) -> Vec<Record> {
    match rng.weighed(&[12, 30, 18, 10, 12, 4, 4, 10]) {
        0 => Vec::new(),
        1 => {
            let number = rng.between(1, 5);
            records(rng, holders, number)
        }
        2 => {
            let number = rng.between(6, 30);
            records(rng, holders, number)
        }
        3 => records(rng, holders, MOST_RECORDS),
        4 => {
            let own = rng.pick(&[1, 2, 7, 8, 8]);
            with_own(rng, holders, own)
        }
        5 => records(rng, holders, MOST_RECORDS - 1),
        6 => {
            let mut full = records(rng, holders, MOST_RECORDS);
            for record in &mut full {
                record.name = gen_name::of_length(rng, MOST_NAME);
            }
            full
        }
        _ => {
            let mut one = with_own(rng, holders, 1);
            for record in &mut one {
                record.counter = u32::MAX;
            }
            one
        }
    }
}

/// A record written out with one of its children wrong.
fn spoil_children(rng: &mut Rng, children: &mut Vec<Child>) -> &'static str {
    let i = rng.below(4);
    match rng.below(7) {
        0 => {
            children[2].value = Vec::new();
            "table: name of 0"
        }
        1 => {
            let length = rng.wrong_length(0, MOST_NAME);
            children[2].value = gen_name::of_length(rng, length);
            "table: name over 128"
        }
        2 => {
            children[2].value = gen_name::broken(rng);
            "table: name not UTF-8"
        }
        3 => {
            children.swap(i, (i + rng.between(1, 3)) % 4);
            "table: children's order"
        }
        4 => {
            let bit = 1 << rng.below(16);
            children[i].tag ^= bit;
            "table: child's tag"
        }
        5 => {
            let i = rng.pick(&[0, 1, 3]);
            let length = children[i].value.len();
            let length = rng.wrong_length(length, length);
            children[i].value = rng.bytes(length);
            "table: child's length"
        }
        _ => {
            if rng.one_in(2) {
                children.remove(i);
            } else {
                let tag = rng.pick(&[0x0FFF, tlv::USERNAME, tlv::KEYHANDLE]);
                children.insert(rng.below(5), Child::new(tag, rng.bytes(3)));
            }
            "table: child too few or too many"
        }
    }
}

/// The stored form with one record spoiled.
fn spoil_record(rng: &mut Rng, records: &[Record]) -> (Vec<u8>, &'static str) {
    let wrong = rng.below(records.len());
    let (before, after) = (&records[..wrong], &records[wrong + 1..]);
    let mut children = records[wrong].children();
    let mut tag = tlv::USERNAME_AND_KEYHANDLE;
    let mut amount = 0;
    let what = match rng.below(8) {
        0 => {
            tag ^= 1 << rng.below(16);
            "table: record's tag"
        }
        1 => {
            amount = rng.pick(&[-1, 1, -4, 4, 200]);
            "table: record's length"
        }
        _ => spoil_children(rng, &mut children),
    };
    let mut spoiled = tlv::holding(tag, &children);
    tlv::add_to_length(&mut spoiled, 0, amount);
    ([encode(before), spoiled, encode(after)].concat(), what)
}

/// More records than allowed, or two rules about them broken by one record more.
fn spoil_whole(rng: &mut Rng) -> (Vec<u8>, &'static str) {
    match rng.below(3) {
        0 => {
            let number = rng.pick(&[33, 33, 33, 34, 40]);
            (encode(&records(rng, &[], number)), "table: over 32 records")
        }
        1 => {
            let own = rng.pick(&[9, 9, 10, 16]);
            (encode(&with_own(rng, &[], own)), "table: nine of a holder")
        }
        _ => {
            let number = rng.between(1, MOST_RECORDS - 1);
            let mut table = records(rng, &[], number);
            let mut again = table[rng.below(number)].clone();
            if own_of(&table, &again.mixed) == MOST_OWN || rng.one_in(2) {
                again.mixed = rng.array();
            }
            table.insert(rng.below(number + 1), again);
            (encode(&table), "table: KeyID twice")
        }
    }
}

/// Bytes that are no records before, between, in or after records.
fn spoil_run(rng: &mut Rng, records: &[Record]) -> (Vec<u8>, &'static str) {
    let mut table = encode(records);
    match rng.below(3) {
        0 => {
            let last = 4 + tlv::run(&records[records.len() - 1].children()).len();
            table.truncate(table.len() - rng.between(1, last - 1));
            (table, "table: cut short")
        }
        1 => {
            let stray = rng.between(1, 3);
            table.extend(rng.bytes(stray));
            (table, "table: stray bytes")
        }
        _ => {
            let place = encode(&records[..rng.below(records.len() + 1)]).len();
            let tag = rng.pick(&[0x0FFF, tlv::USERNAME, tlv::USERNAME_AND_KEYHANDLE]);
            let other = tlv::tlv(tag, &[]);
            table.splice(place..place, other);
            (table, "table: no record")
        }
    }
}

/// A stored form that breaks a rule, and which. It is made of the records where that can be.
pub fn spoiled(rng: &mut Rng, records: &[Record]) -> (Vec<u8>, &'static str) {
    let some;
    let records = if records.is_empty() {
        let number = rng.between(1, 4);
        some = self::records(rng, &[], number);
        &some
    } else {
        records
    };
    match rng.weighed(&[6, 4, 3]) {
        0 => spoil_record(rng, records),
        1 => spoil_whole(rng),
        _ => spoil_run(rng, records),
    }
}
