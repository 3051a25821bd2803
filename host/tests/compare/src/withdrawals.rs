//! Cases of one withdrawal: a right one, one with faults that the generator knows, near misses among
//! them, or a damaged one.

use crate::calls::{Expect, WithdrawCall, LEAST_TABLE};
use crate::check::{Checked, Checker};
use crate::damage;
use crate::gen_table::{self, near, own_of, Record, MOST_OWN, MOST_RECORDS};
use crate::rng::Rng;
use crate::singles::{self, Faults};

/// Of the records the newest of some mixed token, which becomes one that may be withdrawn.
fn some_newest(rng: &mut Rng, records: &mut [Record]) -> usize {
    let mixed = records[rng.below(records.len())].mixed;
    let newest = records.iter().rposition(|record| record.mixed == mixed);
    let newest = newest.expect("its own at least");
    records[newest].counter = 0;
    newest
}

/// At least one record.
fn some_records(rng: &mut Rng) -> Vec<Record> {
    loop {
        let records = singles::some_scene(rng).records;
        if !records.is_empty() {
            return records;
        }
    }
}

/// A withdrawal of one of these records.
fn of_record(rng: &mut Rng, records: &[Record], place: usize) -> WithdrawCall {
    WithdrawCall {
        mixed: records[place].mixed.to_vec(),
        key_id: records[place].key_id.to_vec(),
        table: gen_table::encode(records),
        table_out_size: singles::enough(rng, LEAST_TABLE),
    }
}

/// A withdrawal that is not refused.
pub fn right(rng: &mut Rng) -> WithdrawCall {
    let mut records = some_records(rng);
    let newest = some_newest(rng, &mut records);
    of_record(rng, &records, newest)
}

/// A count other than 0, of which now and then one byte alone tells that.
fn count(rng: &mut Rng) -> u32 {
    match rng.below(3) {
        0 => 1 << (8 * rng.below(4)),
        1 => rng.pick(&[1, 0xFF, u32::MAX]),
        _ => (rng.next() as u32).max(1),
    }
}

/// Another of the same mixed token after the record, if there is room for one.
fn add_newer(rng: &mut Rng, records: &mut Vec<Record>, place: usize) -> bool {
    let mixed = records[place].mixed;
    if records.len() == MOST_RECORDS || own_of(records, &mixed) == MOST_OWN {
        return false;
    }
    let newer = gen_table::record(rng, records, mixed);
    records.insert(rng.between(place + 1, records.len()), newer);
    true
}

/// An older one of the same mixed token in its place, with count 0.
fn some_older(rng: &mut Rng, records: &mut [Record], place: usize) -> Option<usize> {
    let mixed = records[place].mixed;
    let older: Vec<usize> = (0..place)
        .filter(|&one| records[one].mixed == mixed)
        .collect();
    if older.is_empty() {
        return None;
    }
    let older = rng.pick(&older);
    records[older].counter = 0;
    Some(older)
}

/// A KeyID in place of the right one, of which there is no record with the mixed token.
fn other_key_id(rng: &mut Rng, records: &[Record], place: usize) -> ([u8; 32], &'static str) {
    let Record { key_id, mixed, .. } = &records[place];
    let others: Vec<[u8; 32]> = records
        .iter()
        .filter(|record| record.mixed != *mixed)
        .map(|record| record.key_id)
        .collect();
    if !others.is_empty() && rng.one_in(2) {
        return (rng.pick(&others), "withdrawal: another holder's KeyID");
    }
    loop {
        let (other, what) = if rng.one_in(2) {
            (near(rng, key_id), "withdrawal: nearly the KeyID")
        } else {
            (rng.array(), "withdrawal: nobody's KeyID")
        };
        if records.iter().all(|record| record.key_id != other) {
            return (other, what);
        }
    }
}

/// A mixed token in place of the right one: the record is another's.
fn other_mixed(rng: &mut Rng, records: &[Record], place: usize) -> ([u8; 32], &'static str) {
    let mixed = &records[place].mixed;
    let others: Vec<[u8; 32]> = records.iter().map(|record| record.mixed).collect();
    let other = rng.pick(&others);
    if other != *mixed {
        return (other, "withdrawal: another holder's mixed token");
    }
    (near(rng, mixed), "withdrawal: nearly the mixed token")
}

/// A withdrawal that is refused with 7, for one reason alone.
fn missing(rng: &mut Rng) -> (WithdrawCall, &'static str) {
    let mut records = some_records(rng);
    let place = some_newest(rng, &mut records);
    match rng.weighed(&[3, 2, 2, 3, 3]) {
        0 => {
            let (key_id, what) = other_key_id(rng, &records, place);
            let mut call = of_record(rng, &records, place);
            call.key_id = key_id.to_vec();
            (call, what)
        }
        1 => {
            let (mixed, what) = other_mixed(rng, &records, place);
            let mut call = of_record(rng, &records, place);
            call.mixed = mixed.to_vec();
            (call, what)
        }
        2 if add_newer(rng, &mut records, place) => {
            let call = of_record(rng, &records, place);
            (call, "withdrawal: a newer one since")
        }
        3 => match some_older(rng, &mut records, place) {
            Some(older) => {
                let call = of_record(rng, &records, older);
                (call, "withdrawal: an older one")
            }
            None => counted(rng, records, place),
        },
        _ => counted(rng, records, place),
    }
}

fn counted(rng: &mut Rng, mut records: Vec<Record>, place: usize) -> (WithdrawCall, &'static str) {
    records[place].counter = count(rng);
    let call = of_record(rng, &records, place);
    (call, "withdrawal: counted")
}

/// The same bytes in another length, which is not 32.
fn resize(rng: &mut Rng, bytes: &mut Vec<u8>) {
    let length = rng.wrong_length(32, 32);
    let more = rng.bytes(length);
    bytes.truncate(length);
    bytes.extend(&more[bytes.len()..]);
}

pub fn spoil_lengths(rng: &mut Rng, call: &mut WithdrawCall) -> &'static str {
    match rng.below(5) {
        0 | 1 => {
            resize(rng, &mut call.mixed);
            "withdrawal: mixed token's length"
        }
        2 | 3 => {
            resize(rng, &mut call.key_id);
            "withdrawal: KeyID's length"
        }
        _ => {
            resize(rng, &mut call.mixed);
            resize(rng, &mut call.key_id);
            "withdrawal: both lengths"
        }
    }
}

/// Which of 1, 2, 4 and 7 apply.
fn some_checks(rng: &mut Rng) -> [bool; 4] {
    let mut fails = [false; 4];
    match rng.weighed(&[30, 50, 20]) {
        0 => {}
        1 => fails[rng.weighed(&[2, 5, 4, 12])] = true,
        _ => fails.iter_mut().for_each(|fail| *fail = rng.one_in(2)),
    }
    fails
}

/// A withdrawal with or without faults.
pub fn withdrawal(rng: &mut Rng, checker: &mut Checker) -> Checked<()> {
    let [output, table, lengths, record] = some_checks(rng);
    let mut found = Vec::new();
    let (mut call, missing) = if record {
        let (call, what) = missing(rng);
        (call, Some(what))
    } else {
        (right(rng), None)
    };
    if output {
        call.table_out_size = singles::short(rng, LEAST_TABLE);
        found.push((1, "withdrawal: output too short"));
    }
    if table {
        let (bytes, what) = gen_table::spoiled(rng, &gen_table::decode(&call.table));
        call.table = bytes;
        found.push((2, what));
    }
    if lengths {
        found.push((4, spoil_lengths(rng, &mut call)));
    }
    found.extend(missing.map(|what| (7, what)));
    let first = found.first().map(|&(refusal, _)| Expect::Refusal(refusal));
    let expect = first.unwrap_or(Expect::Served);
    checker.withdraw(&call, expect).map(drop)?;
    let faults: Faults = found.into_iter().map(|(_, what)| what).collect();
    singles::count_lone(checker, &faults);
    Ok(())
}

/// A withdrawal from a damaged table, or with damaged values.
pub fn damaged(rng: &mut Rng, checker: &mut Checker) -> Checked<()> {
    let mut call = right(rng);
    match rng.weighed(&[60, 15, 15, 10]) {
        0 => singles::damage_table(rng, &mut call.table),
        1 => damage::damage(rng, &mut call.mixed, &call.key_id),
        2 => damage::damage(rng, &mut call.key_id, &call.mixed),
        _ => {
            singles::damage_table(rng, &mut call.table);
            damage::damage(rng, &mut call.key_id, &call.mixed);
        }
    }
    checker.withdraw(&call, Expect::Anything).map(drop)
}
