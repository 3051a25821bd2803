//! The withdrawal: which record goes, refusals 1, 2, 4 and 7 and their order, and what is left of the
//! table, on its stored form and by value.

mod common;

use common::*;
use uaf_peer::{load, store, withdraw, withdraw_by_value, Lent, Refusal, TableValue};

const FILL: u8 = 0xEE;
/// A record that goes, and its holder's older one.
const NEW: u8 = 2;
const OLD: u8 = 1;

/// Withdraws with an output of this length, and sees that nothing else in it changes.
fn withdrawn_in(
    size: usize,
    mixed: &[u8],
    key_id: &[u8],
    table: &[u8],
) -> Result<Vec<u8>, Refusal> {
    let mut out = vec![FILL; size];
    let length = withdraw(mixed, key_id, table, &mut out);
    let written = length.unwrap_or(0);
    assert!(out[written..].iter().all(|&byte| byte == FILL));
    out.truncate(written);
    length.map(|_| out)
}

/// The same by value, stored again; a refusal must hand the table back as it came.
fn withdrawn_by_value(mixed: &[u8], key_id: &[u8], table: &[u8]) -> Result<Vec<u8>, Refusal> {
    let given = load(table)?;
    let mut left = given.clone();
    let done = withdraw_by_value(mixed, key_id, &mut left);
    if let Err(refusal) = done {
        assert_eq!(left, given);
        return Err(refusal);
    }
    let mut out = [0; 6912];
    let length = store(&left, &mut out).unwrap();
    // What is no part of the table is 0, as after loading it.
    assert_eq!(load(&out[..length]).unwrap(), left);
    Ok(out[..length].to_vec())
}

/// Withdraws in both forms, with outputs of the least length and of a greater one.
#[track_caller]
fn withdrawn(mixed: &[u8], key_id: &[u8], table: &[u8]) -> Result<Vec<u8>, Refusal> {
    let got = withdrawn_in(6912, mixed, key_id, table);
    assert_eq!(got, withdrawn_in(7000, mixed, key_id, table));
    assert_eq!(got, withdrawn_by_value(mixed, key_id, table));
    got
}

/// The withdrawal of a holder's record.
#[track_caller]
fn taken(holder: u8, key_id: u8, table: &[u8]) -> Result<Vec<u8>, Refusal> {
    withdrawn(&mixed(holder), &[key_id; 32], table)
}

/// The holder's two and a stranger's two.
fn some() -> [Vec<u8>; 4] {
    [
        record(OLD, OWN, b"Ann", 0),
        record(8, OTHER, b"Bob", 0),
        record(NEW, OWN, b"Bo", 0),
        record(9, OTHER, &[b'n'; 128], u32::MAX),
    ]
}

/// The table left by a Register of the holder, which is lent this KeyID.
fn registered(holder: u8, key_id: u8, table: &[u8]) -> Vec<u8> {
    let lent = Lent {
        key_id: &[key_id; 32],
        ..lent()
    };
    gives_draft(&by(holder, with(REGISTER, &[])), &lent, table).1
}

#[test]
fn one_goes() {
    let [a, b, c, d] = some();
    let table = some().concat();
    let left = taken(OWN, NEW, &table);
    assert_eq!(left, Ok([&a[..], &b, &d].concat()));
    // Then the older one is the newest.
    let left = taken(OWN, OLD, &left.unwrap());
    assert_eq!(left, Ok([&b[..], &d].concat()));
    let alone = record(NEW, OWN, b"Ann", 0);
    assert_eq!(taken(OWN, NEW, &alone), Ok(vec![]));
    assert_eq!(
        taken(OWN, NEW, &[&c[..], &b].concat()),
        Ok(b),
        "also the first of the table"
    );
}

/// 7, for each of its reasons alone.
#[test]
fn no_record_with_both_values() {
    let table = some().concat();
    let none = Err(Refusal::Withdrawal);
    assert_eq!(taken(OWN, NEW, &[]), none);
    assert_eq!(taken(OWN, 7, &table), none, "a KeyID that is not stored");
    assert_eq!(taken(OWN, 8, &table), none, "a stranger's KeyID");
    assert_eq!(taken(OTHER, NEW, &table), none, "a stranger's mixed token");
    assert_eq!(taken(THIRD, NEW, &table), none, "one without records");
    let exchanged = withdrawn(&[NEW; 32], &mixed(OWN), &table);
    assert_eq!(exchanged, none, "the two exchanged");
    for place in 0..32 {
        let (mut token, mut key_id) = (mixed(OWN), [NEW; 32]);
        token[place] ^= 1;
        key_id[place] ^= 0x80;
        assert_eq!(withdrawn(&token, &[NEW; 32], &table), none);
        assert_eq!(withdrawn(&mixed(OWN), &key_id, &table), none);
    }
}

#[test]
fn a_counter_that_is_not_0() {
    for counter in [1, 0x100, 0x1_0000, 0x100_0000, u32::MAX] {
        let table = [record(NEW, OWN, b"Ann", counter), some()[1].clone()].concat();
        assert_eq!(taken(OWN, NEW, &table), Err(Refusal::Withdrawal));
    }
}

/// Others' counters do not matter, the holder's other ones neither.
#[test]
fn counters_of_the_rest() {
    let (old, other) = (record(OLD, OWN, b"Ann", 5), record(9, OTHER, b"Bob", 6));
    let table = [&old[..], &record(NEW, OWN, b"Bo", 0), &other].concat();
    assert_eq!(taken(OWN, NEW, &table), Ok([old, other].concat()));
}

#[test]
fn an_older_one() {
    let table = some().concat();
    assert_eq!(taken(OWN, OLD, &table), Err(Refusal::Withdrawal));
    assert_eq!(taken(OTHER, 8, &table), Err(Refusal::Withdrawal));
    // Counted or not: it is the place that tells which is the newest.
    let counted = [record(OLD, OWN, b"Ann", 0), record(NEW, OWN, b"Bo", 3)].concat();
    for key_id in [OLD, NEW] {
        assert_eq!(taken(OWN, key_id, &counted), Err(Refusal::Withdrawal));
    }
}

/// 4, for either value and with the other one right.
#[test]
fn lengths() {
    let table = some().concat();
    let (token, key_id) = (&mixed(OWN), &[NEW; 32]);
    let long_token = [&token[..], &[0]].concat();
    let long_key_id = [NEW; 33];
    for length in [0, 1, 31, 33] {
        let token = &long_token[..length];
        let other = &long_key_id[..length];
        for (token, key_id) in [
            (token, &key_id[..]),
            (&mixed(OWN)[..], other),
            (token, other),
        ] {
            assert_eq!(withdrawn(token, key_id, &table), Err(Refusal::Lent));
            assert_eq!(withdrawn(token, key_id, &[]), Err(Refusal::Lent));
        }
    }
    assert!(withdrawn(token, key_id, &table).is_ok());
}

#[test]
fn short_outputs() {
    let table = some().concat();
    for size in [0, 1, table.len(), 6911] {
        let got = withdrawn_in(size, &mixed(OWN), &[NEW; 32], &table);
        assert_eq!(got, Err(Refusal::Output));
    }
}

/// Each pair of refusals, and all four: the first of 1, 2, 4, 7 counts.
#[test]
fn order() {
    let good = some().concat();
    let bad = &good[..good.len() - 1];
    let (own, short) = (mixed(OWN), [NEW; 31]);
    let new = [NEW; 32];
    let none = [7; 32];
    for (size, key_id, table, refusal) in [
        (6911, &new[..], bad, Refusal::Output),
        (6911, &short, &good, Refusal::Output),
        (6911, &none, &good, Refusal::Output),
        (6911, &short, bad, Refusal::Output),
        (6912, &short, bad, Refusal::Table),
        (6912, &none, bad, Refusal::Table),
        (6912, &new, bad, Refusal::Table),
        // A KeyID of 31 bytes is no record's.
        (6912, &short, &good, Refusal::Lent),
        (6912, &none, &good, Refusal::Withdrawal),
    ] {
        assert_eq!(withdrawn_in(size, &own, key_id, table), Err(refusal));
    }
    let counted = record(NEW, OWN, b"Ann", 1);
    for (token, key_id) in [(&own[..31], &new[..]), (&own, &short)] {
        assert_eq!(withdrawn(token, key_id, &counted), Err(Refusal::Lent));
    }
}

/// Each way of breaking a rule that only a table by value has, whatever else is wrong.
#[test]
fn broken_by_value() {
    let good = load(&some().concat()).unwrap();
    let changes: [fn(&mut TableValue); 6] = [
        |table| table.count = 33,
        |table| table.count = usize::MAX,
        |table| table.records[3].name_length = 129,
        |table| table.records[0].name_length = 0,
        |table| table.records[0].name[0] = 0x80,
        |table| table.records[3].key_id = table.records[0].key_id,
    ];
    for change in changes {
        let mut table = good.clone();
        change(&mut table);
        for (token, key_id) in [(32, 32), (31, 32), (32, 31)] {
            let (token, key_id) = (&mixed(OWN)[..token], &[NEW; 32][..key_id]);
            let mut left = table.clone();
            let got = withdraw_by_value(token, key_id, &mut left);
            assert_eq!(got, Err(Refusal::Table));
            assert!(left == table);
        }
    }
}

/// What is past the count is not looked at, and stays no part of the table.
#[test]
fn no_part_of_the_table() {
    let [a, b, ..] = some();
    let mut table = load(&some().concat()).unwrap();
    table.count = 3;
    table.records[3].mixed = mixed(OWN);
    withdraw_by_value(&mixed(OWN), &[NEW; 32], &mut table).unwrap();
    let mut out = [0; 6912];
    let length = store(&table, &mut out).unwrap();
    assert_eq!(out[..length], [a, b].concat());
}

/// "Directly after a Register that made a draft, lent its values, it gives the former table exactly".
#[test]
fn directly_after_a_register() {
    let full: Vec<u8> = (0..31)
        .flat_map(|n| record(n + 10, n / 8, &[b'n'; 128], 1))
        .collect();
    let seven: Vec<u8> = (0..7)
        .flat_map(|n| record(n + 10, OWN, b"Ann", n.into()))
        .collect();
    for former in [vec![], some().concat(), full, seven] {
        let table = registered(OWN, 0xC1, &former);
        assert_eq!(taken(OWN, 0xC1, &table), Ok(former.clone()));
        let again = taken(OWN, 0xC1, &former);
        assert_eq!(again, Err(Refusal::Withdrawal), "only once");
    }
}

/// "also where other holders have acted since its Register".
#[test]
fn after_others() {
    let first = [record(8, OTHER, b"Bob", 0), record(9, THIRD, b"Cy", 0)].concat();
    let mut table = registered(OWN, 0xC1, &first);
    let strangers = [
        (OTHER, with(REGISTER, &[])),
        (OTHER, with(SIGN, &[handle(8)])),
        (OTHER, deregister(8)),
        (OTHER, deregister(0xC1)),
        (THIRD, with(SIGN, &[])),
        (THIRD, with(DEREGISTER, &[])),
    ];
    let mut without = first;
    for (number, (stranger, bytes)) in (0xD0..).zip(strangers) {
        let lent = Lent {
            key_id: &[number; 32],
            ..lent()
        };
        let bytes = by(stranger, bytes);
        table = run(&bytes, &lent, &table).unwrap().1;
        without = run(&bytes, &lent, &without).unwrap().1;
        assert_eq!(taken(OWN, 0xC1, &table), Ok(without.clone()));
    }
    // A stranger's withdrawal too.
    table = taken(OTHER, 0xD0, &table).unwrap();
    assert_eq!(taken(OWN, 0xC1, &table), Ok(vec![]));
}

/// After the holder's own Sign it has signed, and after its next Register it is an older one.
#[test]
fn after_the_holders_own() {
    let table = registered(OWN, 0xC1, &[]);
    let signed = gives_draft(&with(SIGN, &[]), &lent(), &table).1;
    assert_eq!(taken(OWN, 0xC1, &signed), Err(Refusal::Withdrawal));
    let next = registered(OWN, 0xC2, &table);
    assert_eq!(taken(OWN, 0xC1, &next), Err(Refusal::Withdrawal));
    let back = taken(OWN, 0xC2, &next).unwrap();
    assert_eq!(taken(OWN, 0xC1, &back), Ok(vec![]));
}

/// Of a full table each holder's eighth, and then a Register finds a place again.
#[test]
fn full_table() {
    let holders = [0xA1, 0xA2, 0xA3, OWN];
    let records: Vec<Vec<u8>> = (0..32)
        .map(|n| record(n, holders[usize::from(n) / 8], &[b'n'; 128], 0))
        .collect();
    let table = records.concat();
    assert_eq!(table.len(), 6912);
    gives_status(&with(REGISTER, &[]), &lent(), &table, 0x0F);
    for n in 0..32 {
        let holder = holders[usize::from(n) / 8];
        let left = [&records[..n.into()], &records[usize::from(n) + 1..]].concat();
        let right = if n % 8 == 7 {
            Ok(left.concat())
        } else {
            Err(Refusal::Withdrawal)
        };
        assert_eq!(taken(holder, n, &table), right);
    }
    let left = taken(OWN, 31, &table).unwrap();
    assert_eq!(registered(OWN, 0xC1, &left).len(), 31 * 216 + 91);
}
