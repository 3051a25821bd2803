//! The table by value: to and from its stored form, the rules, and the commands.

mod common;

use common::*;
use uaf_peer::{command_by_value, load, store, Answer, Lent, Refusal, TableValue};

/// Ann, a stranger's Bob, and Bo.
fn stored() -> Vec<u8> {
    [
        record(1, OWN, b"Ann", 3),
        record(9, OTHER, b"Bob", u32::MAX),
        record(2, OWN, &[b'n'; 128], 0),
    ]
    .concat()
}

fn value(stored: &[u8]) -> TableValue {
    load(stored).expect("a table")
}

/// Stores into an output of this length, and sees that nothing else in it changes.
fn stored_in(table: &TableValue, size: usize) -> Result<Vec<u8>, Refusal> {
    let mut out = vec![0xEE; size];
    let length = store(table, &mut out);
    let written = length.unwrap_or(0);
    assert!(out[written..].iter().all(|&byte| byte == 0xEE));
    out.truncate(written);
    length.map(|_| out)
}

#[test]
fn there_and_back() {
    let table = value(&stored());
    assert_eq!(table.count, 3);
    let [ann, bob, bo, ..] = table.records;
    assert_eq!((ann.key_id, ann.mixed), ([1; 32], mixed(OWN)));
    assert_eq!((&ann.name[..4], ann.name_length), (&b"Ann\0"[..], 3));
    assert_eq!((bob.mixed, bob.counter), (mixed(OTHER), u32::MAX));
    assert_eq!((bo.name, bo.name_length), ([b'n'; 128], 128));
    for size in [6912, 7000] {
        assert_eq!(stored_in(&table, size), Ok(stored()));
        assert_eq!(stored_in(&TableValue::default(), size), Ok(vec![]));
    }
    assert_eq!(value(&[]), TableValue::default());
    let most: Vec<u8> = (0..32)
        .flat_map(|n| record(n, n / 8, &[n; 128], 1))
        .collect();
    assert_eq!(most.len(), 6912);
    assert_eq!(stored_in(&value(&most), 6912), Ok(most));
}

#[test]
fn no_stored_form() {
    let good = stored();
    for bad in [&good[1..], &good[..good.len() - 1], &[0]] {
        assert_eq!(load(bad), Err(Refusal::Table));
    }
}

/// Tables that break one rule each, which a stored form could not show for the first three.
fn broken() -> Vec<TableValue> {
    let good = value(&stored());
    let changed = |change: fn(&mut TableValue)| {
        let mut table = good.clone();
        change(&mut table);
        table
    };
    let mut nine = value(
        &(0..9)
            .flat_map(|n| record(n, n, b"x", 1))
            .collect::<Vec<_>>(),
    );
    nine.records
        .iter_mut()
        .for_each(|record| record.mixed = mixed(OWN));
    vec![
        changed(|table| table.count = 33),
        changed(|table| table.count = usize::MAX),
        changed(|table| table.records[2].name_length = 129),
        changed(|table| table.records[2].name_length = usize::MAX),
        changed(|table| table.records[0].name_length = 0),
        changed(|table| table.records[2].key_id = table.records[1].key_id),
        // A fourth record, which has no name.
        changed(|table| table.count = 4),
        nine,
    ]
}

#[test]
fn rules() {
    let bad_lent = Lent {
        nonce: &[],
        ..lent()
    };
    for table in broken() {
        assert_eq!(stored_in(&table, 6912), Err(Refusal::Table));
        assert_eq!(stored_in(&table, 6911), Err(Refusal::Output));
        for (bytes, lent) in [(with(SIGN, &[]), lent()), (b"xy".to_vec(), bad_lent)] {
            for (size, refusal) in [(4096, Refusal::Table), (4095, Refusal::Output)] {
                let (mut left, mut response) = (table.clone(), vec![0xEE; size]);
                let got = command_by_value(&bytes, &lent, &mut left, &mut response);
                assert_eq!(got, Err(refusal));
                assert!(left == table && response.iter().all(|&byte| byte == 0xEE));
            }
        }
    }
    assert_eq!(
        stored_in(&TableValue::default(), 6911),
        Err(Refusal::Output)
    );
}

/// What is past the count or past a name's length breaks no rule and is not stored.
#[test]
fn no_part_of_the_table() {
    let mut table = value(&stored());
    table.records[0].name[3..].fill(0xFF);
    let twice = table.records[0];
    table.records[3..].fill(twice);
    assert_eq!(stored_in(&table, 6912), Ok(stored()));
    let mut response = [0; 4096];
    let got = command_by_value(
        &with(SIGN, &[handle(1)]),
        &lent(),
        &mut table,
        &mut response,
    );
    assert_eq!(got, Ok(Answer::Draft(91)));
    let raised = [
        record(1, OWN, b"Ann", 4),
        record(9, OTHER, b"Bob", u32::MAX),
        record(2, OWN, &[b'n'; 128], 0),
    ];
    assert_eq!(stored_in(&table, 6912), Ok(raised.concat()));
}

/// Each command by value as on the stored form, refusals included.
#[test]
fn same_as_stored() {
    let wrong = Lent {
        nonce: &[],
        verdict: 6,
        ..lent()
    };
    let commands = [
        with(GETINFO, &[]),
        with(REGISTER, &[]),
        with(SIGN, &[]),
        with(SIGN, &[handle(2), content(b"pay")]),
        with(SIGN, &[handle(9)]),
        with(DEREGISTER, &[]),
        deregister(1),
        deregister(9),
        with(OPEN_SETTINGS, &[]),
        with(OPEN_SETTINGS, &[index()]),
        b"xy".to_vec(),
    ];
    for bytes in &commands {
        for lent in [lent(), wrong] {
            let mut table = value(&stored());
            let mut response = vec![0xEE; 4096];
            let answer = command_by_value(bytes, &lent, &mut table, &mut response);
            let expected = run(bytes, &lent, &stored());
            let got = answer.map(|answer| match answer {
                Answer::Response(length) => Got::Response(response[..length].to_vec()),
                Answer::Draft(length) => Got::Draft(response[..length].to_vec()),
            });
            assert_eq!(got, expected.clone().map(|(got, _)| got));
            let left = expected.map_or(stored(), |(_, left)| left);
            assert_eq!(table, value(&left));
        }
    }
}
