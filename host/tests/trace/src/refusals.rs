//! Refusals of commands: each alone, what 4 looks at, and their order.

use crate::bytes::*;
use crate::call::{of, Call};
use crate::make::*;
use crate::script::Trace;

/// How a call is changed.
pub type Change = fn(&mut Call);

/// A command with the usual arguments but for one.
pub fn changed(command: Vec<u8>, change: Change) -> Call {
    let mut call = of(command);
    change(&mut call);
    call
}

pub fn refusals(t: &mut Trace) {
    t.say("Refusals 1, 2 and 3, each alone");
    t.give(&[anns(1)]);
    let outputs: [(&str, Change); 4] = [
        ("refusal 1, response output of 4095", |call| {
            call.response_size = 4095;
        }),
        ("refusal 1, table output of 6911", |call| {
            call.table_out_size = 6911;
        }),
        ("refusal 1, no outputs", |call| {
            call.response_size = 0;
            call.table_out_size = 0;
        }),
        ("longer outputs", |call| {
            call.response_size = 8192;
            call.table_out_size = 8192;
        }),
    ];
    for (name, change) in outputs {
        t.run(name, changed(get_info(), change));
    }
    on_broken_tables(t);
    t.give(&[anns(1)]);
    let none: [(&str, &[u8]); 6] = [
        ("nothing", &[]),
        ("01", &[0x01]),
        ("013400", &[0x01, 0x34, 0x00]),
        ("00340000", &[0x00, 0x34, 0x00, 0x00]),
        ("05340000", &[0x05, 0x34, 0x00, 0x00]),
        ("01360000", &[0x01, 0x36, 0x00, 0x00]),
    ];
    for (name, command) in none {
        t.run(&format!("refusal 3, {name}"), of(command.to_vec()));
    }
}

/// Stored tables that break a rule each.
pub fn broken_tables() -> Vec<Broken> {
    [broken_forms(), broken_rules(), broken_children()].concat()
}

fn on_broken_tables(t: &mut Trace) {
    for (what, table) in broken_tables() {
        t.give(&[table]);
        t.run(&format!("refusal 2, {what}"), of(get_info()));
    }
    t.give(&[records(32, &[b'n'; 128])]);
    t.run("the longest table", of(get_info()));
}

/// So many records with this name, eight of each mixed token.
fn records(count: u8, name: &[u8]) -> Vec<u8> {
    let some = |number| record(number, &[number / 8; 32], name, 0);
    (0..count).flat_map(some).collect()
}

/// What is wrong with a table, and its bytes.
pub type Broken = (&'static str, Vec<u8>);

fn broken_forms() -> Vec<Broken> {
    let good = anns(1);
    vec![
        ("cut short", good[..good.len() - 1].to_vec()),
        ("a byte too many", [&good[..], &[0]].concat()),
        ("a TLV that is no record", vec![0; 4]),
        ("another tag", tlv(0x3801, &good[4..])),
    ]
}

fn broken_rules() -> Vec<Broken> {
    let twice = [anns(1), record(1, &BO, b"Ann", 0)];
    vec![
        ("a KeyID twice", twice.concat()),
        ("nine of one mixed token", (0..9).flat_map(anns).collect()),
        ("thirty-three records", records(33, b"Ann")),
        ("an empty name", record(1, &ANN, b"", 0)),
        ("a name of 129", record(1, &ANN, &[b'n'; 129], 0)),
    ]
}

fn broken_children() -> Vec<Broken> {
    let good = anns(1);
    let (rest, counters) = good[4..].split_at(good.len() - 12);
    let holds = |parts: &[&[u8]]| tlv(USERNAME_AND_KEYHANDLE, &parts.concat());
    let counters_of = |length| tlv(COUNTERS, &vec![0; length]);
    vec![
        (
            "a KeyID of 31",
            holds(&[&tlv(KEYID, &[0; 31]), &good[40..]]),
        ),
        ("a child more", holds(&[&good[4..], &counters_of(4)])),
        ("a child less", holds(&[rest])),
        ("children in another order", holds(&[counters, rest])),
        ("a mixed token of 31", stored(1, &[0; 31], b"Ann", 0)),
        ("a mixed token of 33", stored(1, &[0; 33], b"Ann", 0)),
        ("a counter of 3 bytes", holds(&[rest, &counters_of(3)])),
    ]
}

pub fn order(t: &mut Trace) {
    t.say("Refusals in pairs, to show their order");
    let good = anns(1);
    t.give(&[anns(1)]);
    t.run(
        "refusal 4 before 0x08",
        changed(vec![0x03, 0x34, 1, 0], |call| call.nonce = vec![0; 7]),
    );
    t.run(
        "refusals 3 and 4: 3",
        changed(vec![0x05, 0x34, 0, 0], |call| {
            call.aaid.clear();
            call.nonce.clear();
        }),
    );
    t.give(&[good[..good.len() - 1].to_vec()]);
    t.run(
        "refusals 1 and 2: 1",
        changed(get_info(), |call| call.response_size = 4095),
    );
    t.run("refusals 2 and 3: 2", of(vec![]));
    t.run(
        "refusals 2 and 4: 2",
        changed(get_info(), |call| call.aaid.clear()),
    );
    t.give(&[good]);
    t.run(
        "refusals 1 and 3: 1",
        changed(vec![], |call| call.table_out_size = 6911),
    );
    t.run(
        "refusals 1 and 4: 1",
        changed(get_info(), |call| {
            call.response_size = 0;
            call.aaid.clear();
        }),
    );
}
