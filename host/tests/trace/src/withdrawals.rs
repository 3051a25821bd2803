//! Withdrawals: which record goes, and each refusal, alone and in pairs.

use crate::bytes::*;
use crate::call::{of, Withdrawal, SPOILT, TAIL_FIRST};
use crate::make::*;
use crate::refusals::broken_tables;
use crate::script::Trace;

/// What a withdrawal gives that is not refused.
const DONE: u32 = 0;
/// Tables of this length that break a rule are left to the commands, which read them alike.
const LONG: usize = 300;

/// Stored, by value, and both in turn.
pub fn withdrawals(t: &mut Trace) {
    t.change_form(0, "");
    each(t);
    stored_tables(t);
    t.change_form(1, "");
    t.say("Withdrawals by value: the table output is the store's");
    each(t);
    spoilt(t);
    t.change_form(2, ", in turn");
    t.say("Withdrawals, each second call by value");
    directly(t);
    full(t);
}

/// What either form shows.
fn each(t: &mut Trace) {
    directly(t);
    after_others(t);
    after_own(t);
    no_record(t);
    counted(t);
    older(t);
    lengths(t);
    outputs(t);
}

fn withdraw(t: &mut Trace, what: &str, withdrawal: &Withdrawal, right: u32) {
    let name = format!("withdraw, {what}");
    assert_eq!(t.withdraw(&name, withdrawal), right, "{name}");
}

/// Withdraws the record with this number by the holder with this access token.
fn take(t: &mut Trace, what: &str, token: &[u8; 32], number: u8, right: u32) {
    withdraw(t, what, &Withdrawal::of(token, number), right);
}

/// The holder's Register, which makes a draft.
fn enrol(t: &mut Trace, token: [u8; 32], number: u8) {
    let name = format!("withdraw, register {number}");
    let draft = t.run(&name, of(register()).by(token).key(number));
    assert_eq!(draft[..2], KRD.to_le_bytes(), "{name}");
}

/// The former table, byte for byte.
fn directly(t: &mut Trace) {
    t.say("Withdrawals directly after a Register");
    for former in [vec![], vec![anns(1), record(2, &BO, b"Bo", 3)]] {
        t.give(&former);
        enrol(t, ANN, 3);
        take(t, "directly after", &ANN, 3, DONE);
        assert_eq!(t.table(), former.concat());
        take(t, "the same again", &ANN, 3, 7);
        enrol(t, ANN, 3);
        take(t, "after registering it again", &ANN, 3, DONE);
        assert_eq!(t.table(), former.concat());
    }
}

/// Also between calls of others, and where it is no more the table's last.
fn after_others(t: &mut Trace) {
    t.say("Withdrawals where others have acted since");
    t.give(&[record(1, &BO, b"Bo", 0)]);
    enrol(t, ANN, 2);
    t.run(
        "withdraw, a stranger signs",
        of(sign(&[handle(1)])).by(BO).key(9),
    );
    enrol(t, BO, 3);
    enrol(t, CY, 4);
    take(t, "a stranger's", &BO, 3, DONE);
    t.run(
        "withdraw, a stranger removes",
        of(deregister(&key(1))).by(BO),
    );
    take(t, "after strangers", &ANN, 2, DONE);
    let left = record(4, &CY, b"Ann", 0);
    assert_eq!(t.table(), left);
}

/// The holder's own calls are what can make it too late.
fn after_own(t: &mut Trace) {
    t.say("Withdrawals after calls of the holder's own");
    t.give(&[]);
    enrol(t, ANN, 1);
    t.run("withdraw, info", of(get_info()));
    t.run("withdraw, the holder signs", of(sign(&[])));
    take(t, "after signing", &ANN, 1, 7);
    enrol(t, ANN, 2);
    take(t, "one that has signed, and another since", &ANN, 1, 7);
    enrol(t, ANN, 3);
    take(t, "another since", &ANN, 2, 7);
    take(t, "the newest", &ANN, 3, DONE);
    take(t, "now the newest", &ANN, 2, DONE);
    take(t, "now the newest, but it has signed", &ANN, 1, 7);
    t.run("withdraw, the holder removes all", of(deregister(&[])));
    take(t, "where none is left", &ANN, 1, 7);
}

fn three() -> [Vec<u8>; 3] {
    [anns(1), record(2, &BO, b"Bo", 0), anns(3)]
}

/// Refusal 7, of which no record with both values is the only reason.
fn no_record(t: &mut Trace) {
    t.say("Withdrawals: no record has both values");
    t.give(&three());
    for (what, token, number) in [
        ("a KeyID that is not stored", ANN, 9),
        ("a stranger's KeyID", ANN, 2),
        ("a stranger's mixed token", BO, 3),
        ("a mixed token without records", CY, 3),
    ] {
        take(t, what, &token, number, 7);
    }
    let right = Withdrawal::of(&ANN, 3);
    let exchanged = Withdrawal {
        mixed: right.key_id.clone(),
        key_id: right.mixed.clone(),
        ..right.clone()
    };
    withdraw(t, "the two exchanged", &exchanged, 7);
    let token_itself = Withdrawal {
        mixed: ANN.to_vec(),
        ..right.clone()
    };
    withdraw(t, "the access token itself", &token_itself, 7);
    for place in [0, 31] {
        let mut near = right.clone();
        near.mixed[place] ^= 0x80;
        withdraw(t, &format!("mixed token but for byte {place}"), &near, 7);
    }
    for place in [0, 31] {
        let mut near = right.clone();
        near.key_id[place] ^= 1;
        withdraw(t, &format!("KeyID but for byte {place}"), &near, 7);
    }
    withdraw(t, "after all of these", &right, DONE);
    t.give(&[]);
    withdraw(t, "from the empty table", &right, 7);
}

/// Refusal 7, of which the counter is the only reason. Those of other records are not looked at.
fn counted(t: &mut Trace) {
    t.say("Withdrawals: the counter is not 0");
    for counter in [1, 1 << 8, 1 << 16, 1 << 24] {
        t.give(&[record(1, &ANN, b"Ann", counter)]);
        take(t, &format!("a counter of {counter}"), &ANN, 1, 7);
    }
    t.give(&[
        record(1, &ANN, b"Ann", 5),
        anns(2),
        record(3, &BO, b"Bo", u32::MAX),
    ]);
    take(t, "others' counters", &ANN, 2, DONE);
}

/// Refusal 7, of which another one since is the only reason.
fn older(t: &mut Trace) {
    t.say("Withdrawals: not the holder's newest");
    t.give(&three());
    take(t, "an older one", &ANN, 1, 7);
    take(t, "the table's last", &ANN, 3, DONE);
    take(t, "the table's first", &ANN, 1, DONE);
    assert_eq!(t.table(), three()[1]);
    take(t, "the only one", &BO, 2, DONE);
    assert!(t.table().is_empty());
}

/// Refusal 4, alone and before 7.
fn lengths(t: &mut Trace) {
    t.say("Withdrawals: lengths, also where the counter is not 0");
    for (counter, lengths) in [(0, &[0, 1, 31, 33][..]), (1, &[31, 33])] {
        t.give(&[record(1, &ANN, b"Ann", counter)]);
        let right = Withdrawal::of(&ANN, 1);
        for &length in lengths {
            let mut wrong = right.clone();
            wrong.mixed.resize(length, 0);
            let what = format!("counter {counter}, mixed token of {length}");
            withdraw(t, &what, &wrong, 4);
        }
        for &length in lengths {
            let mut wrong = right.clone();
            wrong.key_id.resize(length, 0);
            let what = format!("counter {counter}, KeyID of {length}");
            withdraw(t, &what, &wrong, 4);
        }
    }
    let neither = Withdrawal {
        mixed: vec![],
        key_id: vec![],
        ..Withdrawal::of(&ANN, 1)
    };
    withdraw(t, "neither lent", &neither, 4);
}

/// Refusal 1, alone and before 4 and 7. By value what is short is the store's.
fn outputs(t: &mut Trace) {
    t.say("Withdrawals: table outputs");
    t.give(&three());
    let right = Withdrawal::of(&ANN, 3);
    let unlent = Withdrawal {
        key_id: vec![],
        ..right.clone()
    };
    for (what, withdrawal) in [
        ("right", &right),
        ("refusal 4", &unlent),
        ("refusal 7", &Withdrawal::of(&ANN, 1)),
    ] {
        for size in [0, 6911] {
            let short = Withdrawal {
                table_out_size: size,
                ..withdrawal.clone()
            };
            let name = format!("withdraw, {what}, a table output of {size}");
            t.withdraw(&name, &short);
        }
    }
    assert_eq!(t.table(), three().concat());
    let longer = Withdrawal {
        table_out_size: 8192,
        ..right
    };
    withdraw(t, "a longer table output", &longer, DONE);
}

/// Four holders' eight each.
fn full(t: &mut Trace) {
    t.say("Withdrawals from a full table");
    let holder = |number: u8| [number / 8; 32];
    let some = |number| record(number, &holder(number), b"n", 0);
    t.give(&(0..32).map(some).collect::<Vec<_>>());
    t.run(
        "withdraw, register where there is no place",
        of(register()).by(holder(31)).key(40),
    );
    take(t, "a holder's seventh of eight", &holder(30), 30, 7);
    take(t, "a holder's eighth, the last", &holder(31), 31, DONE);
    take(t, "a holder's eighth, the eighth", &holder(7), 7, DONE);
    enrol(t, holder(31), 40);
    take(t, "the eighth again", &holder(31), 40, DONE);
}

/// Refusal 2, alone and in pairs. By value such a table is not loaded, so this is for stored ones.
fn stored_tables(t: &mut Trace) {
    t.say("Withdrawals: stored tables that break a rule");
    let right = Withdrawal::of(&ANN, 1);
    for (what, table) in broken_tables() {
        if table.len() < LONG {
            t.give(&[table]);
            withdraw(t, what, &right, 2);
        }
    }
    let good = anns(1);
    t.give(&[good[..good.len() - 1].to_vec()]);
    let unlent = Withdrawal {
        mixed: vec![0; 31],
        ..right.clone()
    };
    for (without, with, withdrawal) in [
        ("refusal 2", "refusals 1 and 2: 1", &right),
        ("refusals 2 and 4: 2", "refusals 1, 2 and 4: 1", &unlent),
        (
            "refusals 2 and 7: 2",
            "refusals 1, 2 and 7: 1",
            &Withdrawal::of(&BO, 1),
        ),
    ] {
        let short = Withdrawal {
            table_out_size: 6911,
            ..withdrawal.clone()
        };
        withdraw(t, without, withdrawal, 2);
        withdraw(t, with, &short, 1);
    }
}

/// What no stored form can show: values that break a rule, handed back as they came.
fn spoilt(t: &mut Trace) {
    t.say("Withdrawals by value: tables that break a rule, alone, before 4 and before 7");
    let some = |number| record(number, &[number / 5; 32], b"Ann", 0);
    t.give(&(0..9).map(some).collect::<Vec<_>>());
    let right = Withdrawal::of(&[1; 32], 8);
    let unlent = Withdrawal {
        key_id: vec![],
        ..right.clone()
    };
    for (pair, withdrawal) in [
        ("refusal 2", &right),
        ("refusals 2 and 4: 2", &unlent),
        ("refusals 2 and 7: 2", &Withdrawal::of(&[1; 32], 9)),
    ] {
        for (spoilt, what) in (1..).zip(SPOILT).chain([(TAIL_FIRST, "a tail first")]) {
            let spoilt = Withdrawal {
                spoilt,
                ..withdrawal.clone()
            };
            withdraw(t, &format!("{what}, {pair}"), &spoilt, 2);
        }
    }
    withdraw(t, "the same table, not spoilt", &right, DONE);
    let good = anns(1);
    t.give(&[good[..good.len() - 1].to_vec()]);
    take(t, "a table that is not loaded", &ANN, 1, 2);
}
