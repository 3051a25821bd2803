//! Register: one table from the first record to the thirty-second, each part going on with what the
//! one before it left.

use crate::bytes::*;
use crate::call::{of, Call};
use crate::make::*;
use crate::script::Trace;

pub fn registrations(t: &mut Trace) {
    statuses(t);
    fields(t);
    other_fields(t);
    limits(t);
    full_table(t);
}

fn statuses(t: &mut Trace) {
    t.say("Register: each status in its order");
    t.give(&[]);
    for verdict in 1..6 {
        let name = format!("register, verdict {verdict}");
        t.run(&name, of(register()).key(1).verdict(verdict));
    }
    let other = || of(register_as(attestation(0x3E09))).key(1);
    let unnamed = of(register_named(b"")).key(1);
    t.run("register, 0x08 before the verdict", unnamed.verdict(1));
    t.run("register, verdict before the type", other().verdict(3));
    t.run("register, type not supported", other());
    t.run("register, full", of(register()).key(1).dumped());
    t.run("register, type before a stored KeyID", other());
    t.run("register, KeyID stored", of(register()).key(1));
    let bos = of(register()).key(1).by(BO);
    t.run("register, KeyID stored by another", bos);
}

fn fields(t: &mut Trace) {
    let challenged = |length| register_by(tlv(CHALLENGE, &vec![0; length]), b"Ann", full(), &[]);
    let app_id = |length| register_with(app_id(&vec![0; length]));
    let verified = register_with(tlv(USERVERIFY_TOKEN, b""));
    for (name, number, command) in [
        ("surrogate", 2, register_as(attestation(BASIC_SURROGATE))),
        ("name of 128", 3, register_named(&[b'n'; 128])),
        ("name of 129", 4, register_named(&[b'n'; 129])),
        ("challenge of 32", 4, challenged(32)),
        ("challenge of 33", 5, challenged(33)),
        ("challenge of 0", 5, challenged(0)),
        ("AppID of 512", 5, app_id(512)),
        ("AppID of 513", 6, app_id(513)),
        ("AppID of 0", 6, app_id(0)),
        ("empty USERVERIFY_TOKEN", 6, verified),
        ("name twice", 7, register_with(username(b"Bo"))),
    ] {
        t.run(&format!("register, {name}"), of(command).key(number));
    }
}

fn other_fields(t: &mut Trace) {
    let given = |index: Vec<u8>, token: Vec<u8>| {
        let children = [index, challenge(), username(b"A"), full(), token];
        of(holding(REGISTER, &children)).key(7)
    };
    let wrong = tlv(INDEX, &[1]);
    t.run("register, index 1", given(wrong, access_token()));
    t.run("register, no access token", given(index(), vec![]));
    for length in [0, 1, 31, 32, 33] {
        let call = given(index(), token(&vec![0; length])).verdict(1);
        let answer = t.run(&format!("register, access token of {length}"), call);
        let status = if length == 32 { 0x02 } else { 0x08 };
        assert_eq!(answer[8], status);
    }
    for length in [1, 3] {
        let command = register_as(tlv(ATTESTATION_TYPE, &vec![0; length]));
        let name = format!("register, attestation type of {length}");
        t.run(&name, of(command).key(7));
    }
    let children = [access_token(), full(), username(b"A"), challenge(), index()];
    let reversed = of(holding(REGISTER, &children)).key(7);
    t.run("register, children in another order", reversed);
}

fn limits(t: &mut Trace) {
    for (public_key, number) in [(vec![7], 8), (vec![0; 512], 9)] {
        let name = format!("register, public key of {}", public_key.len());
        let call = of(register()).key(number).by(BO);
        t.run(&name, Call { public_key, ..call });
    }
    let seven = of(register_named(b"seven")).key(12);
    t.run("register, seventh own beside one with an AppID", seven);
    let nine = || of(register_named(b"nine"));
    t.run("register, eighth own", of(register_named(b"eight")).key(10));
    t.run("register, ninth own", nine().key(11));
    t.run("register, ninth own with a stored KeyID", nine().key(10));
}

fn full_table(t: &mut Trace) {
    for i in 0..21 {
        let command = register_named(format!("m{i}").as_bytes());
        let call = Call {
            dump: i == 20,
            ..of(command).key(100 + i).by([i / 8; 32])
        };
        t.run(&format!("register, number {} in all", 12 + i), call);
    }
    let cys = |name| of(register_named(name)).by(CY);
    t.run("register, thirty-third in all", cys(b"Ann").key(200));
    let stored = cys(b"Ann").key(100);
    t.run("register, thirty-third with a stored KeyID", stored);
    t.run("deregister, one of a full table", of(deregister(&key(1))));
    t.run("register, a place free again", cys(b"again").key(200));
}
