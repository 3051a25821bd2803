//! The writers of commands. What is written is run, every second time on a table by value.

use crate::bytes::*;
use crate::call::{of, Call, Kind, Marked, Writing};
use crate::names::{BROKEN, JOSE};
use crate::script::Trace;
use uaf_peer::hash;

const NOT_GIVEN: u32 = 0;
const GIVEN: u32 = 1;

pub fn writings(t: &mut Trace) {
    t.change_form(2, "");
    plain(t);
    every_field(t);
    optional_fields(t);
    lengths(t);
    names(t);
    types(t);
    marks(t);
    handles(t);
    wrong_handles(t);
    longest(t);
    outputs(t);
    order(t);
}

/// The shortest command of a kind, of the fields that the trace gives elsewhere.
fn shortest(kind: Kind) -> Writing {
    Writing {
        kind,
        app_id: (NOT_GIVEN, vec![]),
        challenge: vec![0xAA],
        username: b"Ann".to_vec(),
        attestation: BASIC_FULL.into(),
        content: (NOT_GIVEN, vec![]),
        key_id: vec![],
        access_token: ANN.to_vec(),
        verify_token: (NOT_GIVEN, vec![]),
        handles: vec![],
        handle_sizes: vec![],
        command_size: 1024,
    }
}

/// The shortest command but for some fields.
fn changed(kind: Kind, change: impl Fn(&mut Writing)) -> Writing {
    let mut writing = shortest(kind);
    change(&mut writing);
    writing
}

fn given(bytes: &[u8]) -> Marked {
    (GIVEN, bytes.to_vec())
}

/// A Sign with these handles, each of the length said.
fn sign_with(numbers: &[u8]) -> Writing {
    changed(Kind::Sign, |fields| {
        fields.handles = numbers.iter().flat_map(|&number| key(number)).collect();
        fields.handle_sizes = vec![32; numbers.len()];
    })
}

fn written(t: &mut Trace, name: &str, writing: &Writing) -> Vec<u8> {
    let command = t.write(name, writing);
    assert!(!command.is_empty(), "{name}");
    command
}

fn refused(t: &mut Trace, name: &str, writing: &Writing) {
    assert!(t.write(name, writing).is_empty(), "{name}");
}

/// Writes it and runs what was written.
fn run(t: &mut Trace, what: &str, writing: &Writing, lend: impl Fn(Call) -> Call) {
    let command = written(t, &format!("write {what}"), writing);
    let answer = t.run(&format!("run {what}"), lend(of(command)));
    assert!(!answer.is_empty(), "{what}");
}

const WITH_FIELDS: [(&str, Kind); 3] = [
    ("register", Kind::Register),
    ("sign", Kind::Sign),
    ("deregister", Kind::Deregister),
];

/// With the lengths of the shortest.
const KINDS: [(&str, Kind, u32); 5] = [
    ("info", Kind::GetInfo, 4),
    ("register", Kind::Register, 63),
    ("sign", Kind::Sign, 50),
    ("deregister", Kind::Deregister, 49),
    ("settings", Kind::OpenSettings, 9),
];

fn plain(t: &mut Trace) {
    t.say("Writers: each command of no more than it must have, written and run");
    t.give(&[]);
    for (what, kind, _) in KINDS {
        run(t, what, &shortest(kind), |call| call.key(1).dumped());
    }
}

fn every_field(t: &mut Trace) {
    t.say("Writers: every field, in the order of the tables; handles as given");
    let (token, app_id) = ((0x41..0x61).collect::<Vec<u8>>(), b"https://tote.example");
    let mixed = hash(&token, app_id);
    let own = |number, name: &[u8], count| stored(number, &mixed, name, count);
    t.give(&[own(1, b"Ann", 0), own(2, b"Bo", 7), own(3, b"Ann", 0)]);
    let all = |fields: &mut Writing| {
        fields.app_id = given(app_id);
        fields.challenge = (1..33).collect();
        fields.username = JOSE.to_vec();
        fields.attestation = BASIC_SURROGATE.into();
        fields.content = given(b"10 on No 4");
        fields.key_id = key(3);
        fields.access_token = token.clone();
        fields.verify_token = given(b"seen");
        fields.handles = [key(2), key(9), key(2)].concat();
        fields.handle_sizes = vec![32; 3];
    };
    for (what, kind) in WITH_FIELDS {
        let what = format!("{what}, every field");
        run(t, &what, &changed(kind, all), |call| call.key(4).dumped());
    }
}

/// Given and empty is not the same as not given.
fn optional_fields(t: &mut Trace) {
    t.say("Writers: optional fields that are given and empty, and some that are not looked at");
    t.give(&[anns(1)]);
    for (what, kind) in WITH_FIELDS {
        let empty = changed(kind, |fields| fields.app_id = given(b""));
        refused(t, &format!("refusal 6, {what}, an empty AppID"), &empty);
        let long = changed(kind, |fields| fields.app_id = (NOT_GIVEN, vec![0; 513]));
        written(t, &format!("write {what}, AppID not given"), &long);
    }
    let token = |kind| changed(kind, |fields| fields.verify_token = given(b""));
    let content = changed(Kind::Sign, |fields| fields.content = given(b""));
    let register = token(Kind::Register);
    run(t, "register, an empty token", &register, |c| c.key(2));
    written(t, "write sign, an empty token", &token(Kind::Sign));
    t.give(&[anns(1)]);
    run(t, "sign, empty content", &content, |call| call.display(1));
}

/// Writes with a field of each length, or is refused with 6 if that is wrong.
fn limits(t: &mut Trace, what: &str, lengths: &[(usize, bool)], of: impl Fn(Vec<u8>) -> Writing) {
    for &(length, right) in lengths {
        let writing = of(vec![b'f'; length]);
        if right {
            written(t, &format!("write {what} of {length}"), &writing);
        } else {
            refused(t, &format!("refusal 6, {what} of {length}"), &writing);
        }
    }
}

fn lengths(t: &mut Trace) {
    t.say("Writers: lengths of fields, at each limit and one past it");
    let app_id = [(1, true), (512, true), (513, false)];
    let short = [(0, false), (32, true), (33, false)];
    let key_id = [(1, false), (31, false), (32, true), (33, false)];
    let token = [(0, false), (1, false), (31, false), (32, true), (33, false)];
    for (what, kind) in WITH_FIELDS {
        limits(t, &format!("{what}, AppID"), &app_id, |bytes| {
            changed(kind, |fields| fields.app_id = given(&bytes))
        });
        limits(t, &format!("{what}, access token"), &token, |bytes| {
            changed(kind, |fields| fields.access_token = bytes.clone())
        });
    }
    for (what, kind) in &WITH_FIELDS[..2] {
        limits(t, &format!("{what}, challenge"), &short, |bytes| {
            changed(*kind, |fields| fields.challenge = bytes.clone())
        });
    }
    limits(t, "deregister, KeyID", &key_id, |bytes| {
        changed(Kind::Deregister, |fields| fields.key_id = bytes.clone())
    });
}

fn names(t: &mut Trace) {
    t.say("Writers: names");
    let named = |name: &[u8]| changed(Kind::Register, |fields| fields.username = name.to_vec());
    let name = [(0, false), (1, true), (128, true), (129, false)];
    limits(t, "register, name", &name, |bytes| named(&bytes));
    for (what, name) in BROKEN {
        refused(t, &format!("refusal 6, a name, {what}"), &named(name));
    }
}

/// Any of 16 bits is written, also one that Register does not support.
fn types(t: &mut Trace) {
    t.say("Writers: attestation types");
    let typed = |attestation| changed(Kind::Register, |fields| fields.attestation = attestation);
    t.give(&[]);
    for attestation in [0, 65_535] {
        let name = format!("write register, type {attestation:04X}");
        written(t, &name, &typed(attestation));
    }
    let other = typed(0x3E09);
    run(t, "register, type 3E09", &other, |call| call.key(1));
    for attestation in [65_536, 0x1_3E07, u32::MAX] {
        let name = format!("refusal 6, type {attestation:X}");
        refused(t, &name, &typed(attestation));
    }
}

/// A field with a mark, and its writer.
type Mark = (&'static str, Kind, fn(&mut Writing) -> &mut Marked);

const MARKS: [Mark; 6] = [
    ("register, AppID", Kind::Register, |f| &mut f.app_id),
    ("register, token", Kind::Register, |f| &mut f.verify_token),
    ("sign, AppID", Kind::Sign, |f| &mut f.app_id),
    ("sign, content", Kind::Sign, |f| &mut f.content),
    ("sign, token", Kind::Sign, |f| &mut f.verify_token),
    ("deregister, AppID", Kind::Deregister, |f| &mut f.app_id),
];

/// Neither given nor not: the first such mark, and one of which the low bits may be good.
fn marks(t: &mut Trace) {
    t.say("Writers: marks that are neither 0 nor 1");
    let others = [256, 257, 65_536, 65_537, 0x8000_0001, u32::MAX];
    for ((what, kind, field), other) in MARKS.into_iter().zip(others) {
        for mark in [2, other] {
            let writing = changed(kind, |fields| *field(fields) = (mark, b"f".to_vec()));
            refused(t, &format!("refusal 6, {what}, mark {mark}"), &writing);
        }
    }
}

fn handles(t: &mut Trace) {
    t.say("Writers: key handles");
    t.give(&[anns(1), anns(2)]);
    let eight: Vec<u8> = (1..9).rev().collect();
    for (what, numbers) in [
        ("one handle", &[2][..]),
        ("a handle thrice", &[1, 1, 1]),
        ("a tie of two", &[2, 1]),
        ("eight handles", &eight),
    ] {
        let what = format!("sign, {what}");
        run(t, &what, &sign_with(numbers), |call| call);
    }
    for (what, numbers) in [("different", (1..10).collect()), ("equal", vec![1; 9])] {
        let name = format!("refusal 6, nine {what} handles");
        refused(t, &name, &sign_with(&numbers));
    }
}

/// The length of the stretch and those said of the handles in it.
fn wrong_handles(t: &mut Trace) {
    t.say("Writers: lengths of handles, and a stretch to which they do not add up");
    let wrong: [(usize, &[u32]); 11] = [
        (0, &[0]),
        (0, &[32]),
        (31, &[31]),
        (33, &[33]),
        (33, &[32]),
        (32, &[]),
        (32, &[32, 0]),
        (64, &[64]),
        (64, &[31, 33]),
        (32, &[u32::MAX, 33]),
        (256, &[16; 16]),
    ];
    for (length, sizes) in wrong {
        let writing = changed(Kind::Sign, |fields| {
            fields.handles = vec![0x11; length];
            fields.handle_sizes = sizes.to_vec();
        });
        refused(t, &format!("refusal 6, {length} as {sizes:?}"), &writing);
    }
}

/// Beside its longest field a Register has 67 bytes here, a Sign 54, with that field's header.
fn longest(t: &mut Trace) {
    t.say("Writers: 8,192 bytes and one more");
    t.give(&[anns(1)]);
    let long = |kind, size: usize, mark| Writing {
        verify_token: (mark, vec![b'v'; size - 67]),
        content: (mark, vec![b'c'; size - 54]),
        command_size: 8400,
        ..shortest(kind)
    };
    let register = |size| long(Kind::Register, size, GIVEN);
    let sign = |size, mark| Writing {
        verify_token: (NOT_GIVEN, vec![]),
        ..long(Kind::Sign, size, mark)
    };
    let exact = Writing {
        command_size: 8192,
        ..sign(8192, GIVEN)
    };
    let short = Writing {
        command_size: 8191,
        ..sign(8192, GIVEN)
    };
    run(t, "register of 8192", &register(8192), |call| call.key(2));
    refused(t, "refusal 6, register of 8193", &register(8193));
    t.give(&[anns(1)]);
    run(t, "sign of 8192", &exact, |call| call);
    refused(t, "refusal 1, sign of 8192 into 8191", &short);
    refused(t, "refusal 6, sign of 8193", &sign(8193, GIVEN));
    let without = sign(8193, NOT_GIVEN);
    written(t, "write sign, long content not given", &without);
}

fn outputs(t: &mut Trace) {
    t.say("Writers: outputs as long as the command, and one byte shorter");
    for (what, kind, length) in KINDS {
        let into = |command_size| Writing {
            command_size,
            ..shortest(kind)
        };
        written(t, &format!("write {what} into {length}"), &into(length));
        let short = length - 1;
        refused(t, &format!("refusal 1, {what} into {short}"), &into(short));
    }
    let nothing = Writing {
        command_size: 0,
        ..shortest(Kind::GetInfo)
    };
    refused(t, "refusal 1, info into 0", &nothing);
}

/// After a refusal the command is the one that was written before.
fn order(t: &mut Trace) {
    t.say("Writers: refusal 6 before 1, and a refusal after a command that was written");
    t.give(&[anns(1)]);
    let kept = written(t, "write sign, to be run later", &sign_with(&[1]));
    let wrong = |kind| {
        changed(kind, |fields| {
            fields.access_token.clear();
            fields.command_size = 0;
        })
    };
    for (what, kind) in WITH_FIELDS {
        refused(t, &format!("refusals 1 and 6, {what}: 6"), &wrong(kind));
    }
    t.run("run the sign that was written before", of(kept));
}
