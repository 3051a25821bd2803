//! Refusal 4: what each command uses of what it is lent, and what it does not.

use crate::bytes::*;
use crate::call::{of, Call};
use crate::make::*;
use crate::refusals::{changed, Change};
use crate::script::Trace;

pub fn lent(t: &mut Trace) {
    t.say("Refusal 4: what each command uses, and what it does not");
    t.give(&[anns(1)]);
    information(t);
    registration(t);
    signature(t);
    rest(t);
    profile_numbers(t);
    results(t);
    unused_numbers(t);
}

fn refused(t: &mut Trace, command: &[u8], kind: &str, wrong: &[(&str, Change)]) {
    for (what, change) in wrong {
        let name = format!("refusal 4, {kind}{what}");
        t.run(&name, changed(command.to_vec(), *change));
    }
}

fn information(t: &mut Trace) {
    let wrong: [(&str, Change); 2] = [
        ("AAID of 8", |call| call.aaid = vec![0; 8]),
        ("metadata of 16", |call| call.metadata = vec![0; 16]),
    ];
    refused(t, &get_info(), "", &wrong);
    let unused = Call {
        key_id: vec![],
        verdict: 9,
        display: 9,
        public_key: vec![],
        nonce: vec![],
        ..of(get_info())
    };
    t.run("info uses no KeyID, verdict", unused);
}

fn registration(t: &mut Trace) {
    let wrong: [(&str, Change); 6] = [
        ("aaid 10", |call| call.aaid = vec![0; 10]),
        ("metadata 14", |call| call.metadata = vec![0; 14]),
        ("verdict 6", |call| call.verdict = 6),
        ("key 33", |call| call.key_id = vec![0; 33]),
        ("public 0", |call| call.public_key = vec![]),
        ("public 513", |call| call.public_key = vec![0; 513]),
    ];
    refused(t, &register(), "register, ", &wrong);
    let unused = Call {
        key_id: key(2),
        display: 9,
        nonce: vec![],
        ..of(register())
    };
    t.run("register uses no display, nonce", unused);
}

fn signature(t: &mut Trace) {
    let wrong: [(&str, Change); 6] = [
        ("aaid 0", |call| call.aaid = vec![]),
        ("metadata 0", |call| call.metadata = vec![]),
        ("verdict 255", |call| call.verdict = 255),
        ("display 4", |call| call.display = 4),
        ("nonce 7", |call| call.nonce = vec![0; 7]),
        ("nonce 33", |call| call.nonce = vec![0; 33]),
    ];
    refused(t, &sign(&[]), "sign, ", &wrong);
    let unused = Call {
        key_id: vec![],
        public_key: vec![],
        ..of(sign(&[handle(1)]))
    };
    t.run("sign uses no KeyID, public key", unused);
}

fn rest(t: &mut Trace) {
    let nothing = |command| Call {
        aaid: vec![],
        version: u32::MAX,
        signature_algorithm: u32::MAX,
        key_algorithm: u32::MAX,
        metadata: vec![],
        verdict: 9,
        display: 9,
        key_id: vec![],
        public_key: vec![],
        nonce: vec![],
        ..of(command)
    };
    for (name, command) in [
        ("deregister uses nothing", deregister(&key(7))),
        ("settings use nothing", settings()),
    ] {
        assert!(!t.run(name, nothing(command)).is_empty());
    }
}

/// A lent number and how it is set.
type Number = (&'static str, fn(&mut Call, u32));

const PROFILE: [Number; 3] = [
    ("version", |call, value| call.version = value),
    ("signature algorithm", |call, value| {
        call.signature_algorithm = value;
    }),
    ("key algorithm", |call, value| call.key_algorithm = value),
];
const VERDICT: Number = ("verdict", |call, value| call.verdict = value);
const DISPLAY: Number = ("display", |call, value| call.display = value);

/// Out of range for verdict and display: two whose low 8 or 16 bits are good, and the greatest.
const OUT_OF_RANGE: [u32; 3] = [256, 65_536, u32::MAX];

fn refused_with(t: &mut Trace, kind: &str, command: &[u8], (what, set): Number, value: u32) {
    let mut call = of(command.to_vec());
    set(&mut call, value);
    let name = format!("refusal 4, {kind}, {what} {value}");
    assert!(t.run(&name, call).is_empty());
}

/// 16 bits and no more, for each command that uses the profile, also where it does not write the
/// number. Each Register that is served is lent a KeyID of its own.
fn profile_numbers(t: &mut Trace) {
    for (fresh, number) in (3..).zip(PROFILE) {
        let (what, set) = number;
        for (kind, command) in [
            ("info", get_info()),
            ("register", register()),
            ("sign", sign(&[handle(1)])),
        ] {
            let mut last = of(command.clone()).key(fresh);
            set(&mut last, 65_535);
            assert!(!t.run(&format!("{kind}, {what} 65535"), last).is_empty());
            refused_with(t, kind, &command, number, 65_536);
        }
    }
}

fn results(t: &mut Trace) {
    for value in OUT_OF_RANGE {
        refused_with(t, "register", &register(), VERDICT, value);
        refused_with(t, "sign", &sign(&[handle(1)]), VERDICT, value);
        refused_with(t, "sign", &sign(&[handle(1)]), DISPLAY, value);
    }
}

fn unused_numbers(t: &mut Trace) {
    for value in OUT_OF_RANGE {
        let every = |command| Call {
            version: value,
            signature_algorithm: value,
            key_algorithm: value,
            verdict: value,
            display: value,
            ..of(command)
        };
        let informing = of(get_info()).verdict(value).display(value);
        let denied = of(register()).verdict(1).display(value);
        for (name, call) in [
            ("deregister, every number", every(deregister(&key(7)))),
            ("settings, every number", every(settings())),
            ("info, verdict and display", informing),
            ("register, denied, display", denied),
        ] {
            assert!(!t.run(&format!("{name} {value}"), call).is_empty());
        }
    }
}
