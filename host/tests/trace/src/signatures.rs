//! Sign: a tie, then the choice; repeated handles; content; the last count.

use crate::bytes::*;
use crate::call::{of, Call};
use crate::make::*;
use crate::script::Trace;
use uaf_peer::hash;

pub fn signatures(t: &mut Trace) {
    t.say("Sign: a tie, then the choice; repeated handles; content; the last count");
    t.give(&[
        anns(1),
        record(9, &BO, b"Bob", 0),
        record(2, &ANN, b"Bo", 41),
        record(3, &ANN, b"Cy", u32::MAX - 1),
    ]);
    ties(t);
    choices(t);
    contents(t);
    last_counts(t);
    fields(t);
    let names = (0..8).map(|number| record(number, &ANN, &[b'x'; 128], 0));
    t.give(&names.collect::<Vec<_>>());
    t.run("sign, a tie of eight of the longest names", of(sign(&[])));
}

fn stakes() -> Vec<u8> {
    content(b"10 on No 4")
}

/// A Sign with content and one handle.
fn sign_stakes(number: u8) -> Call {
    of(sign(&[stakes(), handle(number)]))
}

fn ties(t: &mut Trace) {
    let invalid = of(sign(&[index()]));
    t.run("sign, 0x08 before the verdict", invalid.verdict(1));
    for verdict in 1..6 {
        let call = of(sign(&[handle(1)])).verdict(verdict);
        t.run(&format!("sign, verdict {verdict}"), call);
    }
    t.run("sign, a tie", of(sign(&[])).dumped());
    let cancelled = of(sign(&[stakes()])).display(1);
    t.run("sign, the display is not asked in a tie", cancelled);
    let two = of(sign(&[handle(3), handle(1)]));
    t.run("sign, a tie of two handles", two);
}

fn choices(t: &mut Trace) {
    t.run("sign, the choice", of(sign(&[handle(1)])).dumped());
    for (name, handles) in [
        ("once more", vec![handle(1)]),
        ("a repeated handle", vec![handle(2); 2]),
        ("eight equal handles", vec![handle(2); 8]),
        ("nine equal handles", vec![handle(2); 9]),
        ("a handle and an unknown one", vec![handle(7), handle(2)]),
        ("an unknown handle", vec![handle(7)]),
        ("a stranger's handle", vec![handle(9)]),
    ] {
        t.run(&format!("sign, {name}"), of(sign(&handles)));
    }
    t.run("sign, nobody's mixed token", of(sign(&[])).by(CY));
    let only = of(sign(&[])).by(BO);
    t.run("sign, one own record without a handle", only);
}

fn contents(t: &mut Trace) {
    hashed(t);
    for display in 1..4 {
        let name = format!("sign, content, display {display}");
        t.run(&name, sign_stakes(2).display(display));
    }
    t.run("sign, content confirmed", sign_stakes(2).dumped());
    let empty = of(sign(&[content(b""), handle(2)])).display(2);
    t.run("sign, empty content whatever the display", empty);
    let none = of(sign(&[handle(2)])).display(3);
    t.run("sign, no content whatever the display", none);
}

/// The hash in the draft is that of the content, of lengths about the ends of blocks and of the
/// greatest that a Sign with one handle has.
fn hashed(t: &mut Trace) {
    for length in [1, 55, 56, 63, 64, 65, 119, 120, 8102] {
        let bytes: Vec<u8> = (0..length).map(|i| (i % 251) as u8).collect();
        let call = of(sign(&[content(&bytes), handle(2)]));
        let draft = t.run(&format!("sign, content of {length}"), call);
        let field = tlv(CONTENT_HASH, &hash(&bytes, b""));
        assert!(draft.windows(field.len()).any(|bytes| bytes == field));
    }
}

fn last_counts(t: &mut Trace) {
    let last = || of(sign(&[handle(3)]));
    t.run("sign, to the last count", last().dumped());
    t.run("sign, at the last count", last());
    let cancelled = sign_stakes(3).display(1);
    t.run("sign, the display before the last count", cancelled);
    t.run("sign, content at the last count", sign_stakes(3));
}

fn fields(t: &mut Trace) {
    let long = tlv(CHALLENGE, &(0..32).collect::<Vec<u8>>());
    let nonce = |length, command| Call {
        nonce: vec![0; length],
        ..of(command)
    };
    let call = nonce(8, sign_by(long, &[handle(1)]));
    t.run("sign, nonce of 8, challenge of 32", call);
    t.run("sign, nonce of 32", nonce(32, sign(&[handle(1)])));
    for (name, child) in [
        ("content hash not listed", tlv(CONTENT_HASH, &[0; 32])),
        ("username not listed", username(b"Ann")),
        ("access token twice", access_token()),
        ("handle of 31", tlv(KEYHANDLE, &[0; 31])),
        ("handle of 33", tlv(KEYHANDLE, &[0; 33])),
    ] {
        t.run(&format!("sign, {name}"), of(sign(&[child])));
    }
    for length in [0, 1, 31, 33] {
        let given = [index(), challenge(), token(&vec![0xA0; length])];
        let call = of(holding(SIGN, &given)).verdict(1);
        t.run(&format!("sign, access token of {length}"), call);
    }
}
