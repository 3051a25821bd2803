//! Names: UTF-8 by RFC 3629, and no other bytes.

use crate::bytes::*;
use crate::call::of;
use crate::make::*;
use crate::script::Trace;

pub const JOSE: &[u8] = b"Jos\xC3\xA9";
const CUT: &[u8] = b"Jos\xC3";

/// What is wrong with a name, and its bytes.
pub const BROKEN: [(&str, &[u8]); 5] = [
    ("cut inside a letter", CUT),
    ("a tail alone", b"\x80"),
    ("longer than its letter needs", b"\xC0\x80"),
    ("a surrogate", b"\xED\xA0\x80"),
    ("past U+10FFFF", b"\xF4\x90\x80\x80"),
];

/// The first broken name is verified, so that only its bytes are against it; of the others 0x08
/// comes before the verdict.
pub fn names(t: &mut Trace) {
    t.say("Names that are UTF-8, and names that are not");
    t.give(&[anns(1)]);
    let jose = of(register_named(JOSE)).key(2);
    t.run("register, an accented name", jose.dumped());
    for (verdict, (what, name)) in (0..).zip(BROKEN) {
        let call = of(register_named(name)).key(3).verdict(verdict);
        t.run(&format!("register, a name, {what}"), call);
    }
    t.run("sign, an accented name in the list", of(sign(&[])));
    t.give(&[anns(1), record(2, &ANN, CUT, 0)]);
    t.run("refusal 2, a name, cut inside a letter", of(sign(&[])));
}
