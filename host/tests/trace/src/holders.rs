//! Whose call it is: the hash of access token and AppID, which the token works out itself.

use crate::bytes::*;
use crate::call::{of, Call};
use crate::make::*;
use crate::script::Trace;
use uaf_peer::hash;

const SHOP: &[u8] = b"https://tote.example";
const OTHER: &[u8] = b"https://tote.example/";
const MOVED: &[u8] = b"ttps://tote.example";

/// What a Sign writes into its draft or says instead: the KeyID's number, or a status.
#[derive(PartialEq, Eq, Debug)]
enum Signed {
    With(u8),
    Not(u8),
}

/// A Sign with this token and, if one is given, this AppID.
fn sign_as(access_token: &[u8], given: Option<&[u8]>) -> Call {
    let mut children = vec![index(), challenge(), token(access_token)];
    children.extend(given.map(app_id));
    of(holding(SIGN, &children))
}

fn signed(t: &mut Trace, name: &str, call: Call, right: Signed) {
    let answer = t.run(name, call);
    let found = if answer.len() == 10 {
        Signed::Not(answer[8])
    } else {
        // A KeyID begins with its number; after it comes a counter of 8 bytes with its header.
        Signed::With(answer[answer.len() - 40])
    };
    assert_eq!(found, right, "{name}");
}

pub fn holders(t: &mut Trace) {
    t.say(
        "Holders: access token and AppID, run together and hashed; a missing AppID adds no bytes",
    );
    found(t);
    not_found(t);
    same_bytes(t);
    apart(t);
}

/// A holder: what it shows, its token, its AppID.
type Named<'a> = (&'a str, [u8; 32], Option<&'a [u8]>);

/// A record of each of these is found by its own commands, and by no others.
fn found(t: &mut Trace) {
    let long = vec![b'z'; 512];
    let all: [Named; 6] = [
        ("no AppID", ANN, None),
        ("an AppID", ANN, Some(SHOP)),
        ("another AppID", ANN, Some(OTHER)),
        ("another token", BO, Some(SHOP)),
        ("an AppID of 1", ANN, Some(b"h")),
        ("an AppID of 512", ANN, Some(&long)),
    ];
    let record = |(number, (_, token, app_id)): (u8, &Named)| {
        let mixed = hash(token, app_id.unwrap_or(b""));
        stored(number, &mixed, b"Ann", 0)
    };
    t.give(&(1..).zip(&all).map(record).collect::<Vec<_>>());
    for (number, (what, token, app_id)) in (1..).zip(&all) {
        let name = format!("holder, {what}");
        signed(t, &name, sign_as(token, *app_id), Signed::With(number));
    }
    let none = sign_as(&BO, None);
    signed(t, "holder, a token without records", none, Signed::Not(2));
    let handles = [index(), challenge(), access_token(), handle(2)];
    let call = of(holding(SIGN, &handles));
    signed(
        t,
        "holder, the handle of another AppID",
        call,
        Signed::Not(2),
    );
}

/// Hashes of nearly the same bytes are nobody's of these.
fn not_found(t: &mut Trace) {
    let flipped = {
        let mut mixed = hash(&ANN, SHOP);
        mixed[31] ^= 1;
        mixed
    };
    let near = [
        ("AppID before the token", hash(SHOP, &ANN)),
        ("AppID less its first byte", hash(&ANN, MOVED)),
        ("one bit of the hash", flipped),
        ("the token itself", ANN),
        ("the hash of the hash", hash(&hash(&ANN, SHOP), b"")),
    ];
    for (what, mixed) in near {
        t.give(&[stored(1, &mixed, b"Ann", 0)]);
        let name = format!("holder, nearly, {what}");
        signed(t, &name, sign_as(&ANN, Some(SHOP)), Signed::Not(2));
    }
}

/// The same bytes in all, but a token of 31 or 33 of them.
fn same_bytes(t: &mut Trace) {
    let whole = [&ANN[..], SHOP].concat();
    t.give(&[stored(1, &hash(&whole, b""), b"Ann", 0)]);
    for (length, right) in [
        (31, Signed::Not(8)),
        (33, Signed::Not(8)),
        (32, Signed::With(1)),
    ] {
        let (token, app_id) = whole.split_at(length);
        let name = format!("holder, the same bytes, {length} of them the token");
        signed(t, &name, sign_as(token, Some(app_id)), right);
    }
}

/// One token with two AppIDs is two holders.
fn apart(t: &mut Trace) {
    t.give(&[]);
    let register = |number, given: &[u8]| of(register_with(app_id(given))).key(number);
    let remove = |given: &[u8]| {
        let children = [index(), app_id(given), tlv(KEYID, b""), access_token()];
        of(holding(DEREGISTER, &children)).dumped()
    };
    t.run("holder, register", register(1, SHOP));
    t.run(
        "holder, register with another AppID",
        register(2, OTHER).dumped(),
    );
    t.run(
        "holder, register without an AppID",
        of(register_named(b"Ann")).key(3),
    );
    t.run("holder, remove all with an AppID", remove(SHOP));
    t.run("holder, remove all with it again", remove(SHOP));
    t.run(
        "holder, remove all without an AppID",
        of(deregister(b"")).dumped(),
    );
    t.run("holder, remove all with the other AppID", remove(OTHER));
}
