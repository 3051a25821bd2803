//! Drafts, and responses around them, right and wrong.

use crate::bytes::*;
use crate::call::Completion;
use crate::output::Output;
use crate::script::completed;

pub const PROFILE: &[u8; 9] = b"4A4F#0001";
pub const HASH: [u8; 32] = [0xCC; 32];

/// A value to be put in place of the usual one of the child with that tag.
type Changes<'a> = [(u16, &'a [u8])];

fn changed(tag: u16, usual: &[(u16, &[u8])], changes: &Changes) -> Vec<u8> {
    let child = |&(tag, value): &(u16, &[u8])| {
        let other = changes.iter().find(|change| change.0 == tag);
        tlv(tag, other.map_or(value, |change| change.1))
    };
    holding(tag, &usual.iter().map(child).collect::<Vec<_>>())
}

pub fn krd(changes: &Changes) -> Vec<u8> {
    let usual: [(u16, &[u8]); 6] = [
        (AAID, PROFILE),
        (ASSERTION_INFO, &[0x02, 0x01, 0x01, 0x04, 0x03, 0x06, 0x05]),
        (CHALLENGE, &[0xAA; 20]),
        (KEYID, &[0x11; 32]),
        (COUNTERS, &[0; 8]),
        (PUB_KEY, &[0x04; 65]),
    ];
    changed(KRD, &usual, changes)
}

pub fn signed_data(changes: &Changes) -> Vec<u8> {
    let usual: [(u16, &[u8]); 7] = [
        (AAID, PROFILE),
        (ASSERTION_INFO, &mode(1)),
        (NONCE, &[0x88; 8]),
        (CHALLENGE, &[0xBB]),
        (CONTENT_HASH, &[]),
        (KEYID, &[0x22; 32]),
        (COUNTERS, &[1, 0, 0, 0]),
    ];
    changed(SIGNED_DATA, &usual, changes)
}

/// The info of a SIGNED_DATA with this mode.
pub fn mode(mode: u8) -> [u8; 5] {
    [0x02, 0x01, mode, 0, 0]
}

/// A right completion of each shape.
pub fn registration() -> Completion {
    Completion {
        kind: 0,
        draft: krd(&[]),
        attestation: BASIC_FULL.into(),
        signature: vec![0x5A; 64],
        certificate: vec![0x30; 40],
        response_size: 4096,
    }
}

pub fn surrogate() -> Completion {
    Completion {
        attestation: BASIC_SURROGATE.into(),
        certificate: vec![],
        ..registration()
    }
}

pub fn signing() -> Completion {
    Completion {
        kind: 1,
        draft: signed_data(&[]),
        certificate: vec![],
        ..registration()
    }
}

pub fn signing_content() -> Completion {
    Completion {
        draft: signed_data(&[(ASSERTION_INFO, &mode(2)), (CONTENT_HASH, &HASH)]),
        ..signing()
    }
}

/// The usual completion of a draft of this kind.
pub fn of_kind(kind: u32, draft: Vec<u8>) -> Completion {
    let usual = if kind == 0 { registration() } else { signing() };
    Completion { draft, ..usual }
}

/// The response that a right completion makes.
pub fn response_of(completion: &Completion) -> Vec<u8> {
    let mut response = Output::new(completion.response_size);
    let length = completed(completion, &mut response).expect("a right completion");
    response.0.truncate(length);
    response.0
}

/// A draft that no command writes: the kind that it is offered for, what is wrong with it, its
/// bytes.
pub type Bad = (u32, &'static str, Vec<u8>);

pub fn bad_drafts() -> Vec<Bad> {
    [bad_signed_data(), bad_around_it(), bad_krd()].concat()
}

fn bad_signed_data() -> Vec<Bad> {
    let with_hash = |hash, number| {
        let info = mode(number);
        signed_data(&[(ASSERTION_INFO, &info), (CONTENT_HASH, hash)])
    };
    let with = |tag, value: &[u8]| signed_data(&[(tag, value)]);
    vec![
        (1, "a count of 0", with(COUNTERS, &[0; 4])),
        (1, "mode 2 with an empty hash", with_hash(&[], 2)),
        (1, "mode 1 with a hash", with_hash(&HASH, 1)),
        (1, "mode 0", with_hash(&[], 0)),
        (1, "mode 3", with_hash(&HASH, 3)),
        (1, "a hash of 31", with_hash(&HASH[1..], 2)),
        (1, "a nonce of 7", with(NONCE, &[0; 7])),
        (1, "a nonce of 33", with(NONCE, &[0; 33])),
        (
            1,
            "an info of 7",
            with(ASSERTION_INFO, &[2, 1, 1, 0, 0, 0, 0]),
        ),
        (1, "a challenge of 0", with(CHALLENGE, &[])),
        (1, "a KeyID of 31", with(KEYID, &[0; 31])),
        (1, "an AAID of 10", with(AAID, &[0; 10])),
    ]
}

/// Right children, but not exactly one SIGNED_DATA of them.
fn bad_around_it() -> Vec<Bad> {
    let good = signed_data(&[]);
    let followed = |by: &[u8]| [&good, by].concat();
    vec![
        (1, "a byte after it", followed(&[0])),
        (1, "a TLV after it", followed(&tlv(SKIPPED, b""))),
        (1, "a byte too few", good[..good.len() - 1].to_vec()),
        (1, "two of them", followed(&good)),
        (1, "nothing", vec![]),
        (1, "KRD", krd(&[])),
        (1, "its value alone", good[4..].to_vec()),
    ]
}

fn bad_krd() -> Vec<Bad> {
    let good = krd(&[]);
    let with = |tag, value: &[u8]| krd(&[(tag, value)]);
    vec![
        (
            0,
            "a SignCounter of 1",
            with(COUNTERS, &[1, 0, 0, 0, 0, 0, 0, 0]),
        ),
        (
            0,
            "a RegCounter of 1",
            with(COUNTERS, &[0, 0, 0, 0, 1, 0, 0, 0]),
        ),
        (0, "counters of 4", with(COUNTERS, &[0; 4])),
        (0, "mode 2", with(ASSERTION_INFO, &[0, 0, 2, 0, 0, 0, 0])),
        (0, "an info of 5", with(ASSERTION_INFO, &[0, 0, 1, 0, 0])),
        (0, "a challenge of 33", with(CHALLENGE, &[0; 33])),
        (0, "a KeyID of 31", with(KEYID, &[0; 31])),
        (0, "a KeyID of 33", with(KEYID, &[0; 33])),
        (0, "no public key", with(PUB_KEY, &[])),
        (0, "a public key of 513", with(PUB_KEY, &[0; 513])),
        (0, "an AAID of 8", with(AAID, &[0; 8])),
        (0, "a byte after it", [&good[..], &[0]].concat()),
        (0, "SIGNED_DATA", signed_data(&[])),
        (0, "a byte too few", good[..good.len() - 1].to_vec()),
        (0, "three bytes", good[..3].to_vec()),
    ]
}

/// A response around this assertion, whether or not a completion could write it.
pub fn asserted(kind: u32, draft: &[u8], sealed: &[u8]) -> Vec<u8> {
    let (command, assertion) = match kind {
        0 => (REGISTER, REG_ASSERTION),
        _ => (SIGN, AUTH_ASSERTION),
    };
    let assertion = tlv(assertion, &[draft, sealed].concat());
    let ok = tlv(STATUS_CODE, &[0; 2]);
    holding(
        command + 0x0200,
        &[ok, tlv(AUTHENTICATOR_ASSERTION, &assertion)],
    )
}
