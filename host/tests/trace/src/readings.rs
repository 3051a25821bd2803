//! Read a response.

use crate::bytes::*;
use crate::call::{of, Call};
use crate::drafts::*;
use crate::make::get_info;
use crate::names::{BROKEN, JOSE};
use crate::output::Output;
use crate::script::Trace;
use uaf_peer::Answer;

pub fn readings(t: &mut Trace) {
    statuses(t);
    lists(t);
    assertions(t);
    changes(t);
    drafts(t);
}

fn status(tag: u16, code: u8) -> Vec<u8> {
    tlv(tag, &tlv(STATUS_CODE, &[code, 0]))
}

fn statuses(t: &mut Trace) {
    t.say("Read a response: every status alone");
    for command in [GETINFO, REGISTER, SIGN, DEREGISTER, OPEN_SETTINGS] {
        let tag = command + 0x0200;
        for code in 0..0x12 {
            t.read(&format!("status {tag:04X} {code:02X}"), &status(tag, code));
        }
    }
    t.read("status of 1 byte", &tlv(0x3601, &tlv(STATUS_CODE, &[8])));
    t.read("status 0108", &tlv(0x3601, &tlv(STATUS_CODE, &[8, 1])));
    t.read("a tag of no response", &status(0x3605, 8));
    t.read("a command", &get_info());
    for length in 0..4 {
        t.read(&format!("{length} bytes"), &[0x04, 0x36, 0x00][..length]);
    }
}

/// Sign's list of these pairs.
fn names(pairs: &[(&[u8], &[u8])]) -> Vec<u8> {
    let mut children = vec![tlv(STATUS_CODE, &[0; 2])];
    for (name, key_id) in pairs {
        let pair = [tlv(USERNAME, name), tlv(KEYHANDLE, key_id)];
        children.push(holding(USERNAME_AND_KEYHANDLE, &pair));
    }
    holding(0x3603, &children)
}

/// So many with the same name.
fn listed(count: u8, name: &[u8]) -> Vec<u8> {
    let key_ids: Vec<[u8; 32]> = (0..count).map(|i| [i; 32]).collect();
    let pairs: Vec<(&[u8], &[u8])> = key_ids.iter().map(|key_id| (name, &key_id[..])).collect();
    names(&pairs)
}

/// So many of which two have the same KeyID.
fn with_twins(count: u8, first: u8, second: u8) -> Vec<u8> {
    let key_id = |i| [if i == second { first } else { i }; 32];
    let key_ids: Vec<[u8; 32]> = (0..count).map(key_id).collect();
    let pairs: Vec<(&[u8], &[u8])> = key_ids.iter().map(|id| (&b"Ann"[..], &id[..])).collect();
    names(&pairs)
}

fn lists(t: &mut Trace) {
    t.say("Lists of names");
    for count in 0..10 {
        let is_read = t.read(&format!("{count} names"), &listed(count, b"Ann"));
        assert_eq!(is_read, (2..=8).contains(&count));
    }
    t.read("equal names", &listed(2, b"Bo"));
    t.read("names of 128", &listed(8, &[b'n'; 128]));
    t.read("a name of 129", &listed(2, &[b'n'; 129]));
    t.read("an empty name", &listed(2, b""));
    assert!(t.read("an accented name", &listed(2, JOSE)));
    for (what, name) in BROKEN {
        let response = names(&[(b"Ann", &key(1)), (name, &key(2))]);
        assert!(!t.read(&format!("a name, {what}"), &response));
    }
    for (i, j) in [(0, 1), (0, 2), (1, 2)] {
        t.read(&format!("KeyIDs {i} and {j} equal"), &with_twins(3, i, j));
    }
    let short = names(&[(b"Ann", &[0; 31]), (b"Bo", &[0; 32])]);
    t.read("a KeyID of 31", &short);
    for (i, j) in [(6, 7), (0, 7)] {
        let name = format!("eight names, KeyIDs {i} and {j} equal");
        t.read(&name, &with_twins(8, i, j));
    }
}

/// An attestation with a signature and certificates of these lengths.
fn attested(tag: u16, signature: usize, certificates: &[usize]) -> Vec<u8> {
    let mut children = vec![tlv(SIGNATURE, &vec![0; signature])];
    children.extend(
        certificates
            .iter()
            .map(|&length| tlv(CERT, &vec![0; length])),
    );
    holding(tag, &children)
}

fn assertions(t: &mut Trace) {
    t.say("Assertions that are well formed and that no completion writes");
    let signature = tlv(SIGNATURE, &[1]);
    for (kind, what, draft) in bad_drafts() {
        let sealed = match kind {
            0 => tlv(BASIC_SURROGATE, &signature),
            _ => signature.clone(),
        };
        let response = asserted(kind, &draft, &sealed);
        assert!(!t.read(&format!("kind {kind}, {what}"), &response));
    }
    let full = |signature, certificates: &[usize]| attested(BASIC_FULL, signature, certificates);
    for (what, sealed) in [
        ("full", full(1, &[1])),
        ("full, signature of 0", full(0, &[1])),
        ("full, signature of 513", full(513, &[1])),
        ("full, certificate of 0", full(1, &[0])),
        ("full, certificate of 2048", full(1, &[2048])),
        ("full, certificate of 2049", full(1, &[2049])),
        ("full without CERT", full(1, &[])),
        ("surrogate with CERT", attested(BASIC_SURROGATE, 1, &[1])),
        ("two certificates", full(1, &[1, 1])),
        ("no attestation", signature),
        ("another attestation", attested(0x3E09, 1, &[])),
    ] {
        let response = asserted(0, &krd(&[]), &sealed);
        t.read(&format!("assertion, {what}"), &response);
    }
    for length in [0, 1, 512, 513] {
        let sealed = tlv(SIGNATURE, &vec![0; length]);
        let name = format!("assertion, sign, signature of {length}");
        t.read(&name, &asserted(1, &signed_data(&[]), &sealed));
    }
}

/// GetInfo's response.
fn info() -> Vec<u8> {
    let call = Call {
        metadata: (1..16).collect(),
        ..of(get_info())
    };
    let (mut response, mut table) = (Output::new(4096), Output::new(6912));
    let outputs = (&mut response.0, &mut table.0);
    let served = uaf_peer::command(&call.command, &call.lent(), &[], outputs.0, outputs.1);
    match served.map(|served| served.answer) {
        Ok(Answer::Response(length)) => response.0[..length].to_vec(),
        other => panic!("{other:?} to a right GetInfo"),
    }
}

/// The places of the bytes that a response with this shape must have: headers, and values that
/// leave no choice. A status that stands alone is not among them, since the command has others.
fn fixed(response: &[u8]) -> Vec<usize> {
    let values: [&[u8]; 7] = [
        &[1],
        &[0],
        b"text/plain",
        b"UAFV1TLV",
        &[0x07, 0x3E],
        &[0x08, 0x3E],
        &[0; 8],
    ];
    let mut places = vec![];
    for Met { tag, place, length } in walk(response, 0) {
        let value = &response[place..place + length];
        places.extend(place - 4..place);
        if tag == STATUS_CODE && response.len() > 10 || values.contains(&value) {
            places.extend(place..place + length);
        }
        if tag == ASSERTION_INFO {
            places.push(place + 2);
        }
    }
    places
}

fn changes(t: &mut Trace) {
    t.say("One byte changed, in each header and fixed byte");
    for (what, response) in [
        ("info", info()),
        ("status", status(0x3604, 2)),
        ("names", listed(2, b"Ann")),
        ("full", response_of(&registration())),
        ("surrogate", response_of(&surrogate())),
        ("sign", response_of(&signing())),
        ("content", response_of(&signing_content())),
    ] {
        assert!(t.read(what, &response));
        for place in fixed(&response) {
            let name = format!("{what}, byte {place}");
            assert!(!t.read_changed(&name, &response, place, response[place] ^ 1));
        }
        let (more, less) = (
            [&response[..], &[0]].concat(),
            &response[..response.len() - 1],
        );
        t.read(&format!("{what}, a byte more"), &more);
        t.read(&format!("{what}, a byte less"), less);
        t.read(&format!("{what}, twice"), &response.repeat(2));
    }
}

fn drafts(t: &mut Trace) {
    t.say("Drafts are no responses, and a refusal is none");
    t.read("a registration draft", &krd(&[]));
    t.read("a sign draft", &signed_data(&[]));
    let mut response = response_of(&registration());
    response[0] = 0x03;
    t.read("KRD in a sign response", &response);
}
