//! What the tests share: an encoder of their own, and calls whose outputs are watched.

// Each test file uses some of these.
#![allow(dead_code)]

use uaf_peer::{command, Answer, Lent, Profile, Refusal};

pub const AAID: &[u8; 9] = b"4E8A#0001";
pub const METADATA: &[u8; 15] = &[1, 2, 3, 4, 5, 6, 7, 8, 9, 10, 11, 12, 13, 14, 15];
/// The holder's access token is 32 of these bytes, and two strangers' are 32 of those.
pub const OWN: u8 = 0xA0;
pub const OTHER: u8 = 0xB0;
pub const THIRD: u8 = 0xB1;

pub const GETINFO: u16 = 0x3401;
pub const REGISTER: u16 = 0x3402;
pub const SIGN: u16 = 0x3403;
pub const DEREGISTER: u16 = 0x3404;
pub const OPEN_SETTINGS: u16 = 0x3406;

/// Results that every command accepts: verified, confirmed.
pub fn lent() -> Lent<'static> {
    Lent {
        profile: Profile {
            aaid: AAID,
            version: 0x1211,
            signature_algorithm: 0x1413,
            key_algorithm: 0x1615,
            metadata: METADATA,
        },
        verdict: 0,
        display: 0,
        key_id: &[0xC0; 32],
        public_key: b"PUB",
        nonce: b"noncenon",
    }
}

/// The mixed token of a holder who gives no AppID, as Python's `hashlib` tells it. One who gives no
/// command needs none, and any bytes stand for it.
pub fn mixed(holder: u8) -> [u8; 32] {
    match holder {
        OWN => digest("545e9f3eaf2ba2883101637f4db862733ecedb93ed30a402688873edf3c256f6"),
        OTHER => digest("a8ce11a1a4bb9bcba783d9ab4791defe480b0fdbfb256ac88fd80abd21992177"),
        THIRD => digest("3112fa1d1185697e9239f5dc13df9d188d6a18eb4c1c578c88479b44d8a31466"),
        holder => [holder; 32],
    }
}

/// The hash of `pay`, the tests' content, as Python's `hashlib` tells it.
pub fn hash_of_pay() -> [u8; 32] {
    digest("9350872d712a127c494d7dc35e46b0bc9e62e288239708e581dfc3a1400154a4")
}

/// A hash as such programs print it.
pub fn digest(text: &str) -> [u8; 32] {
    let pair = |place: usize| u8::from_str_radix(&text[2 * place..2 * place + 2], 16).unwrap();
    assert_eq!(text.len(), 64);
    let bytes: Vec<u8> = (0..32).map(pair).collect();
    bytes.try_into().unwrap()
}

pub fn tlv(tag: u16, value: &[u8]) -> Vec<u8> {
    let mut bytes = tag.to_le_bytes().to_vec();
    bytes.extend((value.len() as u16).to_le_bytes());
    bytes.extend(value);
    bytes
}

/// A composite of these parts.
pub fn composite<P: AsRef<[u8]>>(tag: u16, parts: &[P]) -> Vec<u8> {
    tlv(tag, &join(parts))
}

pub fn join<P: AsRef<[u8]>>(parts: &[P]) -> Vec<u8> {
    parts
        .iter()
        .flat_map(|part| part.as_ref().to_vec())
        .collect()
}

/// Bytes written as the paper writes them.
pub fn hex(text: &str) -> Vec<u8> {
    text.split_whitespace()
        .map(|pair| u8::from_str_radix(pair, 16).unwrap())
        .collect()
}

/// A holder's record.
pub fn record(key_id: u8, holder: u8, name: &[u8], counter: u32) -> Vec<u8> {
    composite(
        0x3802,
        &[
            tlv(0x2E09, &[key_id; 32]),
            tlv(0x2805, &mixed(holder)),
            tlv(0x2806, name),
            tlv(0x2E0D, &counter.to_le_bytes()),
        ],
    )
}

/// A response that holds STATUS_CODE only.
pub fn status(command: u16, status: u8) -> Vec<u8> {
    composite(command + 0x0200, &[tlv(0x2808, &[status, 0])])
}

pub fn index() -> Vec<u8> {
    tlv(0x280D, &[0])
}

pub fn challenge() -> Vec<u8> {
    tlv(0x2E0A, &[0xAA])
}

/// The holder's access token.
pub fn access() -> Vec<u8> {
    tlv(0x2805, &[OWN; 32])
}

/// A command of the holder, given by another: with that one's access token, if it has one.
pub fn by(holder: u8, mut command: Vec<u8>) -> Vec<u8> {
    let own = access();
    let place = command.windows(own.len()).position(|part| part == own);
    if let Some(place) = place {
        command[place + 4..place + own.len()].fill(holder);
    }
    command
}

/// A command with an AppID besides its other children, if it lists one.
pub fn at(app_id: &[u8], command: Vec<u8>) -> Vec<u8> {
    let tag = u16::from_le_bytes([command[0], command[1]]);
    if ![REGISTER, SIGN, DEREGISTER].contains(&tag) {
        return command;
    }
    composite(tag, &[&command[4..], &tlv(0x2804, app_id)])
}

/// The mandatory children of a command.
pub fn mandatory(command: u16) -> Vec<Vec<u8>> {
    match command {
        REGISTER => vec![
            index(),
            challenge(),
            tlv(0x2806, b"Ann"),
            tlv(0x2807, &[0x07, 0x3E]),
            access(),
        ],
        SIGN => vec![index(), challenge(), access()],
        DEREGISTER => vec![index(), tlv(0x2E09, &[]), access()],
        OPEN_SETTINGS => vec![index()],
        _ => vec![],
    }
}

/// A command of its mandatory children and some more.
pub fn with(command: u16, more: &[Vec<u8>]) -> Vec<u8> {
    let mut children = mandatory(command);
    children.extend_from_slice(more);
    composite(command, &children)
}

pub fn handle(key_id: u8) -> Vec<u8> {
    tlv(0x2801, &[key_id; 32])
}

pub fn content(content: &[u8]) -> Vec<u8> {
    tlv(0x2810, content)
}

/// A Deregister of one KeyID.
pub fn deregister(key_id: u8) -> Vec<u8> {
    composite(DEREGISTER, &[index(), tlv(0x2E09, &[key_id; 32]), access()])
}

#[derive(Clone, PartialEq, Eq, Debug)]
pub enum Got {
    Response(Vec<u8>),
    Draft(Vec<u8>),
}

/// Calls with outputs of these lengths, and sees that nothing is changed by a refusal, nor beyond
/// the lengths written.
pub fn call(
    bytes: &[u8],
    lent: &Lent,
    table: &[u8],
    fill: u8,
    sizes: (usize, usize),
) -> Result<(Got, Vec<u8>), Refusal> {
    let mut response = vec![fill; sizes.0];
    let mut table_out = vec![fill; sizes.1];
    let served = command(bytes, lent, table, &mut response, &mut table_out);
    let (written, table_written) = match served {
        Err(_) => (0, 0),
        Ok(served) => match served.answer {
            Answer::Response(length) | Answer::Draft(length) => (length, served.table_length),
        },
    };
    assert!(response[written..].iter().all(|&byte| byte == fill));
    assert!(table_out[table_written..].iter().all(|&byte| byte == fill));
    response.truncate(written);
    table_out.truncate(table_written);
    served.map(|served| match served.answer {
        Answer::Response(_) => (Got::Response(response), table_out),
        Answer::Draft(_) => (Got::Draft(response), table_out),
    })
}

/// Calls with outputs of the least lengths, and again with other and longer ones.
pub fn run(bytes: &[u8], lent: &Lent, table: &[u8]) -> Result<(Got, Vec<u8>), Refusal> {
    let got = call(bytes, lent, table, 0xEE, (4096, 6912));
    assert_eq!(got, call(bytes, lent, table, 0x11, (5000, 7000)));
    got
}

/// A call that answers with a status alone and leaves the table as it was.
#[track_caller]
pub fn gives_status(bytes: &[u8], lent: &Lent, table: &[u8], code: u8) {
    let tag = u16::from_le_bytes([bytes[0], bytes[1]]);
    let expected = (Got::Response(status(tag, code)), table.to_vec());
    assert_eq!(run(bytes, lent, table), Ok(expected));
}

/// A call that answers with a draft; gives it and the table left.
#[track_caller]
pub fn gives_draft(bytes: &[u8], lent: &Lent, table: &[u8]) -> (Vec<u8>, Vec<u8>) {
    match run(bytes, lent, table) {
        Ok((Got::Draft(draft), left)) => (draft, left),
        other => panic!("no draft: {:?}", other),
    }
}

/// What the KRD of `lent` holds.
pub fn krd_parts(lent: &Lent, challenge: &[u8]) -> Vec<Vec<u8>> {
    vec![
        tlv(0x2E0B, lent.profile.aaid),
        tlv(0x2E0E, &[0x11, 0x12, 0x01, 0x13, 0x14, 0x15, 0x16]),
        tlv(0x2E0A, challenge),
        tlv(0x2E09, lent.key_id),
        tlv(0x2E0D, &[0; 8]),
        tlv(0x2E0C, lent.public_key),
    ]
}

pub fn krd(lent: &Lent, challenge: &[u8]) -> Vec<u8> {
    composite(0x3E03, &krd_parts(lent, challenge))
}

/// What the SIGNED_DATA of `lent` holds, with the challenge and the content of the tests.
pub fn signed_parts(lent: &Lent, key_id: u8, counter: u32, with_content: bool) -> Vec<Vec<u8>> {
    let (mode, hash) = if with_content {
        (2, hash_of_pay().to_vec())
    } else {
        (1, vec![])
    };
    vec![
        tlv(0x2E0B, lent.profile.aaid),
        tlv(0x2E0E, &[0x11, 0x12, mode, 0x13, 0x14]),
        tlv(0x2E0F, lent.nonce),
        challenge(),
        tlv(0x2E10, &hash),
        tlv(0x2E09, &[key_id; 32]),
        tlv(0x2E0D, &counter.to_le_bytes()),
    ]
}

pub fn signed_data(lent: &Lent, key_id: u8, counter: u32, with_content: bool) -> Vec<u8> {
    composite(0x3E04, &signed_parts(lent, key_id, counter, with_content))
}

/// The response that an assertion makes.
pub fn asserted<P: AsRef<[u8]>>(command: u16, assertion: u16, parts: &[P]) -> Vec<u8> {
    composite(
        command + 0x0200,
        &[
            tlv(0x2808, &[0, 0]),
            tlv(0x280F, &composite(assertion, parts)),
        ],
    )
}

pub fn registered(krd: &[u8], signature: &[u8], certificate: &[u8]) -> Vec<u8> {
    let signature = tlv(0x2E06, signature);
    let attestation = if certificate.is_empty() {
        tlv(0x3E08, &signature)
    } else {
        composite(0x3E07, &[signature, tlv(0x2E05, certificate)])
    };
    asserted(REGISTER, 0x3E01, &[krd, &attestation])
}

pub fn authenticated(signed_data: &[u8], signature: &[u8]) -> Vec<u8> {
    asserted(SIGN, 0x3E02, &[signed_data, &tlv(0x2E06, signature)])
}
