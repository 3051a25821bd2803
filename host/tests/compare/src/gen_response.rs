//! Responses: some that can be written, and some that cannot.

use crate::gen_draft::{self, REGISTRATION, SIGN};
use crate::gen_name;
use crate::gen_table::near;
use crate::rng::Rng;
use crate::tlv::{self, Child, Kind};

/// The statuses that each command can answer alone.
pub fn alone(kind: Kind) -> &'static [u16] {
    match kind {
        Kind::GetInfo => &[0x08],
        Kind::Register => &[0x01, 0x02, 0x03, 0x05, 0x07, 0x08, 0x0E, 0x0F, 0x10],
        Kind::Sign => &[0x01, 0x02, 0x03, 0x04, 0x05, 0x08, 0x0E, 0x10],
        Kind::Deregister => &[0x00, 0x02, 0x08],
        Kind::OpenSettings => &[0x06, 0x08],
    }
}

fn status(number: u16) -> Child {
    Child::new(tlv::STATUS_CODE, number.to_le_bytes())
}

/// A response that holds a status only.
fn status_alone(tag: u16, number: u16) -> Vec<u8> {
    tlv::holding(tag, &[status(number)])
}

/// GetInfo's answer, as the children of AUTHENTICATOR_INFO.
fn info(rng: &mut Rng) -> Vec<Child> {
    vec![
        Child::new(tlv::INDEX, vec![0]),
        Child::new(tlv::AAID, rng.bytes(9)),
        Child::new(tlv::METADATA, rng.bytes(15)),
        Child::new(tlv::CONTENT_TYPE, *b"text/plain"),
        Child::new(tlv::ASSERTION_SCHEME, *b"UAFV1TLV"),
        Child::new(tlv::ATTESTATION_TYPE, tlv::BASIC_FULL.to_le_bytes()),
        Child::new(tlv::ATTESTATION_TYPE, tlv::BASIC_SURROGATE.to_le_bytes()),
    ]
}

fn info_response(version: u8, info: &[Child]) -> Vec<u8> {
    tlv::holding(
        Kind::GetInfo.response_tag(),
        &[
            status(0),
            Child::new(tlv::API_VERSION, vec![version]),
            Child::new(tlv::AUTHENTICATOR_INFO, tlv::run(info)),
        ],
    )
}

/// One name of Sign's list: its two children.
type Pair = [Child; 2];

pub fn pair(name: &[u8], key_id: &[u8; 32]) -> Pair {
    [
        Child::new(tlv::USERNAME, name),
        Child::new(tlv::KEYHANDLE, *key_id),
    ]
}

/// So many names with different KeyIDs. Names may be equal, and KeyIDs nearly so.
fn pairs(rng: &mut Rng, number: usize) -> Vec<Pair> {
    let mut key_ids: Vec<[u8; 32]> = Vec::new();
    let mut pairs: Vec<Pair> = Vec::new();
    while pairs.len() < number {
        let key_id = match key_ids.last() {
            Some(last) if rng.one_in(4) => near(rng, last),
            _ => rng.array(),
        };
        if key_ids.contains(&key_id) {
            continue;
        }
        key_ids.push(key_id);
        let name = match pairs.last() {
            Some([name, _]) if rng.one_in(4) => name.value.clone(),
            _ => gen_name::right(rng),
        };
        pairs.push(pair(&name, &key_id));
    }
    pairs
}

pub fn list_response(pairs: &[Pair]) -> Vec<u8> {
    let mut children = vec![status(0)];
    for pair in pairs {
        children.push(Child::new(tlv::USERNAME_AND_KEYHANDLE, tlv::run(pair)));
    }
    tlv::holding(Kind::Sign.response_tag(), &children)
}

/// What a completion adds to a draft.
struct Signed {
    kind: u32,
    draft: Vec<u8>,
    attestation: u16,
    /// SIGNATURE and, for full attestation, CERT.
    parts: Vec<Child>,
}

fn signed(rng: &mut Rng, kind: u32, draft: Vec<u8>) -> Signed {
    let attestation = rng.pick(&[tlv::BASIC_FULL, tlv::BASIC_SURROGATE]);
    let length = rng.length(1, 512);
    let mut parts = vec![Child::new(tlv::SIGNATURE, rng.bytes(length))];
    if kind == REGISTRATION && attestation == tlv::BASIC_FULL {
        let length = rng.length(1, 2048);
        parts.push(Child::new(tlv::CERT, rng.bytes(length)));
    }
    Signed {
        kind,
        draft,
        attestation,
        parts,
    }
}

fn signed_response(signed: &Signed) -> Vec<u8> {
    let parts = tlv::run(&signed.parts);
    let (kind, assertion, tail) = if signed.kind == REGISTRATION {
        (
            Kind::Register,
            tlv::REG_ASSERTION,
            tlv::tlv(signed.attestation, &parts),
        )
    } else {
        (Kind::Sign, tlv::AUTH_ASSERTION, parts)
    };
    let assertion = tlv::tlv(assertion, &[&signed.draft[..], &tail].concat());
    tlv::holding(
        kind.response_tag(),
        &[
            status(0),
            Child::new(tlv::AUTHENTICATOR_ASSERTION, assertion),
        ],
    )
}

/// A response that can be written.
pub fn right(rng: &mut Rng) -> Vec<u8> {
    match rng.below(6) {
        0 => {
            let kind = rng.pick(&Kind::ALL);
            status_alone(kind.response_tag(), rng.pick(alone(kind)))
        }
        1 => info_response(1, &info(rng)),
        2 => {
            let number = rng.length(2, 8);
            list_response(&pairs(rng, number))
        }
        n => {
            let kind = if n == 3 { SIGN } else { REGISTRATION };
            let draft = gen_draft::right(rng, kind);
            signed_response(&signed(rng, kind, draft))
        }
    }
}

fn wrong_status(rng: &mut Rng) -> Vec<u8> {
    let kind = rng.pick(&Kind::ALL);
    loop {
        let number = match rng.below(8) {
            0 => rng.next() as u16,
            1 => rng.pick(alone(kind)) << 8,
            _ => rng.below(0x12) as u16,
        };
        if !alone(kind).contains(&number) {
            return status_alone(kind.response_tag(), number);
        }
    }
}

/// A status under any tag but a response's, also under a command's.
fn wrong_tag(rng: &mut Rng) -> Vec<u8> {
    loop {
        let tag = match rng.below(3) {
            0 => rng.pick(&[0x3600, 0x3605, 0x3607]),
            1 => rng.pick(&Kind::ALL).response_tag() ^ 1 << rng.below(16),
            _ => rng.pick(&tlv::NAMED),
        };
        if Kind::ALL.iter().all(|kind| kind.response_tag() != tag) {
            return status_alone(tag, rng.below(0x12) as u16);
        }
    }
}

fn wrong_info(rng: &mut Rng) -> Vec<u8> {
    let mut info = info(rng);
    let i = rng.below(info.len());
    let mut version = 1;
    match rng.below(6) {
        0 => version = rng.pick(&[0, 2, 0x81]),
        1 => info[i].value.push(0),
        2 => {
            info[i].value.pop();
        }
        3 => info.swap(0, rng.between(1, 6)),
        4 => {
            let i = rng.pick(&[0, 3, 4, 5, 6]);
            let at = rng.below(info[i].value.len());
            info[i].value[at] ^= 1 << rng.below(8);
        }
        _ => {
            info.remove(i);
        }
    }
    info_response(version, &info)
}

fn wrong_list(rng: &mut Rng) -> (Vec<u8>, &'static str) {
    if rng.one_in(3) {
        let number = rng.pick(&[0, 1, 1, 9, 9, 10]);
        return (
            list_response(&pairs(rng, number)),
            "response: list of 0, 1 or over 8",
        );
    }
    let number = rng.length(2, 8);
    let mut pairs = pairs(rng, number);
    let i = rng.below(number);
    let what = match rng.below(6) {
        0 | 1 => {
            let other = (i + rng.between(1, number - 1)) % number;
            pairs[i][1] = pairs[other][1].clone();
            "response: KeyID twice in a list"
        }
        2 => {
            let length = rng.wrong_length(1, 128);
            pairs[i][0].value = gen_name::of_length(rng, length);
            "response: name's length"
        }
        3 => {
            pairs[i][0].value = gen_name::broken(rng);
            "response: name not UTF-8"
        }
        4 => {
            let length = rng.wrong_length(32, 32);
            pairs[i][1].value = rng.bytes(length);
            "response: KeyID's length"
        }
        _ => {
            pairs[i].swap(0, 1);
            "response: pair's order"
        }
    };
    (list_response(&pairs), what)
}

fn wrong_signed(rng: &mut Rng) -> (Vec<u8>, &'static str) {
    let kind = rng.pick(&[REGISTRATION, REGISTRATION, SIGN]);
    if rng.one_in(2) {
        let (draft, _) = gen_draft::spoiled(rng, kind);
        let signed = signed(rng, kind, draft);
        return (signed_response(&signed), "response: no draft in it");
    }
    let draft = gen_draft::right(rng, kind);
    let mut signed = signed(rng, kind, draft);
    let what = match rng.below(5) {
        0 => {
            let length = rng.wrong_length(1, 512);
            signed.parts[0].value = rng.bytes(length);
            "response: signature's length"
        }
        1 if signed.parts.len() == 2 => {
            let length = rng.wrong_length(1, 2048);
            signed.parts[1].value = rng.bytes(length);
            "response: certificate's length"
        }
        2 if signed.parts.len() == 2 => {
            signed.parts.swap(0, 1);
            "response: certificate first"
        }
        3 if kind == REGISTRATION => {
            signed.attestation = if rng.one_in(2) {
                // The other type, with a certificate too many or too few.
                tlv::BASIC_FULL + tlv::BASIC_SURROGATE - signed.attestation
            } else {
                signed.attestation ^ 0x0010 << rng.below(12)
            };
            "response: attestation tag"
        }
        _ => {
            signed.parts.push(Child::new(tlv::CERT, vec![1]));
            if signed.parts.len() == 2 && kind == REGISTRATION {
                // Surrogate with one certificate; full would be right with it.
                signed.attestation = tlv::BASIC_SURROGATE;
            }
            "response: certificate too many"
        }
    };
    (signed_response(&signed), what)
}

fn wrong_ends(rng: &mut Rng) -> (Vec<u8>, &'static str) {
    let mut response = right(rng);
    match rng.below(4) {
        0 => {
            let cut = rng.length(1, response.len());
            response.truncate(response.len() - cut);
            (response, "response: cut short")
        }
        1 => {
            let more = rng.between(1, 4);
            response.extend(rng.bytes(more));
            (response, "response: bytes after")
        }
        2 => {
            tlv::put(&mut response, rng.pick(&[0x0FFF, tlv::CERT]), &[]);
            tlv::add_to_length(&mut response, 0, 4);
            (response, "response: child too many")
        }
        _ => {
            let amount = rng.pick(&[-1, 1, 4]);
            tlv::add_to_length(&mut response, 0, amount);
            (response, "response: length")
        }
    }
}

/// Bytes that no command and no completion writes, and why.
pub fn spoiled(rng: &mut Rng) -> (Vec<u8>, &'static str) {
    match rng.below(7) {
        0 => (wrong_status(rng), "response: status not the command's"),
        1 => (wrong_tag(rng), "response: tag"),
        2 => (wrong_info(rng), "response: GetInfo's"),
        3 => wrong_list(rng),
        4 => {
            let kind = rng.pick(&[REGISTRATION, SIGN]);
            (gen_draft::right(rng, kind), "response: draft alone")
        }
        5 => wrong_signed(rng),
        _ => wrong_ends(rng),
    }
}
