//! Bytes damaged on the way: what becomes of them is for the two implementations to agree on.

use crate::rng::Rng;
use crate::tlv::{self, Child, Kind, COMPOSITE};

/// The places of the TLVs found by a walk that goes into whatever could hold some, and that gives up
/// where nothing fits.
fn headers(bytes: &[u8], from: usize, to: usize, found: &mut Vec<usize>) {
    let mut place = from;
    while place + 4 <= to {
        let tag = u16::from_le_bytes([bytes[place], bytes[place + 1]]);
        let length = usize::from(u16::from_le_bytes([bytes[place + 2], bytes[place + 3]]));
        let end = place + 4 + length;
        found.push(place);
        if end > to {
            return;
        }
        if tag & COMPOSITE != 0 || tag == tlv::AUTHENTICATOR_ASSERTION {
            headers(bytes, place + 4, end, found);
        }
        place = end;
    }
}

fn some_header(rng: &mut Rng, bytes: &[u8]) -> Option<usize> {
    let mut found = Vec::new();
    headers(bytes, 0, bytes.len(), &mut found);
    if found.is_empty() {
        return None;
    }
    Some(rng.pick(&found))
}

fn edit_length(rng: &mut Rng, bytes: &mut [u8]) {
    if let Some(place) = some_header(rng, bytes) {
        let amount = rng.pick(&[-4, -2, -1, 1, 2, 4, 256, -256, 0x7FFF]);
        tlv::add_to_length(bytes, place, amount);
    }
}

fn edit_tag(rng: &mut Rng, bytes: &mut [u8]) {
    if let Some(place) = some_header(rng, bytes) {
        let tag = if rng.one_in(2) {
            rng.pick(&tlv::NAMED)
        } else {
            u16::from_le_bytes([bytes[place], bytes[place + 1]]) ^ 1 << rng.below(16)
        };
        bytes[place..place + 2].copy_from_slice(&tag.to_le_bytes());
    }
}

/// A range of the bytes, mostly short.
fn range(rng: &mut Rng, bytes: &[u8]) -> core::ops::Range<usize> {
    let start = rng.below(bytes.len() + 1);
    let most = bytes.len() - start;
    let length = if rng.one_in(2) {
        rng.below(most.min(8) + 1)
    } else {
        rng.below(most + 1)
    };
    start..start + length
}

/// Makes the outer length right again, so that damage inside is looked at.
fn mend_outer(bytes: &mut [u8]) {
    if bytes.len() >= 4 && bytes.len() <= 4 + usize::from(u16::MAX) {
        let length = (bytes.len() - 4) as u16;
        bytes[2..4].copy_from_slice(&length.to_le_bytes());
    }
}

fn damage_once(rng: &mut Rng, bytes: &mut Vec<u8>, other: &[u8]) {
    match rng.below(9) {
        0 | 1 if !bytes.is_empty() => {
            let at = rng.below(bytes.len());
            bytes[at] ^= 1 << rng.below(8);
        }
        2 if !bytes.is_empty() => {
            let at = rng.below(bytes.len());
            bytes[at] = rng.pick(&[0x00, 0x01, 0x20, 0x7F, 0x80, 0xFF]);
        }
        3 => edit_length(rng, bytes),
        4 => edit_tag(rng, bytes),
        5 => bytes.truncate(rng.below(bytes.len() + 1)),
        6 => {
            let length = rng.between(1, 8);
            bytes.extend(rng.bytes(length));
        }
        7 => {
            let cut = range(rng, bytes);
            bytes.drain(cut);
        }
        _ => {
            let piece = other[range(rng, other)].to_vec();
            let at = range(rng, bytes);
            bytes.splice(at, piece);
        }
    }
}

/// Damages the bytes a few times; `other` lends pieces.
pub fn damage(rng: &mut Rng, bytes: &mut Vec<u8>, other: &[u8]) {
    for _ in 0..rng.pick(&[1, 1, 2, 3]) {
        damage_once(rng, bytes, other);
    }
    if rng.one_in(2) {
        mend_outer(bytes);
    }
}

/// TLVs of named tags and likely lengths under the tag of a command, or of a response.
pub fn soup(rng: &mut Rng, response: bool) -> Vec<u8> {
    let mut children = Vec::new();
    for _ in 0..rng.below(10) {
        let length = rng.pick(&[0, 0, 1, 1, 2, 4, 5, 7, 8, 9, 15, 32, 32, 33, 128, 512]);
        let mut value = rng.bytes(length);
        if rng.one_in(2) {
            value.iter_mut().for_each(|byte| *byte = 0);
        }
        children.push(Child::new(rng.pick(&tlv::NAMED), value));
    }
    let kind = rng.pick(&Kind::ALL);
    let tag = if response {
        kind.response_tag()
    } else {
        kind.tag()
    };
    tlv::holding(tag, &children)
}

/// Random bytes, now and then with a right outer tag and length.
pub fn noise(rng: &mut Rng, tag: u16) -> Vec<u8> {
    let length = match rng.below(40) {
        // More than 16 bits of length can say, with the outer header and without.
        0 => rng.pick(&[65_535, 65_536, 65_539, 65_540, 70_000]),
        1..=30 => rng.below(40),
        _ => rng.below(9000),
    };
    let mut bytes = rng.bytes(length);
    if bytes.len() >= 4 && rng.one_in(2) {
        bytes[..2].copy_from_slice(&tag.to_le_bytes());
        mend_outer(&mut bytes);
    }
    bytes
}
