//! Skipped children: primitive ones, and composites that reach down to a given level or are
//! malformed at one.

use crate::rng::Rng;
use crate::tlv::{self, Child, COMPOSITE, CRITICAL};

/// The level of a command's children.
const CHILDREN: usize = 2;
pub const DEEPEST: usize = 8;

/// Any tag, mostly one that means something elsewhere, with or without the composite bit.
fn any_tag(rng: &mut Rng, composite: bool) -> u16 {
    let tag = if rng.one_in(2) {
        rng.pick(&tlv::NAMED)
    } else {
        rng.next() as u16
    };
    if composite {
        tag | COMPOSITE
    } else {
        tag & !COMPOSITE
    }
}

/// A tag that is not critical, so that it is skipped: now and then a listed one but for that bit.
fn skipped_tag(rng: &mut Rng, composite: bool) -> u16 {
    let bit = if composite { COMPOSITE } else { 0 };
    match rng.below(6) {
        0 => 0x0FFF | bit,
        1 => 0x8FFF | bit,
        _ => any_tag(rng, composite) & !CRITICAL,
    }
}

fn few_bytes(rng: &mut Rng) -> Vec<u8> {
    let length = rng.pick(&[0, 0, 1, 2, 3, 4, 5, 8, 32, 33]);
    rng.bytes(length)
}

/// Siblings that only have to be stepped over: primitive ones and empty composites.
fn siblings(rng: &mut Rng, bytes: &mut Vec<u8>) {
    while rng.one_in(3) {
        if rng.one_in(4) {
            tlv::put(bytes, any_tag(rng, true), &[]);
        } else {
            let tag = any_tag(rng, false);
            tlv::put(bytes, tag, &few_bytes(rng));
        }
    }
}

/// The value of a composite at a level, whose TLVs reach down to the deepest, which may be that
/// level itself: then it is empty.
fn value(rng: &mut Rng, level: usize, deepest: usize) -> Vec<u8> {
    let mut bytes = Vec::new();
    if level == deepest {
        return bytes;
    }
    siblings(rng, &mut bytes);
    if level + 1 == deepest && rng.one_in(2) {
        let tag = any_tag(rng, false);
        tlv::put(&mut bytes, tag, &few_bytes(rng));
    } else {
        let tag = any_tag(rng, true);
        tlv::put(&mut bytes, tag, &value(rng, level + 1, deepest));
    }
    siblings(rng, &mut bytes);
    bytes
}

/// The end of a run that is none: stray bytes, or a TLV longer than what is left.
fn broken_end(rng: &mut Rng, bytes: &mut Vec<u8>) {
    if rng.one_in(2) {
        let stray = rng.between(1, 3);
        bytes.extend(rng.bytes(stray));
    } else {
        let composite = rng.one_in(2);
        let tag = any_tag(rng, composite);
        let start = bytes.len();
        tlv::put(bytes, tag, &few_bytes(rng));
        let amount = rng.pick(&[1, 1, 2, 4, 256, 0x7F00]);
        tlv::add_to_length(bytes, start, amount);
    }
}

/// The value of a composite at a level, malformed at the broken level or that one itself.
fn broken_value(rng: &mut Rng, level: usize, broken: usize) -> Vec<u8> {
    let mut bytes = Vec::new();
    siblings(rng, &mut bytes);
    if level == broken {
        broken_end(rng, &mut bytes);
    } else {
        let tag = any_tag(rng, true);
        tlv::put(&mut bytes, tag, &broken_value(rng, level + 1, broken));
        siblings(rng, &mut bytes);
    }
    bytes
}

/// A well-formed child to be skipped.
pub fn skipped(rng: &mut Rng) -> Child {
    if rng.one_in(2) {
        let tag = skipped_tag(rng, false);
        Child::new(tag, few_bytes(rng))
    } else {
        let deepest = if rng.one_in(3) {
            DEEPEST
        } else {
            rng.between(CHILDREN, DEEPEST)
        };
        down_to(rng, deepest)
    }
}

/// A skipped composite with a TLV at this level and none deeper.
pub fn down_to(rng: &mut Rng, deepest: usize) -> Child {
    let tag = skipped_tag(rng, true);
    Child::new(tag, value(rng, CHILDREN, deepest))
}

/// A skipped composite that is malformed at some level.
pub fn malformed(rng: &mut Rng) -> Child {
    let tag = skipped_tag(rng, true);
    let level = rng.between(CHILDREN, DEEPEST);
    Child::new(tag, broken_value(rng, CHILDREN, level))
}
