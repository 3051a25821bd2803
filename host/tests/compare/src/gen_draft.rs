//! Drafts: some that a command can write, and some that none can.

use crate::rng::Rng;
use crate::tlv::{self, Child};

/// The kinds of completion.
pub const REGISTRATION: u32 = 0;
pub const SIGN: u32 = 1;

const INFO: usize = 1;

pub fn tag_of(kind: u32) -> u16 {
    if kind == REGISTRATION {
        tlv::KRD
    } else {
        tlv::SIGNED_DATA
    }
}

fn child_of(rng: &mut Rng, tag: u16, least: usize, greatest: usize) -> Child {
    let length = rng.length(least, greatest);
    Child::new(tag, rng.bytes(length))
}

fn registration(rng: &mut Rng) -> Vec<Child> {
    let mut info = rng.bytes(7);
    info[2] = 0x01;
    vec![
        Child::new(tlv::AAID, rng.bytes(9)),
        Child::new(tlv::ASSERTION_INFO, info),
        child_of(rng, tlv::CHALLENGE_HASH, 1, 32),
        Child::new(tlv::KEYID, rng.bytes(32)),
        Child::new(tlv::COUNTERS, vec![0; 8]),
        child_of(rng, tlv::PUB_KEY, 1, 512),
    ]
}

fn count(rng: &mut Rng) -> u32 {
    match rng.below(4) {
        0 => rng.pick(&[1, 0x100, 0x1_0000, 0x0100_0000, u32::MAX]),
        _ => (rng.next() as u32).max(1),
    }
}

fn signed_data(rng: &mut Rng) -> Vec<Child> {
    let content = rng.one_in(2);
    let mut info = rng.bytes(5);
    info[2] = if content { 0x02 } else { 0x01 };
    vec![
        Child::new(tlv::AAID, rng.bytes(9)),
        Child::new(tlv::ASSERTION_INFO, info),
        child_of(rng, tlv::NONCE, 8, 32),
        child_of(rng, tlv::CHALLENGE_HASH, 1, 32),
        Child::new(tlv::CONTENT_HASH, rng.bytes(if content { 32 } else { 0 })),
        Child::new(tlv::KEYID, rng.bytes(32)),
        Child::new(tlv::COUNTERS, count(rng).to_le_bytes()),
    ]
}

fn children(rng: &mut Rng, kind: u32) -> Vec<Child> {
    if kind == REGISTRATION {
        registration(rng)
    } else {
        signed_data(rng)
    }
}

/// A draft that a command can write.
pub fn right(rng: &mut Rng, kind: u32) -> Vec<u8> {
    let children = children(rng, kind);
    tlv::holding(tag_of(kind), &children)
}

/// The lengths that a child of a draft can have.
fn limits(child: &Child) -> (usize, usize) {
    match child.tag {
        tlv::CHALLENGE_HASH => (1, 32),
        tlv::PUB_KEY => (1, 512),
        tlv::NONCE => (8, 32),
        _ => (child.value.len(), child.value.len()),
    }
}

fn wrong_mode(rng: &mut Rng, kind: u32, mode: u8) -> u8 {
    // A sign's mode goes with the hash's length, so the other right one is wrong too.
    let other = if kind == SIGN { 3 - mode } else { 2 };
    rng.pick(&[other, other, 0, 3, mode | 0x80, 0xFF])
}

fn wrong_count(rng: &mut Rng, kind: u32) -> Vec<u8> {
    if kind == SIGN {
        return vec![0; 4];
    }
    let mut counters = vec![0; 8];
    counters[rng.below(8)] = rng.pick(&[1, 0x80]);
    counters
}

fn spoil_children(rng: &mut Rng, kind: u32, children: &mut Vec<Child>) -> &'static str {
    let i = rng.below(children.len());
    let last = children.len() - 1;
    match rng.below(10) {
        0..=3 => {
            let (least, greatest) = limits(&children[i]);
            let length = rng.wrong_length(least, greatest);
            // Zero bytes, so that counters are wrong by their length alone.
            children[i].value.resize(length, 0);
            "draft: child's length"
        }
        4 => {
            let mode = &mut children[INFO].value[2];
            *mode = wrong_mode(rng, kind, *mode);
            "draft: mode"
        }
        5 => {
            let counters = if kind == SIGN { last } else { last - 1 };
            children[counters].value = wrong_count(rng, kind);
            "draft: counters"
        }
        6 => {
            children.swap(i, (i + rng.between(1, last)) % (last + 1));
            "draft: children's order"
        }
        7 => {
            children[i].tag ^= 1 << rng.below(16);
            "draft: child's tag"
        }
        8 => {
            children.remove(i);
            "draft: child missing"
        }
        _ => {
            let more = if rng.one_in(2) {
                children[i].clone()
            } else {
                Child::new(0x0FFF, vec![])
            };
            children.insert(rng.below(last + 2), more);
            "draft: child too many"
        }
    }
}

fn spoil_bytes(rng: &mut Rng, draft: &mut Vec<u8>) -> &'static str {
    match rng.below(4) {
        0 => {
            draft.truncate(draft.len() - rng.between(1, 8).min(draft.len()));
            "draft: cut short"
        }
        1 => {
            let more = rng.between(1, 4);
            draft.extend(rng.bytes(more));
            if rng.one_in(2) {
                tlv::add_to_length(draft, 0, more as i32);
            }
            "draft: bytes after"
        }
        2 => {
            let amount = rng.pick(&[-1, 1, 4, -4]);
            tlv::add_to_length(draft, 0, amount);
            "draft: length"
        }
        _ => {
            draft[rng.below(2)] ^= 1 << rng.below(8);
            "draft: tag"
        }
    }
}

/// Bytes that are no draft of this kind, and why.
pub fn spoiled(rng: &mut Rng, kind: u32) -> (Vec<u8>, &'static str) {
    if rng.one_in(10) {
        return (right(rng, 1 - kind), "draft: other kind's");
    }
    let mut children = children(rng, kind);
    if rng.one_in(4) {
        let mut draft = tlv::holding(tag_of(kind), &children);
        let what = spoil_bytes(rng, &mut draft);
        return (draft, what);
    }
    let what = spoil_children(rng, kind, &mut children);
    (tlv::holding(tag_of(kind), &children), what)
}
