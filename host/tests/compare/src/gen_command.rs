//! Commands: some that obey the rules under "TLV bytes", and some that are certain to break one.

use crate::gen_holder::MOST_APP_ID;
use crate::gen_name;
use crate::nests;
use crate::rng::Rng;
use crate::scene::Scene;
use crate::tlv::{self, Child, Kind, CRITICAL};

/// The greatest command.
pub const MOST_COMMAND: usize = 8192;
pub const MOST_HANDLES: usize = 8;
/// A length that "any" mostly stays below.
const ANY: usize = 200;

/// A child that a command lists, KEYHANDLE apart.
struct Rule {
    tag: u16,
    least: usize,
    greatest: usize,
    mandatory: bool,
}

const fn mandatory(tag: u16, least: usize, greatest: usize) -> Rule {
    Rule {
        tag,
        least,
        greatest,
        mandatory: true,
    }
}

const fn optional(tag: u16, least: usize, greatest: usize) -> Rule {
    Rule {
        tag,
        least,
        greatest,
        mandatory: false,
    }
}

const REGISTER: [Rule; 7] = [
    mandatory(tlv::INDEX, 1, 1),
    optional(tlv::APPID, 1, 512),
    mandatory(tlv::CHALLENGE_HASH, 1, 32),
    mandatory(tlv::USERNAME, 1, 128),
    mandatory(tlv::ATTESTATION_TYPE, 2, 2),
    mandatory(tlv::ACCESS_TOKEN, 32, 32),
    optional(tlv::USERVERIFY_TOKEN, 0, ANY),
];
const SIGN: [Rule; 6] = [
    mandatory(tlv::INDEX, 1, 1),
    optional(tlv::APPID, 1, 512),
    mandatory(tlv::CHALLENGE_HASH, 1, 32),
    optional(tlv::TRANSACTION_CONTENT, 0, ANY),
    mandatory(tlv::ACCESS_TOKEN, 32, 32),
    optional(tlv::USERVERIFY_TOKEN, 0, ANY),
];
const DEREGISTER: [Rule; 4] = [
    mandatory(tlv::INDEX, 1, 1),
    optional(tlv::APPID, 1, 512),
    mandatory(tlv::KEYID, 0, 32),
    mandatory(tlv::ACCESS_TOKEN, 32, 32),
];
const OPEN_SETTINGS: [Rule; 1] = [mandatory(tlv::INDEX, 1, 1)];

fn rules(kind: Kind) -> &'static [Rule] {
    match kind {
        Kind::GetInfo => &[],
        Kind::Register => &REGISTER,
        Kind::Sign => &SIGN,
        Kind::Deregister => &DEREGISTER,
        Kind::OpenSettings => &OPEN_SETTINGS,
    }
}

fn lists(kind: Kind, tag: u16) -> bool {
    rules(kind).iter().any(|rule| rule.tag == tag) || (kind == Kind::Sign && tag == tlv::KEYHANDLE)
}

/// A type that a Register may give: mostly one of the two that it supports.
pub fn attestation_type(rng: &mut Rng) -> u16 {
    match rng.below(10) {
        0..=3 => tlv::BASIC_FULL,
        4..=7 => tlv::BASIC_SURROGATE,
        8 => rng.pick(&[0, 0x3E06, 0x3E09, 0x073E, 0x083E, 0x3E0F, u16::MAX]),
        _ => rng.next() as u16,
    }
}

fn right_value(rng: &mut Rng, rule: &Rule, scene: &Scene) -> Vec<u8> {
    match rule.tag {
        tlv::INDEX => vec![0],
        tlv::ATTESTATION_TYPE => attestation_type(rng).to_le_bytes().to_vec(),
        tlv::USERNAME => gen_name::right(rng),
        tlv::ACCESS_TOKEN => scene.holder.token.to_vec(),
        tlv::APPID => scene.holder.app_id.clone().unwrap_or_default(),
        tlv::KEYID if rng.percent(20) => Vec::new(),
        tlv::KEYID => scene.key_id(rng).to_vec(),
        _ => {
            let length = rng.length(rule.least, rule.greatest);
            rng.bytes(length)
        }
    }
}

/// Key handles, now and then one twice.
pub fn handles(rng: &mut Rng, scene: &Scene) -> Vec<Child> {
    let number = match rng.below(10) {
        0..=3 => 0,
        4..=6 => 1,
        7 => MOST_HANDLES,
        _ => rng.between(2, MOST_HANDLES),
    };
    let mut handles: Vec<Child> = Vec::new();
    while handles.len() < number {
        let next = if !handles.is_empty() && rng.percent(30) {
            handles[rng.below(handles.len())].clone()
        } else {
            Child::new(tlv::KEYHANDLE, scene.key_id(rng))
        };
        handles.push(next);
    }
    handles
}

/// Children that the command lists, of allowed lengths, in a random order. Access token and AppID are
/// the caller's.
pub fn listed(rng: &mut Rng, kind: Kind, scene: &Scene) -> Vec<Child> {
    let mut children = Vec::new();
    for rule in rules(kind) {
        let given = match rule.tag {
            tlv::APPID => scene.holder.app_id.is_some(),
            _ => rule.mandatory || rng.one_in(2),
        };
        if given {
            children.push(Child::new(rule.tag, right_value(rng, rule, scene)));
        }
    }
    if kind == Kind::Sign {
        children.extend(handles(rng, scene));
    }
    if rng.one_in(2) {
        rng.shuffle(&mut children);
    }
    children
}

fn insert(rng: &mut Rng, children: &mut Vec<Child>, child: Child) {
    children.insert(rng.below(children.len() + 1), child);
}

/// Adds children that are skipped, now and then one twice.
pub fn add_skipped(rng: &mut Rng, children: &mut Vec<Child>) {
    while rng.one_in(3) {
        let child = nests::skipped(rng);
        if rng.one_in(4) {
            insert(rng, children, child.clone());
        }
        insert(rng, children, child);
    }
}

/// Makes the command this long by a child of any length that it has, or by one more skipped child.
fn grow(rng: &mut Rng, children: &mut Vec<Child>, size: usize) {
    let now = 4 + tlv::run(children).len();
    let any = [tlv::USERVERIFY_TOKEN, tlv::TRANSACTION_CONTENT, 0x0FFF];
    let place = place_of(children, rng.pick(&any));
    if let Some(i) = place {
        let length = (children[i].value.len() + size).saturating_sub(now);
        children[i].value = rng.bytes(length);
    } else if now + 4 <= size {
        let filler = Child::new(0x0FFF, rng.bytes(size - now - 4));
        insert(rng, children, filler);
    }
}

/// A right command with its optional and skipped children; now and then as long as allowed.
pub fn right(rng: &mut Rng, kind: Kind, scene: &Scene) -> Vec<Child> {
    let mut children = listed(rng, kind, scene);
    add_skipped(rng, &mut children);
    if rng.one_in(60) {
        let size = rng.pick(&[MOST_COMMAND, MOST_COMMAND - 1, 256, 260, 4096]);
        grow(rng, &mut children, size);
    }
    children
}

/// A way to break a rule under "TLV bytes" by the children.
#[derive(Clone, Copy)]
enum Fault {
    Missing,
    Length,
    Token,
    Shifted,
    Index,
    Repeated,
    Critical,
    Foreign,
    NineHandles,
    HandleLength,
    Name,
    Malformed,
    Level9,
    TooLong,
}

const FAULTS: [Fault; 14] = [
    Fault::Missing,
    Fault::Length,
    Fault::Token,
    Fault::Shifted,
    Fault::Index,
    Fault::Repeated,
    Fault::Critical,
    Fault::Foreign,
    Fault::NineHandles,
    Fault::HandleLength,
    Fault::Name,
    Fault::Malformed,
    Fault::Level9,
    Fault::TooLong,
];

fn place_of(children: &[Child], tag: u16) -> Option<usize> {
    children.iter().position(|child| child.tag == tag)
}

fn leave_out(rng: &mut Rng, kind: Kind, children: &mut Vec<Child>) -> Option<&'static str> {
    let needed: Vec<u16> = rules(kind)
        .iter()
        .filter(|r| r.mandatory)
        .map(|r| r.tag)
        .collect();
    if needed.is_empty() {
        return None;
    }
    let tag = rng.pick(&needed);
    children.retain(|child| child.tag != tag);
    if rng.one_in(3) {
        // Without the critical bit it is another tag, which is skipped.
        insert(rng, children, Child::new(tag & !CRITICAL, vec![0]));
    }
    Some("body: mandatory child missing")
}

fn wrong_length_of(rng: &mut Rng, rule: &Rule) -> usize {
    match rule.tag {
        tlv::KEYID => rng.pick(&[1, 2, 31, 33, 64]),
        _ => rng.wrong_length(rule.least, rule.greatest),
    }
}

fn resize(rng: &mut Rng, kind: Kind, children: &mut Vec<Child>) -> Option<&'static str> {
    let limited: Vec<&Rule> = rules(kind)
        .iter()
        .filter(|r| r.greatest != ANY && r.tag != tlv::ACCESS_TOKEN)
        .collect();
    if limited.is_empty() {
        return None;
    }
    let rule = rng.pick(&limited);
    let length = wrong_length_of(rng, rule);
    // An index of a wrong length is all zero and a name of one UTF-8, so that each is wrong by its
    // length alone.
    let value = match rule.tag {
        tlv::INDEX => vec![0; length],
        tlv::USERNAME => gen_name::of_length(rng, length),
        _ => rng.bytes(length),
    };
    match place_of(children, rule.tag) {
        Some(i) => children[i].value = value,
        None => insert(rng, children, Child::new(rule.tag, value)),
    }
    Some("body: child's length")
}

const TOKENS: [(usize, &str); 6] = [
    (0, "body: access token of 0"),
    (1, "body: access token of 1"),
    (31, "body: access token of 31"),
    (33, "body: access token of 33"),
    (2, "body: access token of another length"),
    (64, "body: access token of another length"),
];

fn resize_token(rng: &mut Rng, children: &mut [Child]) -> Option<&'static str> {
    let i = place_of(children, tlv::ACCESS_TOKEN)?;
    let (length, what) = rng.pick(&TOKENS);
    children[i].value.resize(length, 0);
    Some(what)
}

/// One byte more of the two belongs to the AppID, or to the token: run together they are the same.
fn shift_token(rng: &mut Rng, children: &mut [Child]) -> Option<&'static str> {
    let token = place_of(children, tlv::ACCESS_TOKEN)?;
    let app_id = place_of(children, tlv::APPID)?;
    let length = children[app_id].value.len();
    if length > 1 && rng.one_in(2) {
        let first = children[app_id].value.remove(0);
        children[token].value.push(first);
        return Some("body: access token of 33, the AppID's first byte in it");
    }
    if length == MOST_APP_ID {
        return None;
    }
    let last = children[token].value.pop()?;
    children[app_id].value.insert(0, last);
    Some("body: access token of 31, its last byte in the AppID")
}

fn change_index(rng: &mut Rng, children: &mut [Child]) -> Option<&'static str> {
    let i = place_of(children, tlv::INDEX)?;
    children[i].value = vec![rng.pick(&[1, 1, 2, 0x80, 0xFF])];
    Some("body: index not 0")
}

fn repeat(rng: &mut Rng, kind: Kind, children: &mut Vec<Child>) -> Option<&'static str> {
    let single: Vec<Child> = children
        .iter()
        .filter(|child| child.tag != tlv::KEYHANDLE && lists(kind, child.tag))
        .cloned()
        .collect();
    if single.is_empty() {
        return None;
    }
    let mut again = single[rng.below(single.len())].clone();
    if rng.one_in(2) {
        match again.tag {
            tlv::INDEX => {}
            tlv::USERNAME => again.value = gen_name::right(rng),
            _ => rng.fill(&mut again.value),
        }
    }
    insert(rng, children, again);
    Some("body: listed child twice")
}

fn add_critical(rng: &mut Rng, kind: Kind, children: &mut Vec<Child>) -> Option<&'static str> {
    let tag = loop {
        let tag = match rng.below(4) {
            0 => rng.pick(&[0x2FFF, 0xAFFF]),
            // Nearly a named one.
            1 | 2 => (rng.pick(&tlv::NAMED) ^ 1 << rng.below(16)) | CRITICAL,
            _ => rng.next() as u16 | CRITICAL,
        };
        if !lists(kind, tag) {
            break tag;
        }
    };
    let mut child = nests::skipped(rng);
    child.tag = tag;
    if tag & tlv::COMPOSITE != 0 {
        child.value = tlv::tlv(0x0001, &[]);
    }
    insert(rng, children, child);
    Some("body: critical child")
}

fn add_foreign(rng: &mut Rng, kind: Kind, children: &mut Vec<Child>) -> Option<&'static str> {
    let foreign: Vec<u16> = tlv::NAMED
        .into_iter()
        .filter(|&tag| !lists(kind, tag))
        .collect();
    let tag = rng.pick(&foreign);
    let length = if tag & tlv::COMPOSITE != 0 {
        0
    } else {
        rng.pick(&[0, 1, 2, 32])
    };
    let child = Child::new(tag, rng.bytes(length));
    insert(rng, children, child);
    Some("body: another command's child")
}

fn many_handles(rng: &mut Rng, kind: Kind, children: &mut Vec<Child>) -> Option<&'static str> {
    if kind != Kind::Sign {
        return None;
    }
    let own = place_of(children, tlv::KEYHANDLE).map(|i| children[i].clone());
    children.retain(|child| child.tag != tlv::KEYHANDLE);
    let one = own.unwrap_or_else(|| Child::new(tlv::KEYHANDLE, rng.array::<32>()));
    let equal = rng.one_in(2);
    for _ in 0..MOST_HANDLES + rng.pick(&[1, 1, 2]) {
        let next = if equal {
            one.clone()
        } else {
            Child::new(tlv::KEYHANDLE, rng.array::<32>())
        };
        insert(rng, children, next);
    }
    Some("body: over 8 handles")
}

fn resize_handle(rng: &mut Rng, kind: Kind, children: &mut Vec<Child>) -> Option<&'static str> {
    if kind != Kind::Sign {
        return None;
    }
    let length = rng.wrong_length(32, 32);
    let value = rng.bytes(length);
    match place_of(children, tlv::KEYHANDLE) {
        Some(i) => children[i].value = value,
        None => insert(rng, children, Child::new(tlv::KEYHANDLE, value)),
    }
    Some("body: handle's length")
}

fn rename(rng: &mut Rng, children: &mut [Child]) -> Option<&'static str> {
    let i = place_of(children, tlv::USERNAME)?;
    children[i].value = gen_name::broken(rng);
    Some("body: name not UTF-8")
}

fn lengthen(rng: &mut Rng, children: &mut Vec<Child>) -> Option<&'static str> {
    let size = rng.pick(&[
        MOST_COMMAND + 1,
        MOST_COMMAND + 1,
        MOST_COMMAND + 4,
        9000,
        20_000,
    ]);
    grow(rng, children, size);
    if 4 + tlv::run(children).len() > MOST_COMMAND {
        Some("body: over 8,192 bytes")
    } else {
        None
    }
}

/// Breaks a rule by the children. Gives which, or nothing if this one does not apply.
fn spoil_by(
    rng: &mut Rng,
    fault: Fault,
    kind: Kind,
    children: &mut Vec<Child>,
) -> Option<&'static str> {
    match fault {
        Fault::Missing => leave_out(rng, kind, children),
        Fault::Length => resize(rng, kind, children),
        Fault::Token => resize_token(rng, children),
        Fault::Shifted => shift_token(rng, children),
        Fault::Index => change_index(rng, children),
        Fault::Repeated => repeat(rng, kind, children),
        Fault::Critical => add_critical(rng, kind, children),
        Fault::Foreign => add_foreign(rng, kind, children),
        Fault::NineHandles => many_handles(rng, kind, children),
        Fault::HandleLength => resize_handle(rng, kind, children),
        Fault::Name => rename(rng, children),
        Fault::Malformed => {
            let child = nests::malformed(rng);
            insert(rng, children, child);
            Some("body: malformed composite")
        }
        Fault::Level9 => {
            let level = rng.pick(&[9, 9, 9, 10, 12]);
            let child = nests::down_to(rng, level);
            insert(rng, children, child);
            Some("body: level 9")
        }
        Fault::TooLong => lengthen(rng, children),
    }
}

/// Breaks one rule by the children, and says which.
pub fn spoil(rng: &mut Rng, kind: Kind, children: &mut Vec<Child>) -> &'static str {
    loop {
        let fault = rng.pick(&FAULTS);
        if let Some(what) = spoil_by(rng, fault, kind, children) {
            return what;
        }
    }
}

/// Breaks one rule by the lengths, and says which.
pub fn spoil_lengths(rng: &mut Rng, children: &[Child], command: &mut Vec<u8>) -> &'static str {
    match rng.below(5) {
        0 if !children.is_empty() => {
            // Between two children or in one, a shorter outer length leaves bytes over.
            let most = command.len() as i32 - 4;
            let amount = rng.pick(&[1, 2, 3, 4, most]).min(most);
            tlv::add_to_length(command, 0, -amount);
            "body: outer length too small"
        }
        1 if !children.is_empty() => {
            let last = command.len() - 4 - children[children.len() - 1].value.len();
            let amount = rng.pick(&[1, 2, 4, 255, 256]);
            tlv::add_to_length(command, last, amount);
            "body: last child too long"
        }
        2 => {
            let stray = rng.between(1, 3);
            command.extend(rng.bytes(stray));
            tlv::add_to_length(command, 0, stray as i32);
            "body: stray bytes"
        }
        3 => {
            let more = rng.pick(&[1, 2, 4, 8]);
            command.extend(rng.bytes(more));
            "body: bytes after the command"
        }
        _ => {
            let amount = rng.pick(&[1, 2, 4, 256, 0x4000]);
            tlv::add_to_length(command, 0, amount);
            "body: outer length too great"
        }
    }
}

/// Makes the bytes none of the five commands.
pub fn spoil_outer(rng: &mut Rng, command: &mut Vec<u8>) -> &'static str {
    if rng.one_in(3) {
        command.truncate(rng.below(4));
        return "outer: fewer than 4 bytes";
    }
    let tag = loop {
        let tag = match rng.below(4) {
            0 => rng.pick(&tlv::NAMED),
            1 => rng.pick(&[0x3400, 0x3405, 0x3407, 0x0134, 0x0000, 0xFFFF]),
            2 => rng.pick(&Kind::ALL).tag() ^ 1 << rng.below(16),
            _ => rng.next() as u16,
        };
        if Kind::ALL.iter().all(|kind| kind.tag() != tag) {
            break tag;
        }
    };
    command[..2].copy_from_slice(&tag.to_le_bytes());
    "outer: no command's tag"
}
