//! Cases of one call: a right one, or one with faults that the generator knows, or a damaged one.

use crate::calls::{CommandCall, CompleteCall, Expect, LEAST_RESPONSE, LEAST_TABLE};
use crate::check::{Checked, Checker};
use crate::damage;
use crate::follow;
use crate::gen_command;
use crate::gen_draft::{self, REGISTRATION, SIGN};
use crate::gen_holder;
use crate::gen_lent;
use crate::gen_response;
use crate::gen_table;
use crate::rng::Rng;
use crate::scene::Scene;
use crate::tlv::{self, Kind};

/// The names of the faults in a call.
pub type Faults = Vec<&'static str>;

pub fn some_kind(rng: &mut Rng) -> Kind {
    Kind::ALL[rng.weighed(&[8, 30, 40, 15, 7])]
}

pub fn enough(rng: &mut Rng, least: usize) -> usize {
    match rng.below(4) {
        0 => least + 1,
        1 => least + rng.below(2000),
        _ => least,
    }
}

pub fn short(rng: &mut Rng, least: usize) -> usize {
    match rng.below(4) {
        0 => 0,
        1 => rng.below(least),
        _ => least - 1,
    }
}

/// A right call on a right table. What the command does is open.
pub fn right_command(rng: &mut Rng, kind: Kind, scene: &Scene) -> CommandCall {
    let children = gen_command::right(rng, kind, scene);
    right_call(rng, kind, scene, tlv::holding(kind.tag(), &children))
}

/// A right call of these bytes.
pub fn right_call(rng: &mut Rng, kind: Kind, scene: &Scene, command: Vec<u8>) -> CommandCall {
    let key_id = scene.new_key_id(rng);
    let mut lent = gen_lent::right(rng, &key_id);
    if rng.percent(30) {
        gen_lent::spoil_unused(rng, &mut lent, kind);
    }
    CommandCall {
        command,
        lent,
        table: gen_table::encode(&scene.records),
        response_size: enough(rng, LEAST_RESPONSE),
        table_out_size: enough(rng, LEAST_TABLE),
    }
}

pub fn some_scene(rng: &mut Rng) -> Scene {
    let number = rng.between(1, 4);
    let holders = gen_holder::holders(rng, number);
    let records = gen_table::right(rng, &holders);
    Scene::among(rng, &holders, records)
}

pub fn shorten(rng: &mut Rng, call: &mut CommandCall) -> &'static str {
    if rng.one_in(2) {
        call.response_size = short(rng, LEAST_RESPONSE);
        "output: response too short"
    } else {
        call.table_out_size = short(rng, LEAST_TABLE);
        "output: table too short"
    }
}

fn spoil_body(rng: &mut Rng, kind: Kind, scene: &Scene, command: &mut Vec<u8>) -> &'static str {
    let mut children = gen_command::right(rng, kind, scene);
    if rng.percent(25) {
        *command = tlv::holding(kind.tag(), &children);
        return gen_command::spoil_lengths(rng, &children, command);
    }
    let what = gen_command::spoil(rng, kind, &mut children);
    *command = tlv::holding(kind.tag(), &children);
    what
}

/// Which of the checks, in their order, a call is made to fail: output, table, outer tag, lent
/// results, then the rules under "TLV bytes".
fn some_checks(rng: &mut Rng) -> [bool; 5] {
    let mut fails = [false; 5];
    match rng.weighed(&[55, 33, 12]) {
        0 => {}
        1 => fails[rng.weighed(&[2, 4, 2, 4, 10])] = true,
        _ => fails.iter_mut().for_each(|fail| *fail = rng.one_in(2)),
    }
    fails
}

/// Puts in the faults and says what document 01 makes of the first.
fn spoil_command(
    rng: &mut Rng,
    kind: Kind,
    scene: &Scene,
    call: &mut CommandCall,
) -> (Expect, Faults) {
    let [output, table, outer, lent, body] = some_checks(rng);
    let mut found = Vec::new();
    if output {
        found.push((Expect::Refusal(1), shorten(rng, call)));
    }
    if table {
        let (bytes, what) = gen_table::spoiled(rng, &scene.records);
        call.table = bytes;
        found.push((Expect::Refusal(2), what));
    }
    // The body first: it writes the command anew.
    let body = body.then(|| spoil_body(rng, kind, scene, &mut call.command));
    if outer {
        let what = gen_command::spoil_outer(rng, &mut call.command);
        found.push((Expect::Refusal(3), what));
    }
    if lent {
        let what = gen_lent::spoil_used(rng, &mut call.lent, kind);
        found.extend(what.map(|what| (Expect::Refusal(4), what)));
    }
    found.extend(body.map(|what| (Expect::Invalid, what)));
    let first = found.first().map_or(Expect::Served, |&(expect, _)| expect);
    (first, found.into_iter().map(|(_, what)| what).collect())
}

/// Counts the fault of a call that has no other.
pub fn count_lone(checker: &mut Checker, faults: &[&'static str]) {
    if let [fault] = faults {
        checker.counts.add_fault(fault);
    }
}

/// A command with or without faults. Now and then its answer is followed up.
pub fn command(rng: &mut Rng, checker: &mut Checker) -> Checked<()> {
    let scene = some_scene(rng);
    let kind = some_kind(rng);
    let mut call = right_command(rng, kind, &scene);
    let (expect, faults) = spoil_command(rng, kind, &scene, &mut call);
    let answer = checker.command(&call, expect)?;
    count_lone(checker, &faults);
    if let Ok(wrote) = answer {
        if rng.one_in(4) {
            follow::follow(rng, checker, &wrote)?;
        }
    }
    Ok(())
}

fn damage_command(rng: &mut Rng, kind: Kind, command: &mut Vec<u8>, table: &[u8]) {
    match rng.below(6) {
        0 => *command = damage::soup(rng, false),
        1 => *command = damage::noise(rng, kind.tag()),
        2 => damage::damage(rng, command, table),
        _ => {
            let other = command.clone();
            damage::damage(rng, command, &other);
        }
    }
}

pub fn damage_table(rng: &mut Rng, table: &mut Vec<u8>) {
    if rng.one_in(12) {
        *table = damage::noise(rng, tlv::USERNAME_AND_KEYHANDLE);
    } else {
        let other = table.clone();
        damage::damage(rng, table, &other);
    }
}

/// A command with damaged bytes, on a table whose bytes may be damaged too.
pub fn damaged_command(rng: &mut Rng, checker: &mut Checker) -> Checked<()> {
    let scene = some_scene(rng);
    let kind = some_kind(rng);
    let mut call = right_command(rng, kind, &scene);
    let which = rng.weighed(&[55, 35, 10]);
    if which != 1 {
        damage_command(rng, kind, &mut call.command, &call.table);
    }
    if which != 0 {
        damage_table(rng, &mut call.table);
    }
    checker.command(&call, Expect::Anything).map(drop)
}

fn other_kind(rng: &mut Rng) -> u32 {
    match rng.below(3) {
        0 => rng.pick(&[2, 3, 0xFF, u32::MAX]),
        1 => rng.pick(&[0x100, 0x101, 0x1_0000, 0x1_0001, 0x8000_0000, 0x8000_0001]),
        _ => (rng.next() as u32).max(2),
    }
}

fn other_type(rng: &mut Rng) -> u32 {
    let right = u32::from(rng.pick(&[tlv::BASIC_FULL, tlv::BASIC_SURROGATE]));
    loop {
        let other = match rng.below(4) {
            0 => rng.pick(&[0, 1, 0x3E06, 0x3E09, 0x073E, u32::MAX]),
            1 => right + 0x1_0000,
            2 => right ^ 1 << rng.below(32),
            _ => rng.next() as u32,
        };
        if other != u32::from(tlv::BASIC_FULL) && other != u32::from(tlv::BASIC_SURROGATE) {
            return other;
        }
    }
}

/// Spoils signature, type or certificate.
pub fn spoil_completion(rng: &mut Rng, call: &mut CompleteCall) -> &'static str {
    let full = call.attestation == u32::from(tlv::BASIC_FULL);
    match rng.below(3) {
        1 if call.kind == REGISTRATION => {
            call.attestation = other_type(rng);
            "completion: attestation type"
        }
        2 if call.kind == REGISTRATION && full => {
            let length = rng.wrong_length(1, 2048);
            call.certificate = rng.bytes(length);
            "completion: certificate's length"
        }
        2 if call.kind == REGISTRATION => {
            let length = rng.length(1, 2048);
            call.certificate = rng.bytes(length);
            "completion: certificate for surrogate"
        }
        _ => {
            let length = rng.wrong_length(1, 512);
            call.signature = rng.bytes(length);
            "completion: signature's length"
        }
    }
}

fn spoil_draft(rng: &mut Rng, call: &mut CompleteCall) -> &'static str {
    if rng.one_in(8) {
        call.kind = other_kind(rng);
        return "draft: kind";
    }
    let (draft, what) = gen_draft::spoiled(rng, call.kind);
    call.draft = draft;
    what
}

/// A completion with or without faults; what it writes is read.
pub fn completion(rng: &mut Rng, checker: &mut Checker) -> Checked<()> {
    let kind = rng.pick(&[REGISTRATION, SIGN]);
    let draft = gen_draft::right(rng, kind);
    let mut call = follow::completion(rng, kind, draft);
    let fails = rng.weighed(&[35, 8, 30, 17, 10]);
    let mut found = Vec::new();
    // The signature first: what is wrong with it goes by the kind.
    let lent =
        (fails == 3 || (fails == 4 && rng.one_in(2))).then(|| spoil_completion(rng, &mut call));
    if fails == 1 || (fails == 4 && rng.one_in(2)) {
        call.response_size = short(rng, LEAST_RESPONSE);
        found.push((Expect::Refusal(1), "output: response too short"));
    }
    if fails == 2 || (fails == 4 && rng.one_in(2)) {
        found.push((Expect::Refusal(5), spoil_draft(rng, &mut call)));
    }
    found.extend(lent.map(|what| (Expect::Refusal(4), what)));
    let expect = found.first().map_or(Expect::Served, |&(expect, _)| expect);
    let faults: Faults = found.into_iter().map(|(_, what)| what).collect();
    let response = checker.complete(&call, expect)?;
    count_lone(checker, &faults);
    if let Some(response) = response {
        follow::read_back(checker, &call, &response)?;
    }
    Ok(())
}

/// A completion of a damaged draft.
pub fn damaged_completion(rng: &mut Rng, checker: &mut Checker) -> Checked<()> {
    let kind = rng.pick(&[REGISTRATION, SIGN]);
    let mut draft = gen_draft::right(rng, kind);
    if rng.one_in(10) {
        draft = damage::noise(rng, gen_draft::tag_of(kind));
    } else {
        let other = gen_draft::right(rng, kind);
        damage::damage(rng, &mut draft, &other);
    }
    let call = follow::completion(rng, kind, draft);
    if let Some(response) = checker.complete(&call, Expect::Anything)? {
        follow::read_back(checker, &call, &response)?;
    }
    Ok(())
}

/// A response to be read: right, wrong or damaged.
pub fn reading(rng: &mut Rng, checker: &mut Checker) -> Checked<()> {
    match rng.weighed(&[30, 35, 30, 5]) {
        0 => {
            let response = gen_response::right(rng);
            checker.read(&response, Expect::Served)?;
        }
        1 => {
            let (response, what) = gen_response::spoiled(rng);
            checker.read(&response, Expect::Refusal(5))?;
            checker.counts.add_fault(what);
        }
        2 => {
            let mut response = gen_response::right(rng);
            let other = gen_response::right(rng);
            damage::damage(rng, &mut response, &other);
            checker.read(&response, Expect::Anything)?;
        }
        _ => {
            let response = if rng.one_in(2) {
                damage::soup(rng, true)
            } else {
                let tag = rng.pick(&Kind::ALL).response_tag();
                damage::noise(rng, tag)
            };
            checker.read(&response, Expect::Anything)?;
        }
    }
    Ok(())
}
