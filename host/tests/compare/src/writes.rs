//! Cases of the writers: what is written, read and run; and a command beside its form, which is what
//! is written of its fields.

use crate::calls::{CommandCall, Expect, Marked, WriteCall, GIVEN};
use crate::check::{fail, Checked, Checker, Wrote};
use crate::form::{children_of, fields_of, form};
use crate::gen_command::{self, MOST_COMMAND};
use crate::gen_lent;
use crate::gen_table;
use crate::gen_write;
use crate::properties;
use crate::rng::Rng;
use crate::scene::Scene;
use crate::singles;
use crate::tlv::{self, Child, Kind};

/// The call without what it need not look at.
fn looked_at(call: &WriteCall) -> WriteCall {
    let mut fields = call.clone();
    fields.command_size = 0;
    for field in [
        &mut fields.app_id,
        &mut fields.content,
        &mut fields.verify_token,
    ] {
        if field.mark != GIVEN {
            *field = Marked::default();
        }
    }
    fields
}

/// A property of a call that is counted, and fails the case if it does not hold.
fn holds(
    checker: &mut Checker,
    property: &'static str,
    right: bool,
    call: impl ToString,
) -> Checked<()> {
    checker.counts.add_property(property);
    if right {
        Ok(())
    } else {
        fail(format!("does not hold: {}", property), call.to_string())
    }
}

/// What the call shows by itself, as it was not refused.
fn count_edges(checker: &mut Checker, call: &WriteCall, command: &[u8]) {
    let given = |field: &Marked| field.mark == GIVEN;
    let any = [&call.content, &call.verify_token];
    // Given, it would be refused.
    let ignored = |field: &Marked, most: usize| !given(field) && field.bytes.len() > most;
    for (property, shown) in [
        (properties::LONGEST, command.len() == MOST_COMMAND),
        (properties::EXACT, command.len() == call.command_size),
        (
            properties::NOT_LOOKED_AT,
            ignored(&call.app_id, 512) || any.iter().any(|field| ignored(field, MOST_COMMAND)),
        ),
        (
            properties::GIVEN_EMPTY,
            any.iter()
                .any(|field| given(field) && field.bytes.is_empty()),
        ),
    ] {
        if shown {
            checker.counts.add_property(property);
        }
    }
}

/// A command that was written: its fields are those given, it is its own form, and it is served.
fn follow(
    rng: &mut Rng,
    checker: &mut Checker,
    scene: &Scene,
    call: &WriteCall,
    command: Vec<u8>,
) -> Checked<()> {
    count_edges(checker, call, &command);
    let fields = fields_of(call.kind, &children_of(&command));
    let read = fields.as_ref() == Some(&looked_at(call));
    holds(checker, properties::FIELDS_GIVEN, read, call)?;
    let in_order = command == gen_write::command(call);
    holds(checker, properties::IN_ORDER, in_order, call)?;
    let own_form = form(&command).as_ref() == Some(&command);
    holds(checker, properties::OWN_FORM, own_form, call)?;
    let run = singles::right_call(rng, call.kind, scene, command);
    checker.command(&run, Expect::Served).map(drop)?;
    checker.counts.add_property(properties::WRITTEN_SERVED);
    Ok(())
}

/// A writer with or without faults; what it writes is read and run.
pub fn writing(rng: &mut Rng, checker: &mut Checker) -> Checked<()> {
    let scene = singles::some_scene(rng);
    let kind = singles::some_kind(rng);
    let mut call = gen_write::right(rng, kind, &scene);
    let fails = rng.weighed(&[40, 42, 10, 8]);
    let mut found = Vec::new();
    if fails == 1 || fails == 3 {
        let what = gen_write::spoil(rng, &mut call);
        found.extend(what.map(|what| (Expect::Refusal(6), what)));
    }
    // Two fields may be wrong.
    if fails == 3 && rng.one_in(2) {
        let what = gen_write::spoil(rng, &mut call);
        found.extend(what.map(|what| (Expect::Refusal(6), what)));
    }
    if fails == 2 || fails == 3 {
        let what = gen_write::shorten(rng, &mut call);
        found.push((Expect::Refusal(1), what));
    }
    let expect = found.first().map_or(Expect::Served, |&(expect, _)| expect);
    let faults: Vec<&str> = found.into_iter().map(|(_, what)| what).collect();
    let command = checker.write(&call, expect)?;
    singles::count_lone(checker, &faults);
    match command {
        Some(command) => follow(rng, checker, &scene, &call, command),
        None => Ok(()),
    }
}

/// The children in another order, those of one tag in their own.
fn reorder(rng: &mut Rng, children: &[Child]) -> Vec<Child> {
    let mut tags: Vec<u16> = children.iter().map(|child| child.tag).collect();
    rng.shuffle(&mut tags);
    let mut left = children.to_vec();
    let next = |tag: u16| {
        let place = left.iter().position(|child| child.tag == tag);
        left.remove(place.expect("one for each tag"))
    };
    tags.into_iter().map(next).collect()
}

/// Other bytes of the same form: another order, and other skipped children.
fn variant(rng: &mut Rng, kind: Kind, children: &[Child]) -> Vec<u8> {
    let mut others = reorder(rng, children);
    gen_command::add_skipped(rng, &mut others);
    let command = tlv::holding(kind.tag(), &others);
    if command.len() <= MOST_COMMAND {
        return command;
    }
    tlv::holding(kind.tag(), &reorder(rng, children))
}

/// What is lent to the command, its table or its outputs, now and then wrong.
fn spoil_rest(rng: &mut Rng, kind: Kind, scene: &Scene, call: &mut CommandCall) -> Expect {
    match rng.below(24) {
        0 => {
            singles::shorten(rng, call);
            Expect::Refusal(1)
        }
        1 => {
            call.table = gen_table::spoiled(rng, &scene.records).0;
            Expect::Refusal(2)
        }
        2 => match gen_lent::spoil_used(rng, &mut call.lent, kind) {
            Some(_) => Expect::Refusal(4),
            None => Expect::Served,
        },
        _ => Expect::Served,
    }
}

fn same(one: &Result<Wrote, u32>, other: &Result<Wrote, u32>) -> bool {
    match (one, other) {
        (Ok(one), Ok(other)) => {
            one.draft == other.draft && one.response == other.response && one.table == other.table
        }
        (Err(one), Err(other)) => one == other,
        _ => false,
    }
}

/// A command, other bytes of the same form, and that form: all three are answered alike.
pub fn forms(rng: &mut Rng, checker: &mut Checker) -> Checked<()> {
    let scene = singles::some_scene(rng);
    let kind = singles::some_kind(rng);
    let children = gen_command::right(rng, kind, &scene);
    let command = tlv::holding(kind.tag(), &children);
    let mut call = singles::right_call(rng, kind, &scene, command);
    let expect = spoil_rest(rng, kind, &scene, &mut call);
    let answer = checker.command(&call, expect)?;

    let variant = variant(rng, kind, &children);
    let (first, second) = (form(&call.command), form(&variant));
    let one_form = first.is_some() && first == second;
    holds(checker, properties::ONE_FORM, one_form, &call)?;
    let form_bytes = first.unwrap_or_default();
    let least = form(&form_bytes).as_ref() == Some(&form_bytes)
        && form_bytes.len() <= call.command.len().min(variant.len());
    holds(checker, properties::LEAST_FORM, least, &call)?;

    for bytes in [variant, form_bytes.clone()] {
        call.command = bytes;
        let alike = same(&answer, &checker.command(&call, expect)?);
        holds(checker, properties::SAME_EFFECT, alike, &call)?;
    }
    written_form(checker, kind, &form_bytes)
}

/// The form is what the writer writes of its fields.
fn written_form(checker: &mut Checker, kind: Kind, form: &[u8]) -> Checked<()> {
    let mut write = match fields_of(kind, &children_of(form)) {
        Some(fields) => fields,
        None => return fail("a form with a skipped child".into(), String::new()),
    };
    write.command_size = form.len();
    let written = checker.write(&write, Expect::Served)?;
    let right = written.as_deref() == Some(form);
    holds(checker, properties::WRITTEN_FORM, right, &write)
}
