//! Whole afternoons: several holders' calls, each given the table that the last one left.

use crate::apart::{self, Call, Step};
use crate::calls::{CommandCall, Expect, WithdrawCall, LEAST_RESPONSE, LEAST_TABLE};
use crate::check::{Checked, Checker, Read, Wrote};
use crate::damage;
use crate::follow;
use crate::form;
use crate::gen_command;
use crate::gen_holder::{self, Holder};
use crate::gen_lent;
use crate::gen_table::{self, decode};
use crate::registered::Registered;
use crate::rng::Rng;
use crate::scene::Scene;
use crate::singles;
use crate::tlv::{self, Child, Kind};
use crate::withdrawals;

/// A name that a holder may pick from the list it got.
struct Choice {
    holder: Holder,
    key_id: [u8; 32],
}

struct Afternoon {
    holders: Vec<Holder>,
    /// Every Register is lent a new KeyID.
    fresh: bool,
    table: Vec<u8>,
    choice: Option<Choice>,
    registered: Registered,
    steps: Vec<Step>,
}

impl Afternoon {
    fn new(rng: &mut Rng) -> Afternoon {
        let number = rng.between(1, 6);
        let holders = gen_holder::holders(rng, number);
        let table = if rng.percent(85) {
            Vec::new()
        } else {
            gen_table::encode(&gen_table::right(rng, &holders))
        };
        Afternoon {
            holders,
            fresh: rng.percent(60),
            table,
            choice: None,
            registered: Registered::default(),
            steps: Vec::new(),
        }
    }

    fn scene(&self, rng: &mut Rng) -> Scene {
        let holder = self.holders[rng.below(self.holders.len())].clone();
        Scene::new(decode(&self.table), holder)
    }
}

/// A Sign with the key handle picked from the list.
fn chosen_sign(rng: &mut Rng, choice: Choice, scene: Scene) -> CommandCall {
    let scene = &Scene::new(scene.records, choice.holder);
    let mut call = singles::right_command(rng, Kind::Sign, scene);
    let mut children = gen_command::listed(rng, Kind::Sign, scene);
    children.retain(|child| child.tag != tlv::KEYHANDLE);
    children.push(Child::new(tlv::KEYHANDLE, choice.key_id));
    call.command = tlv::holding(tlv::SIGN, &children);
    call
}

/// A Sign without handles, by which a holder of several records gets its list.
fn open_sign(rng: &mut Rng, scene: &Scene) -> CommandCall {
    let mut call = singles::right_command(rng, Kind::Sign, scene);
    let mut children = gen_command::listed(rng, Kind::Sign, scene);
    children.retain(|child| child.tag != tlv::KEYHANDLE);
    call.command = tlv::holding(tlv::SIGN, &children);
    call
}

fn spoil(rng: &mut Rng, call: &mut CommandCall) {
    match rng.below(4) {
        0 => call.response_size = LEAST_RESPONSE - 1,
        1 => call.table_out_size = LEAST_TABLE - 1,
        2 => {
            if let Some(kind) = Kind::of(&call.command) {
                gen_lent::spoil_used(rng, &mut call.lent, kind);
            }
        }
        _ => {
            let other = call.table.clone();
            damage::damage(rng, &mut call.command, &other);
        }
    }
}

/// A withdrawal, mostly of what was registered and since then left alone by its holder.
fn next_withdrawal(rng: &mut Rng, afternoon: &Afternoon) -> WithdrawCall {
    let scene = afternoon.scene(rng);
    let (mixed, key_id) = match afternoon.registered.some(rng) {
        Some(values) if rng.percent(70) => values,
        _ => (scene.holder.mixed(), scene.key_id(rng)),
    };
    let mut call = WithdrawCall {
        mixed: mixed.to_vec(),
        key_id: key_id.to_vec(),
        table: afternoon.table.clone(),
        table_out_size: singles::enough(rng, LEAST_TABLE),
    };
    match rng.below(25) {
        0 => call.table_out_size = LEAST_TABLE - 1,
        1 => {
            withdrawals::spoil_lengths(rng, &mut call);
        }
        _ => {}
    }
    call
}

/// The next call; a withdrawal comes more often directly after a Register.
fn next_call(rng: &mut Rng, afternoon: &mut Afternoon) -> Call {
    let share = if afternoon.registered.is_last() {
        20
    } else {
        8
    };
    if rng.percent(share) {
        Call::Withdrawal(next_withdrawal(rng, afternoon))
    } else {
        Call::Command(next_command(rng, afternoon))
    }
}

/// Mostly the fingerprint is verified, so that the table comes to life.
fn next_command(rng: &mut Rng, afternoon: &mut Afternoon) -> CommandCall {
    let scene = afternoon.scene(rng);
    let choice = afternoon.choice.take();
    let mut call = match choice {
        Some(choice) if rng.percent(60) => chosen_sign(rng, choice, scene),
        _ => match rng.weighed(&[45, 20, 15, 10, 4, 3, 3]) {
            0 => singles::right_command(rng, Kind::Register, &scene),
            1 => open_sign(rng, &scene),
            2 => singles::right_command(rng, Kind::Sign, &scene),
            3 => singles::right_command(rng, Kind::Deregister, &scene),
            4 => singles::right_command(rng, Kind::GetInfo, &scene),
            5 => singles::right_command(rng, Kind::OpenSettings, &scene),
            _ => {
                let mut call = singles::right_command(rng, Kind::Sign, &scene);
                call.command = damage::noise(rng, tlv::REGISTER);
                call
            }
        },
    };
    if rng.percent(60) {
        call.lent.verdict = 0;
    }
    if afternoon.fresh {
        call.lent.key_id = rng.bytes(32);
    }
    if rng.one_in(25) {
        spoil(rng, &mut call);
    }
    call
}

/// A name of the list that was answered, if it was one.
fn choice_of(rng: &mut Rng, call: &CommandCall, wrote: &Wrote, read: &Read) -> Option<Choice> {
    let fields = &read.fields;
    let handles: Vec<usize> = (0..fields.count)
        .filter(|&i| fields.tags[i] == usize::from(tlv::KEYHANDLE))
        .collect();
    if handles.is_empty() {
        return None;
    }
    let place = fields.places[rng.pick(&handles)];
    let mut key_id = [0; 32];
    key_id.copy_from_slice(&wrote.response[place..place + 32]);
    let holder = form::holder_of(&form::fields(&call.command)?)?;
    Some(Choice { holder, key_id })
}

/// Makes a command; its draft is completed, its response read.
fn make_command(
    rng: &mut Rng,
    checker: &mut Checker,
    afternoon: &mut Afternoon,
    call: &CommandCall,
) -> Checked<Result<Wrote, u32>> {
    let answer = checker.command(call, Expect::Anything)?;
    if let Ok(wrote) = &answer {
        if let Some(read) = follow::follow(rng, checker, wrote)? {
            afternoon.choice = choice_of(rng, call, wrote, &read);
        }
    }
    Ok(answer)
}

/// Makes a withdrawal, of which more is known where it is of what was registered.
fn make_withdrawal(
    checker: &mut Checker,
    afternoon: &Afternoon,
    call: &WithdrawCall,
) -> Checked<Result<Wrote, u32>> {
    let answer = checker.withdraw(call, Expect::Anything)?;
    afternoon.registered.check(checker, call, &answer)?;
    Ok(answer.map(Wrote::table_alone))
}

/// An afternoon of 5 to 200 calls. Drafts are completed and responses read. At the end one holder's
/// calls are made again without the others'.
pub fn afternoon(rng: &mut Rng, checker: &mut Checker) -> Checked<()> {
    let mut afternoon = Afternoon::new(rng);
    let from_empty = afternoon.table.is_empty();
    let number = if rng.one_in(4) {
        rng.between(5, 200)
    } else {
        rng.between(5, 60)
    };
    for _ in 0..number {
        let call = next_call(rng, &mut afternoon);
        let answer = match &call {
            Call::Command(call) => make_command(rng, checker, &mut afternoon, call)?,
            Call::Withdrawal(call) => make_withdrawal(checker, &afternoon, call)?,
        };
        if let Ok(wrote) = &answer {
            afternoon.table = wrote.table.clone();
        }
        let step = Step::new(call, answer);
        afternoon.registered.note(&step);
        afternoon.steps.push(step);
    }
    if from_empty {
        let holder = &afternoon.holders[rng.below(afternoon.holders.len())];
        apart::check(rng, checker, &holder.mixed(), &afternoon.steps)?;
    }
    Ok(())
}
