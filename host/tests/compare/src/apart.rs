//! Document 01's two afternoons: a holder's calls are made again among fewer of the others' calls,
//! and must be answered as before. A holder is the hash of access token and AppID, and a withdrawal is
//! a call of the holder whose mixed token it is lent.

use crate::calls::{CommandCall, WithdrawCall};
use crate::check::{fail, Checked, Checker, Wrote};
use crate::form;
use crate::gen_table::{decode, Record, MOST_RECORDS};
use crate::properties;
use crate::rng::Rng;
use crate::tlv::Kind;
use std::fmt::{self, Display, Formatter};
use uaf_peer::{Answer, Refusal};

/// A call that stands in an afternoon.
pub enum Call {
    Command(CommandCall),
    Withdrawal(WithdrawCall),
}

impl Call {
    pub fn table(&self) -> &[u8] {
        match self {
            Call::Command(call) => &call.table,
            Call::Withdrawal(call) => &call.table,
        }
    }

    /// The mixed token of the holder whose call it is, whatever it answers: a withdrawal is lent it.
    fn holder(&self) -> Option<[u8; 32]> {
        match self {
            Call::Command(call) => form::mixed_of(&call.command),
            Call::Withdrawal(call) => call.mixed[..].try_into().ok(),
        }
    }

    fn withdraws(&self) -> bool {
        matches!(self, Call::Withdrawal(_))
    }

    /// The KeyID that a Register is lent. That of a withdrawal does not count as lent.
    fn registers(&self) -> Option<&[u8]> {
        match self {
            Call::Command(call) if Kind::of(&call.command) == Some(Kind::Register) => {
                Some(&call.lent.key_id)
            }
            _ => None,
        }
    }
}

impl Display for Call {
    fn fmt(&self, f: &mut Formatter) -> fmt::Result {
        match self {
            Call::Command(call) => call.fmt(f),
            Call::Withdrawal(call) => call.fmt(f),
        }
    }
}

/// A call of an afternoon, with what it wrote or its refusal.
pub struct Step {
    call: Call,
    answer: Result<Wrote, u32>,
    /// Whose call it is, if it is anybody's.
    pub holder: Option<[u8; 32]>,
}

impl Step {
    pub fn new(call: Call, answer: Result<Wrote, u32>) -> Step {
        let holder = call.holder();
        Step {
            call,
            answer,
            holder,
        }
    }

    fn is_of(&self, holder: &[u8; 32]) -> bool {
        self.holder.as_ref() == Some(holder)
    }

    /// The KeyID of a Register that made a draft, and the table that it was given.
    pub fn registered(&self) -> Option<(&[u8], &[u8])> {
        let key_id = self.call.registers()?;
        let draft = self.answer.as_ref().map_or(false, |wrote| wrote.draft);
        draft.then(|| (key_id, self.call.table()))
    }

    fn table_left(&self) -> &[u8] {
        match &self.answer {
            Ok(wrote) => &wrote.table,
            Err(_) => self.call.table(),
        }
    }
}

fn own_records(table: &[u8], holder: &[u8; 32]) -> Vec<Record> {
    let mut records = decode(table);
    records.retain(|record| record.mixed == *holder);
    records
}

fn is_full(table: &[u8]) -> bool {
    decode(table).len() == MOST_RECORDS
}

/// Each Register was lent a KeyID that none before it was lent.
fn fresh(steps: &[Step]) -> bool {
    let mut lent: Vec<&[u8]> = Vec::new();
    for key_id in steps.iter().filter_map(|step| step.call.registers()) {
        if lent.contains(&key_id) {
            return false;
        }
        lent.push(key_id);
    }
    true
}

/// The token alone makes the call on another table.
fn again(call: &Call, table: &[u8]) -> Result<Wrote, u32> {
    let made = match call {
        Call::Command(call) => command_again(call, table),
        Call::Withdrawal(call) => withdraw_again(call, table),
    };
    made.map_err(|refusal| refusal as u32)
}

fn withdraw_again(call: &WithdrawCall, table: &[u8]) -> Result<Wrote, Refusal> {
    let mut left = vec![0; call.table_out_size];
    let length = uaf_token::withdraw(&call.mixed, &call.key_id, table, &mut left)?;
    left.truncate(length);
    Ok(Wrote::table_alone(left))
}

fn command_again(call: &CommandCall, table: &[u8]) -> Result<Wrote, Refusal> {
    let mut response = vec![0; call.response_size];
    let mut table_out = vec![0; call.table_out_size];
    let lent = call.lent.lend();
    let served = uaf_token::command(&call.command, &lent, table, &mut response, &mut table_out)?;
    let (draft, length) = match served.answer {
        Answer::Response(length) => (false, length),
        Answer::Draft(length) => (true, length),
    };
    response.truncate(length);
    table_out.truncate(served.table_length);
    Ok(Wrote {
        draft,
        response,
        table: table_out,
    })
}

fn same(one: &Result<Wrote, u32>, other: &Result<Wrote, u32>) -> bool {
    match (one, other) {
        (Ok(one), Ok(other)) => one.draft == other.draft && one.response == other.response,
        (Err(one), Err(other)) => one == other,
        _ => false,
    }
}

/// Makes the holder's calls and a share of the others' again, from the empty table. Nothing is said
/// where a Register of the holder finds a full table in either list, or a KeyID was lent twice.
pub fn check(
    rng: &mut Rng,
    checker: &mut Checker,
    holder: &[u8; 32],
    steps: &[Step],
) -> Checked<()> {
    if !fresh(steps) {
        return Ok(());
    }
    let others = rng.pick(&[0, 0, 50, 90]);
    let mut table = Vec::new();
    let mut withdrawn = false;
    for step in steps {
        let own = step.is_of(holder);
        let registers = own && step.call.registers().is_some();
        if registers && (is_full(step.call.table()) || is_full(&table)) {
            return Ok(());
        }
        if !own && !rng.percent(others) {
            continue;
        }
        let answer = again(&step.call, &table);
        let right = !own || same(&answer, &step.answer);
        if let Ok(wrote) = answer {
            table = wrote.table;
        }
        let records = own_records(&table, holder) == own_records(step.table_left(), holder);
        if !right || (own && !records) {
            return fail(properties::APART.into(), step.call.to_string());
        }
        withdrawn |= own && step.call.withdraws() && step.answer.is_ok();
    }
    checker.counts.add_property(properties::APART);
    if withdrawn {
        checker.counts.add_property(properties::APART_WITHDRAWN);
    }
    Ok(())
}
