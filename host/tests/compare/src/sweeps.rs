//! Sweeps: the bytes of one right call with each byte changed in turn, and cut at each place.

use crate::calls::{CommandCall, Expect, WithdrawCall, LEAST_TABLE};
use crate::check::{Checked, Checker};
use crate::follow;
use crate::gen_draft::{self, REGISTRATION, SIGN};
use crate::gen_holder::{self, Holder};
use crate::gen_name;
use crate::gen_response;
use crate::gen_table::{self, Record};
use crate::rng::Rng;
use crate::scene::Scene;
use crate::singles;

/// Longer ones would take the time of too many other calls.
const MOST_SWEPT: usize = 400;

/// Bytes that are short enough for a sweep.
fn some_short(rng: &mut Rng, make: impl Fn(&mut Rng) -> Vec<u8>) -> Vec<u8> {
    loop {
        let bytes = make(rng);
        if bytes.len() <= MOST_SWEPT {
            return bytes;
        }
    }
}

/// The bytes with the one at each place changed.
fn changed(rng: &mut Rng, bytes: &[u8]) -> Vec<Vec<u8>> {
    let mut all = Vec::new();
    for place in 0..bytes.len() {
        let mut other = bytes.to_vec();
        other[place] ^= rng.pick(&[0x01, 0x02, 0x10, 0x20, 0x80, 0xFF]);
        all.push(other);
    }
    all
}

/// The bytes up to each place.
fn cut(bytes: &[u8]) -> Vec<Vec<u8>> {
    (0..bytes.len()).map(|end| bytes[..end].to_vec()).collect()
}

fn both(rng: &mut Rng, bytes: &[u8]) -> Vec<Vec<u8>> {
    let mut all = changed(rng, bytes);
    all.extend(cut(bytes));
    all
}

/// A holder whose AppID is short.
fn short_holder(rng: &mut Rng) -> Holder {
    loop {
        let holder = gen_holder::new(rng);
        if holder.app_id.as_ref().map_or(0, Vec::len) <= 40 {
            return holder;
        }
    }
}

/// One or two records with short names, of which the holder has the first.
fn small_table(rng: &mut Rng, holder: &Holder) -> Vec<Record> {
    let number = rng.between(1, 2);
    let mut records = gen_table::records(rng, std::slice::from_ref(holder), number);
    for record in &mut records {
        let length = rng.between(1, 4);
        record.name = gen_name::of_length(rng, length);
    }
    records[0].mixed = holder.mixed();
    records
}

/// A call on a small table.
fn small_call(rng: &mut Rng) -> CommandCall {
    let holder = short_holder(rng);
    let records = small_table(rng, &holder);
    let scene = Scene::new(records, holder);
    let kind = singles::some_kind(rng);
    loop {
        let mut call = singles::right_command(rng, kind, &scene);
        call.lent.verdict = 0;
        if call.command.len() <= MOST_SWEPT {
            return call;
        }
    }
}

/// Each byte of a command.
pub fn command(rng: &mut Rng, checker: &mut Checker) -> Checked<()> {
    let mut call = small_call(rng);
    for bytes in both(rng, &call.command) {
        call.command = bytes;
        checker.command(&call, Expect::Anything).map(drop)?;
    }
    Ok(())
}

/// Each byte of a stored table.
pub fn table(rng: &mut Rng, checker: &mut Checker) -> Checked<()> {
    let mut call = small_call(rng);
    for bytes in both(rng, &call.table) {
        call.table = bytes;
        checker.command(&call, Expect::Anything).map(drop)?;
    }
    Ok(())
}

/// A withdrawal of the last record of a small table.
fn small_withdrawal(rng: &mut Rng) -> WithdrawCall {
    let holder = short_holder(rng);
    let mut records = small_table(rng, &holder);
    let last = records.last_mut().expect("at least one");
    last.counter = 0;
    WithdrawCall {
        mixed: last.mixed.to_vec(),
        key_id: last.key_id.to_vec(),
        table: gen_table::encode(&records),
        table_out_size: LEAST_TABLE,
    }
}

/// A value with each byte changed, which is no record's, and cut at each place; each with its refusal.
fn wrong_values(rng: &mut Rng, value: &[u8]) -> Vec<(Vec<u8>, Expect)> {
    let changed = changed(rng, value).into_iter();
    let changed = changed.map(|other| (other, Expect::Refusal(7)));
    let cut = cut(value).into_iter();
    changed
        .chain(cut.map(|short| (short, Expect::Refusal(4))))
        .collect()
}

/// Each byte of the table, the mixed token and the KeyID of a withdrawal.
pub fn withdrawal(rng: &mut Rng, checker: &mut Checker) -> Checked<()> {
    let right = small_withdrawal(rng);
    checker.withdraw(&right, Expect::Served).map(drop)?;
    let mut call = right.clone();
    for bytes in both(rng, &right.table) {
        call.table = bytes;
        checker.withdraw(&call, Expect::Anything).map(drop)?;
    }
    call = right.clone();
    for (bytes, expect) in wrong_values(rng, &right.mixed) {
        call.mixed = bytes;
        checker.withdraw(&call, expect).map(drop)?;
    }
    call = right.clone();
    for (bytes, expect) in wrong_values(rng, &right.key_id) {
        call.key_id = bytes;
        checker.withdraw(&call, expect).map(drop)?;
    }
    Ok(())
}

/// Each byte of a draft.
pub fn draft(rng: &mut Rng, checker: &mut Checker) -> Checked<()> {
    let kind = rng.pick(&[REGISTRATION, SIGN]);
    let draft = some_short(rng, |rng| gen_draft::right(rng, kind));
    let mut call = follow::completion(rng, kind, draft);
    for bytes in both(rng, &call.draft) {
        call.draft = bytes;
        checker.complete(&call, Expect::Anything)?;
    }
    Ok(())
}

/// Each byte of a response.
pub fn response(rng: &mut Rng, checker: &mut Checker) -> Checked<()> {
    let response = some_short(rng, gen_response::right);
    for bytes in changed(rng, &response) {
        checker.read(&bytes, Expect::Anything)?;
    }
    for bytes in cut(&response) {
        checker.read(&bytes, Expect::Refusal(5))?;
    }
    Ok(())
}
