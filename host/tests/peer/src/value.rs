//! The key table by value: a command and a withdrawal on it, and the ways to and from its stored form.

use crate::command::command;
use crate::numbers::{LEAST_RESPONSE, LEAST_TABLE, MOST_NAME, MOST_RECORDS};
use crate::table::{write_record, Table};
use crate::tlv::Writer;
use crate::withdraw::Values;
use crate::{Answer, Lent, Refusal};

/// "A record has a KeyID of 32 bytes, a mixed token of 32 bytes, a username of 1 to 128 bytes and a
/// 32-bit SignCounter." The username is UTF-8.
#[derive(Clone, Copy, PartialEq, Eq, Debug)]
pub struct RecordValue {
    /// The KeyID.
    pub key_id: [u8; 32],
    /// The mixed token.
    pub mixed: [u8; 32],
    /// The username; bytes past its length are no part of it.
    pub name: [u8; 128],
    /// The username's length.
    pub name_length: usize,
    /// The SignCounter.
    pub counter: u32,
}

/// A table by value, "oldest first". It may break a rule, and then every call refuses it.
#[derive(Clone, PartialEq, Eq, Debug)]
pub struct TableValue {
    /// The records; those past the count are no part of the table.
    pub records: [RecordValue; 32],
    /// How many there are.
    pub count: usize,
}

const NO_RECORD: RecordValue = RecordValue {
    key_id: [0; 32],
    mixed: [0; 32],
    name: [0; MOST_NAME],
    name_length: 0,
    counter: 0,
};

/// The table without records.
impl Default for TableValue {
    fn default() -> Self {
        TableValue {
            records: [NO_RECORD; MOST_RECORDS],
            count: 0,
        }
    }
}

/// The table of a stored form. What is no part of it is 0.
///
/// # Errors
///
/// [`Refusal::Table`] if the stored form breaks a rule.
pub fn load(stored: &[u8]) -> Result<TableValue, Refusal> {
    let mut read = Table::new();
    read.read(stored).ok_or(Refusal::Table)?;
    let mut table = TableValue::default();
    for (value, record) in table.records.iter_mut().zip(read.records()) {
        value.key_id = *record.key_id;
        value.mixed = *record.mixed;
        value.name_length = record.username().len();
        for (place, &byte) in value.name.iter_mut().zip(record.username()) {
            *place = byte;
        }
        value.counter = record.counter();
    }
    table.count = read.count();
    Ok(table)
}

/// Writes the stored form of a table. Gives its length.
///
/// # Errors
///
/// The first that applies of [`Refusal::Output`] and [`Refusal::Table`].
pub fn store(table: &TableValue, table_out: &mut [u8]) -> Result<usize, Refusal> {
    if table_out.len() < LEAST_TABLE {
        return Err(Refusal::Output);
    }
    let mut form = [0; LEAST_TABLE];
    let form = stored_form(table, &mut form).ok_or(Refusal::Table)?;
    let mut out = Writer::new(table_out);
    out.put(form);
    Ok(out.length())
}

/// Runs a command on a table by value, which becomes the table left. No stored table is written, so
/// there is no second output that could be too short.
///
/// # Errors
///
/// The first that applies of [`Refusal::Output`], [`Refusal::Table`], [`Refusal::Command`] and
/// [`Refusal::Lent`]; the table is then as it came.
pub fn command_by_value(
    bytes: &[u8],
    lent: &Lent,
    table: &mut TableValue,
    response: &mut [u8],
) -> Result<Answer, Refusal> {
    if response.len() < LEAST_RESPONSE {
        return Err(Refusal::Output);
    }
    let (mut given, mut left) = ([0; LEAST_TABLE], [0; LEAST_TABLE]);
    let given = stored_form(table, &mut given).ok_or(Refusal::Table)?;
    let served = command(bytes, lent, given, response, &mut left)?;
    // A table left obeys the rules, so it can be read.
    if let Some(Ok(left)) = left.get(..served.table_length).map(load) {
        *table = left;
    }
    Ok(served.answer)
}

/// Takes back a registration, as [`withdraw`](crate::withdraw) does, from a table by value, which
/// becomes the table left.
///
/// # Errors
///
/// The first that applies of [`Refusal::Table`], [`Refusal::Lent`] and [`Refusal::Withdrawal`]; the
/// table is then as it came.
pub fn withdraw_by_value(
    mixed: &[u8],
    key_id: &[u8],
    table: &mut TableValue,
) -> Result<(), Refusal> {
    stored_form(table, &mut [0; LEAST_TABLE]).ok_or(Refusal::Table)?;
    let lent = Values::of(mixed, key_id).ok_or(Refusal::Lent)?;
    let records = table.records.get_mut(..table.count).unwrap_or_default();
    let newest = records
        .iter()
        .rposition(|record| record.mixed == *lent.mixed);
    let since = newest.and_then(|newest| records.get_mut(newest..));
    let since = since.unwrap_or_default();
    match since.first_mut() {
        Some(newest) if lent.fit(&newest.key_id, newest.counter) => *newest = NO_RECORD,
        _ => return Err(Refusal::Withdrawal),
    }
    // Those after it close the gap, and what is left of it is no part of the table.
    since.rotate_left(1);
    table.count -= 1;
    Ok(())
}

/// The stored form, if no rule is broken. By value a count or a name's length can be greater than
/// there is room for; all other rules are those of the stored form, and are judged in it.
fn stored_form<'a>(table: &TableValue, form: &'a mut [u8; LEAST_TABLE]) -> Option<&'a [u8]> {
    let mut out = Writer::new(form);
    for record in table.records.get(..table.count)? {
        let name = record.name.get(..record.name_length)?;
        write_record(
            &record.key_id,
            &record.mixed,
            name,
            record.counter,
            &mut out,
        );
    }
    let length = out.length();
    let form = form.get(..length)?;
    Table::new().read(form)?;
    Some(form)
}
