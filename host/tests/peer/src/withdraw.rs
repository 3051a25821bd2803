//! The withdrawal on a stored table: "When the signing chip fails after Register, a key remains that
//! no server knows."

use crate::numbers::{Bytes32, LEAST_TABLE};
use crate::table::Table;
use crate::tlv::Writer;
use crate::Refusal;
use core::iter;

/// Takes back a registration "by mixed token and KeyID: that record goes, all others keep content and
/// order". `table_out` gets the stored form of the table left, whose length is given. There is no
/// response.
///
/// # Errors
///
/// The first that applies of [`Refusal::Output`], [`Refusal::Table`], [`Refusal::Lent`] and
/// [`Refusal::Withdrawal`].
pub fn withdraw(
    mixed: &[u8],
    key_id: &[u8],
    table: &[u8],
    table_out: &mut [u8],
) -> Result<usize, Refusal> {
    if table_out.len() < LEAST_TABLE {
        return Err(Refusal::Output);
    }
    let stored = table;
    let mut table = Table::new();
    table.read(stored).ok_or(Refusal::Table)?;
    let lent = Values::of(mixed, key_id).ok_or(Refusal::Lent)?;
    let gone = table
        .newest(lent.mixed)
        .filter(|newest| lent.fit(newest.key_id, newest.counter()))
        .ok_or(Refusal::Withdrawal)?;
    let mut out = Writer::new(table_out);
    table.write_without(iter::once(gone), &mut out);
    Ok(out.length())
}

/// The two values that a withdrawal is lent, each of 32 bytes.
pub(crate) struct Values<'a> {
    pub mixed: &'a Bytes32,
    key_id: &'a Bytes32,
}

impl<'a> Values<'a> {
    /// Nothing, if one has another length.
    pub(crate) fn of(mixed: &'a [u8], key_id: &'a [u8]) -> Option<Self> {
        Some(Values {
            mixed: mixed.try_into().ok()?,
            key_id: key_id.try_into().ok()?,
        })
    }

    /// Whether they fit the newest record with this mixed token, so that it goes. "no record has both
    /// values, its counter is not 0, or it isn't its holder's newest": as no KeyID is stored twice, each
    /// of the three is seen at that one record.
    pub(crate) fn fit(&self, key_id: &Bytes32, counter: u32) -> bool {
        self.key_id == key_id && counter == 0
    }
}
