//! The tote window token of document 01: the command machine of a FIDO UAF first-factor roaming
//! authenticator.
//!
//! Written from the papers alone, to be compared call by call with the proved token. Quotations are
//! document 01's, or document 02's where that amends it. There is no heap, but for [`form_of`], and
//! no state: a call is lent bytes and numbers, and gives a refusal or writes into the caller's
//! outputs. "After these only statuses follow": nothing is written before the last refusal has been
//! ruled out.

#![no_std]
#![forbid(unsafe_code)]
#![warn(missing_docs)]

extern crate alloc;

mod command;
mod complete;
mod draft;
mod form;
mod lent;
mod numbers;
mod params;
mod reader;
mod sha256;
mod table;
mod tlv;
mod value;
mod withdraw;
mod writer;

pub use command::command;
pub use complete::complete;
pub use form::form_of;
pub use reader::{read_fields, read_rows, signed_part, Fields, Heading, MOST_FIELDS};
pub use sha256::hash;
pub use tlv::Field;
pub use value::{command_by_value, load, store, withdraw_by_value, RecordValue, TableValue};
pub use withdraw::withdraw;
pub use writer::{
    write_deregister, write_get_info, write_open_settings, write_register, write_sign,
};

/// "The profile is lent": who the token is.
///
/// Lent numbers have 32 bits, here and in [`Lent`], so that nothing is cut off before it is judged:
/// one out of range is refused where the command uses it.
#[derive(Clone, Copy, Debug)]
pub struct Profile<'a> {
    /// AAID of 9 bytes.
    pub aaid: &'a [u8],
    /// The authenticator's version, at most 65,535.
    pub version: u32,
    /// The signature algorithm, at most 65,535.
    pub signature_algorithm: u32,
    /// The public-key algorithm, at most 65,535.
    pub key_algorithm: u32,
    /// Metadata of 15 bytes.
    pub metadata: &'a [u8],
}

/// "keys, signatures, the fingerprint and the display lie outside and lend their results." Hashing is
/// the token's own: [`hash`].
#[derive(Clone, Copy, Debug)]
pub struct Lent<'a> {
    /// Who the token is.
    pub profile: Profile<'a>,
    /// The fingerprint's verdict, 0 to 5.
    pub verdict: u32,
    /// The display's result, 0 to 3.
    pub display: u32,
    /// A new KeyID of 32 bytes.
    pub key_id: &'a [u8],
    /// Its public key, 1 to 512 bytes.
    pub public_key: &'a [u8],
    /// A nonce of 8 to 32 bytes.
    pub nonce: &'a [u8],
}

/// Why a call was refused. A refused call has changed no output.
#[derive(Clone, Copy, PartialEq, Eq, Debug)]
#[repr(u32)]
pub enum Refusal {
    /// An output is too short.
    Output = 1,
    /// The table, or its stored form, breaks a rule.
    Table = 2,
    /// Fewer than 4 bytes, or none of the five commands.
    Command = 3,
    /// A lent result that is used has a wrong length or number.
    Lent = 4,
    /// No draft of this kind, or no response.
    Bytes = 5,
    /// A field that a command is to be written of breaks its rule, or the command would be too long.
    Field = 6,
    /// No record has both values, its counter is not 0, or it is not its holder's newest.
    Withdrawal = 7,
}

/// What a command wrote into the response output, with its length.
#[derive(Clone, Copy, PartialEq, Eq, Debug)]
pub enum Answer {
    /// A response.
    Response(usize),
    /// A draft alone, to be signed and completed.
    Draft(usize),
}

/// What a command wrote.
#[derive(Clone, Copy, PartialEq, Eq, Debug)]
pub struct Served {
    /// The response or draft.
    pub answer: Answer,
    /// The length of the stored form of the table left.
    pub table_length: usize,
}
