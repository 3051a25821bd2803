//! The form of a command: "any accepted command has one such form with the same effect". It has the
//! children that the command lists, "in the order of 001's tables, key handles as given, skipped
//! tags left away".
//!
//! What the writers would write of a command's fields is told here without them, child by child. It
//! is for tests, and the one part that has a heap.

use crate::numbers::{tag, Kind};
use crate::params::Params;
use crate::tlv::Run;
use alloc::vec::Vec;

/// The children in the order of 001's table: 6.1.2, 6.2.1, 6.3.1, 6.4.1 and 6.5.1.
fn table(kind: Kind) -> &'static [u16] {
    match kind {
        Kind::GetInfo => &[],
        Kind::Register => &[
            tag::AUTHENTICATOR_INDEX,
            tag::APPID,
            tag::FINAL_CHALLENGE_HASH,
            tag::USERNAME,
            tag::ATTESTATION_TYPE,
            tag::KEYHANDLE_ACCESS_TOKEN,
            tag::USERVERIFY_TOKEN,
        ],
        Kind::Sign => &[
            tag::AUTHENTICATOR_INDEX,
            tag::APPID,
            tag::FINAL_CHALLENGE_HASH,
            tag::TRANSACTION_CONTENT,
            tag::KEYHANDLE_ACCESS_TOKEN,
            tag::USERVERIFY_TOKEN,
            tag::KEYHANDLE,
        ],
        Kind::Deregister => &[
            tag::AUTHENTICATOR_INDEX,
            tag::APPID,
            tag::KEYID,
            tag::KEYHANDLE_ACCESS_TOKEN,
        ],
        Kind::OpenSettings => &[tag::AUTHENTICATOR_INDEX],
    }
}

/// Sets `out` to the form of a command and gives true; gives false, and leaves `out` as it is, if
/// the bytes are none of the five commands or break a rule under "TLV bytes".
pub fn form_of(command: &[u8], out: &mut Vec<u8>) -> bool {
    match form(command) {
        Some(form) => *out = form,
        None => return false,
    }
    true
}

/// Nothing, if the command is refused with 3 or answered with 0x08.
fn form(command: &[u8]) -> Option<Vec<u8>> {
    let kind = Kind::of_command(command)?;
    Params::new().read(kind, command)?;
    let given = Run::new(command).sole(kind.command_tag())?;
    let mut children = Vec::new();
    for &listed in table(kind) {
        let those = given.clone().flatten().filter(|child| child.tag == listed);
        those.for_each(|child| put(&mut children, child.tag, child.value));
    }
    let mut form = Vec::new();
    put(&mut form, kind.command_tag(), &children);
    Some(form)
}

/// A form is no longer than its command, so 16 bits hold every length.
fn put(bytes: &mut Vec<u8>, tag: u16, value: &[u8]) {
    bytes.extend_from_slice(&tag.to_le_bytes());
    bytes.extend_from_slice(&(value.len() as u16).to_le_bytes());
    bytes.extend_from_slice(value);
}
