//! The terminal's commands: "a writer for all five, children in the order of 001's tables, key
//! handles as given".
//!
//! A writer gives 0 or the number of a refusal: "6: a field or the number of key handles breaks
//! document 01's rules as amended, or the command exceeds 8,192 bytes; checked first. Refusal 1 here
//! means an output shorter than the command and comes after 6." A refusal has changed nothing, as
//! the command's length is known before its first byte is written.
//!
//! A field that may be left away comes with a mark: 1 if it is given; 0 if not, and then its bytes
//! are not looked at. Any other mark is 6.

use crate::numbers::{limit, tag, Kind, INDEX, MOST_COMMAND, MOST_HANDLES};
use crate::tlv::{Limit, Writer};
use crate::Refusal;

/// "the rest any", as far as a command has room: no sum of such lengths is out of range.
const ANY: Limit = Limit::Between(0, MOST_COMMAND);

/// The length of a TLV's tag and length.
const HEADER: usize = 4;
/// The length of a key handle, which is a KeyID.
const HANDLE: usize = 32;
/// The sizes of children that have but one.
const INDEX_SIZE: usize = HEADER + 1;
const ATTESTATION_SIZE: usize = HEADER + 2;
const HANDLE_SIZE: usize = HEADER + HANDLE;

/// Writes a GetInfo. Gives 0, or 1.
pub fn write_get_info(command: &mut [u8], command_length: &mut usize) -> u32 {
    number(command_length, || {
        let out = start(Kind::GetInfo, 0, command)?;
        Ok(out.length())
    })
}

/// Writes a Register. Gives 0, or the first that applies of 6 and 1.
///
/// Any attestation type of 16 bits obeys the rule, also one that Register does not support.
#[allow(clippy::too_many_arguments)]
pub fn write_register(
    app_id_given: u32,
    app_id: &[u8],
    challenge: &[u8],
    username: &[u8],
    attestation: u32,
    access_token: &[u8],
    verify_token_given: u32,
    verify_token: &[u8],
    command: &mut [u8],
    command_length: &mut usize,
) -> u32 {
    number(command_length, || {
        let app_id = marked(app_id_given, app_id, limit::APP_ID)?;
        let challenge = given(challenge, limit::CHALLENGE)?;
        let username = given(username, limit::USERNAME)?;
        let attestation = u16::try_from(attestation).map_err(|_| Refusal::Field)?;
        let access_token = given(access_token, limit::ACCESS_TOKEN)?;
        let verify_token = marked(verify_token_given, verify_token, ANY)?;
        let inside = INDEX_SIZE
            + size_if(app_id)
            + size(challenge)
            + size(username)
            + ATTESTATION_SIZE
            + size(access_token)
            + size_if(verify_token);
        let mut out = start(Kind::Register, inside, command)?;
        out.tlv(tag::AUTHENTICATOR_INDEX, &INDEX);
        tlv_if(&mut out, tag::APPID, app_id);
        out.tlv(tag::FINAL_CHALLENGE_HASH, challenge);
        out.tlv(tag::USERNAME, username);
        out.tlv(tag::ATTESTATION_TYPE, &attestation.to_le_bytes());
        out.tlv(tag::KEYHANDLE_ACCESS_TOKEN, access_token);
        tlv_if(&mut out, tag::USERVERIFY_TOKEN, verify_token);
        Ok(out.length())
    })
}

/// Writes a Sign. Gives 0, or the first that applies of 6 and 1.
///
/// The key handles run together, with the length of each beside them. They are written in their
/// order, and one that is given twice is written twice.
#[allow(clippy::too_many_arguments)]
pub fn write_sign(
    app_id_given: u32,
    app_id: &[u8],
    challenge: &[u8],
    content_given: u32,
    content: &[u8],
    access_token: &[u8],
    verify_token_given: u32,
    verify_token: &[u8],
    handles: &[u8],
    handle_sizes: &[usize],
    command: &mut [u8],
    command_length: &mut usize,
) -> u32 {
    number(command_length, || {
        let app_id = marked(app_id_given, app_id, limit::APP_ID)?;
        let challenge = given(challenge, limit::CHALLENGE)?;
        let content = marked(content_given, content, ANY)?;
        let access_token = given(access_token, limit::ACCESS_TOKEN)?;
        let verify_token = marked(verify_token_given, verify_token, ANY)?;
        // "key handle 32 (here it carries a KeyID), at most 8 of them". The lengths add up to the
        // stretch if that is as long as so many handles.
        let right = handle_sizes.len() <= MOST_HANDLES
            && handle_sizes.iter().all(|&size| size == HANDLE)
            && handles.len() == handle_sizes.len() * HANDLE;
        if !right {
            return Err(Refusal::Field);
        }
        let inside = INDEX_SIZE
            + size_if(app_id)
            + size(challenge)
            + size_if(content)
            + size(access_token)
            + size_if(verify_token)
            + handle_sizes.len() * HANDLE_SIZE;
        let mut out = start(Kind::Sign, inside, command)?;
        out.tlv(tag::AUTHENTICATOR_INDEX, &INDEX);
        tlv_if(&mut out, tag::APPID, app_id);
        out.tlv(tag::FINAL_CHALLENGE_HASH, challenge);
        tlv_if(&mut out, tag::TRANSACTION_CONTENT, content);
        out.tlv(tag::KEYHANDLE_ACCESS_TOKEN, access_token);
        tlv_if(&mut out, tag::USERVERIFY_TOKEN, verify_token);
        for handle in handles.chunks_exact(HANDLE) {
            out.tlv(tag::KEYHANDLE, handle);
        }
        Ok(out.length())
    })
}

/// Writes a Deregister. Gives 0, or the first that applies of 6 and 1.
pub fn write_deregister(
    app_id_given: u32,
    app_id: &[u8],
    key_id: &[u8],
    access_token: &[u8],
    command: &mut [u8],
    command_length: &mut usize,
) -> u32 {
    number(command_length, || {
        let app_id = marked(app_id_given, app_id, limit::APP_ID)?;
        let key_id = given(key_id, limit::KEY_ID_OR_ALL)?;
        let access_token = given(access_token, limit::ACCESS_TOKEN)?;
        let inside = INDEX_SIZE + size_if(app_id) + size(key_id) + size(access_token);
        let mut out = start(Kind::Deregister, inside, command)?;
        out.tlv(tag::AUTHENTICATOR_INDEX, &INDEX);
        tlv_if(&mut out, tag::APPID, app_id);
        out.tlv(tag::KEYID, key_id);
        out.tlv(tag::KEYHANDLE_ACCESS_TOKEN, access_token);
        Ok(out.length())
    })
}

/// Writes an Open settings. Gives 0, or 1.
pub fn write_open_settings(command: &mut [u8], command_length: &mut usize) -> u32 {
    number(command_length, || {
        let mut out = start(Kind::OpenSettings, INDEX_SIZE, command)?;
        out.tlv(tag::AUTHENTICATOR_INDEX, &INDEX);
        Ok(out.length())
    })
}

/// Gives 0 and sets the length that was written, or gives the refusal.
#[inline(always)]
fn number(command_length: &mut usize, write: impl FnOnce() -> Result<usize, Refusal>) -> u32 {
    match write() {
        Ok(length) => {
            *command_length = length;
            0
        }
        Err(refusal) => refusal as u32,
    }
}

/// A field that obeys its rule.
#[inline(always)]
fn given(value: &[u8], limit: Limit) -> Result<&[u8], Refusal> {
    if limit.allows(value) {
        Ok(value)
    } else {
        Err(Refusal::Field)
    }
}

/// A field that obeys its rule, if the mark says that it is given.
#[inline(always)]
fn marked(mark: u32, value: &[u8], limit: Limit) -> Result<Option<&[u8]>, Refusal> {
    match mark {
        0 => Ok(None),
        1 => given(value, limit).map(Some),
        _ => Err(Refusal::Field),
    }
}

/// The size of the child that a field makes.
#[inline(always)]
fn size(value: &[u8]) -> usize {
    HEADER + value.len()
}

#[inline(always)]
fn size_if(value: Option<&[u8]>) -> usize {
    value.map_or(0, size)
}

#[inline(always)]
fn tlv_if(out: &mut Writer, tag: u16, value: Option<&[u8]>) {
    if let Some(value) = value {
        out.tlv(tag, value);
    }
}

/// Starts a command whose children have this size in all. The last checks are here, so that no
/// refusal comes after it.
#[inline(always)]
fn start(kind: Kind, inside: usize, command: &mut [u8]) -> Result<Writer<'_>, Refusal> {
    let length = HEADER + inside;
    if length > MOST_COMMAND {
        return Err(Refusal::Field);
    }
    let mut out = Writer::new(command.get_mut(..length).ok_or(Refusal::Output)?);
    out.header(kind.command_tag(), inside);
    Ok(out)
}
