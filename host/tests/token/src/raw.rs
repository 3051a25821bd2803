//! The entries over slices. The numbers that a call writes are lent with whatever they hold, so that
//! a test sees what a call leaves in them, also after a refusal.

use crate::entries::{self, HASH_SIZE};
use uaf_peer::{Lent, MOST_FIELDS};

/// The numbers that a command writes.
#[derive(Clone, Copy, PartialEq, Eq, Debug)]
pub struct CommandNumbers {
    pub answer: u32,
    pub response_length: usize,
    pub table_length: usize,
}

/// The numbers that the reader's first call writes.
#[derive(Clone, Copy, PartialEq, Eq, Debug)]
pub struct PartNumbers {
    pub place: usize,
    pub length: usize,
}

/// The numbers and arrays that the reader's second call writes.
#[derive(Clone, Copy, PartialEq, Eq, Debug)]
pub struct FieldNumbers {
    pub tag: usize,
    pub status: usize,
    pub count: usize,
    pub tags: [usize; MOST_FIELDS],
    pub places: [usize; MOST_FIELDS],
    pub lengths: [usize; MOST_FIELDS],
}

/// `uaf_command`; gives 0 or the refusal.
pub fn command(
    command: &[u8],
    lent: &Lent,
    table: &[u8],
    response: &mut [u8],
    table_out: &mut [u8],
    numbers: &mut CommandNumbers,
) -> u32 {
    let profile = &lent.profile;
    // Safety: every pointer goes with the length of its slice, and the borrows keep outputs and
    // numbers apart from each other and from the inputs.
    unsafe {
        entries::uaf_command(
            command.as_ptr(),
            command.len(),
            profile.aaid.as_ptr(),
            profile.aaid.len(),
            profile.version,
            profile.signature_algorithm,
            profile.key_algorithm,
            profile.metadata.as_ptr(),
            profile.metadata.len(),
            lent.verdict,
            lent.display,
            lent.key_id.as_ptr(),
            lent.key_id.len(),
            lent.public_key.as_ptr(),
            lent.public_key.len(),
            lent.nonce.as_ptr(),
            lent.nonce.len(),
            table.as_ptr(),
            table.len(),
            response.as_mut_ptr(),
            response.len(),
            table_out.as_mut_ptr(),
            table_out.len(),
            &mut numbers.answer,
            &mut numbers.response_length,
            &mut numbers.table_length,
        )
    }
}

/// `uaf_withdraw`; gives 0 or the refusal.
pub fn withdraw(
    mixed: &[u8],
    key_id: &[u8],
    table: &[u8],
    table_out: &mut [u8],
    table_length: &mut usize,
) -> u32 {
    // Safety: as in `command`.
    unsafe {
        entries::uaf_withdraw(
            mixed.as_ptr(),
            mixed.len(),
            key_id.as_ptr(),
            key_id.len(),
            table.as_ptr(),
            table.len(),
            table_out.as_mut_ptr(),
            table_out.len(),
            table_length,
        )
    }
}

/// `uaf_hash`, which has no refusal.
pub fn hash(first: &[u8], second: &[u8], hash: &mut [u8; HASH_SIZE]) {
    // Safety: as in `command`.
    unsafe {
        entries::uaf_hash(
            first.as_ptr(),
            first.len(),
            second.as_ptr(),
            second.len(),
            hash,
        );
    }
}

/// `uaf_complete`; gives 0 or the refusal.
pub fn complete(
    kind: u32,
    draft: &[u8],
    attestation: u32,
    signature: &[u8],
    certificate: &[u8],
    response: &mut [u8],
    response_length: &mut usize,
) -> u32 {
    // Safety: as in `command`.
    unsafe {
        entries::uaf_complete(
            kind,
            draft.as_ptr(),
            draft.len(),
            attestation,
            signature.as_ptr(),
            signature.len(),
            certificate.as_ptr(),
            certificate.len(),
            response.as_mut_ptr(),
            response.len(),
            response_length,
        )
    }
}

/// `uaf_signed_part`; gives 0 or the refusal.
pub fn signed_part(response: &[u8], numbers: &mut PartNumbers) -> u32 {
    // Safety: as in `command`.
    unsafe {
        entries::uaf_signed_part(
            response.as_ptr(),
            response.len(),
            &mut numbers.place,
            &mut numbers.length,
        )
    }
}

/// `uaf_read_fields`; gives 0 or the refusal.
pub fn read_fields(response: &[u8], numbers: &mut FieldNumbers) -> u32 {
    // Safety: as in `command`.
    unsafe {
        entries::uaf_read_fields(
            response.as_ptr(),
            response.len(),
            &mut numbers.tag,
            &mut numbers.status,
            &mut numbers.count,
            &mut numbers.tags,
            &mut numbers.places,
            &mut numbers.lengths,
        )
    }
}

/// `uaf_write_get_info`; gives 0 or the refusal.
pub fn write_get_info(command: &mut [u8], command_length: &mut usize) -> u32 {
    // Safety: as in `command`.
    unsafe { entries::uaf_write_get_info(command.as_mut_ptr(), command.len(), command_length) }
}

/// `uaf_write_register`; gives 0 or the refusal.
#[allow(clippy::too_many_arguments)]
pub fn write_register(
    app_id_given: u32,
    app_id: &[u8],
    challenge: &[u8],
    username: &[u8],
    attestation: u32,
    access_token: &[u8],
    verify_token_given: u32,
    verify_token: &[u8],
    command: &mut [u8],
    command_length: &mut usize,
) -> u32 {
    // Safety: as in `command`.
    unsafe {
        entries::uaf_write_register(
            app_id_given,
            app_id.as_ptr(),
            app_id.len(),
            challenge.as_ptr(),
            challenge.len(),
            username.as_ptr(),
            username.len(),
            attestation,
            access_token.as_ptr(),
            access_token.len(),
            verify_token_given,
            verify_token.as_ptr(),
            verify_token.len(),
            command.as_mut_ptr(),
            command.len(),
            command_length,
        )
    }
}

/// `uaf_write_sign`; gives 0 or the refusal.
#[allow(clippy::too_many_arguments)]
pub fn write_sign(
    app_id_given: u32,
    app_id: &[u8],
    challenge: &[u8],
    content_given: u32,
    content: &[u8],
    access_token: &[u8],
    verify_token_given: u32,
    verify_token: &[u8],
    handles: &[u8],
    handle_sizes: &[usize],
    command: &mut [u8],
    command_length: &mut usize,
) -> u32 {
    // Safety: as in `command`; the lengths of handles are an array of as many elements.
    unsafe {
        entries::uaf_write_sign(
            app_id_given,
            app_id.as_ptr(),
            app_id.len(),
            challenge.as_ptr(),
            challenge.len(),
            content_given,
            content.as_ptr(),
            content.len(),
            access_token.as_ptr(),
            access_token.len(),
            verify_token_given,
            verify_token.as_ptr(),
            verify_token.len(),
            handles.as_ptr(),
            handles.len(),
            handle_sizes.as_ptr(),
            handle_sizes.len(),
            command.as_mut_ptr(),
            command.len(),
            command_length,
        )
    }
}

/// `uaf_write_deregister`; gives 0 or the refusal.
pub fn write_deregister(
    app_id_given: u32,
    app_id: &[u8],
    key_id: &[u8],
    access_token: &[u8],
    command: &mut [u8],
    command_length: &mut usize,
) -> u32 {
    // Safety: as in `command`.
    unsafe {
        entries::uaf_write_deregister(
            app_id_given,
            app_id.as_ptr(),
            app_id.len(),
            key_id.as_ptr(),
            key_id.len(),
            access_token.as_ptr(),
            access_token.len(),
            command.as_mut_ptr(),
            command.len(),
            command_length,
        )
    }
}

/// `uaf_write_open_settings`; gives 0 or the refusal.
pub fn write_open_settings(command: &mut [u8], command_length: &mut usize) -> u32 {
    // Safety: as in `command`.
    unsafe { entries::uaf_write_open_settings(command.as_mut_ptr(), command.len(), command_length) }
}
