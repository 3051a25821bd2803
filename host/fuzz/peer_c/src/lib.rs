//! The independent implementation behind the token's C interface, so that a fuzz target and the
//! benchmark can call both alike. A refusal leaves the lent numbers as they are.

use core::slice;
use uaf_peer::{Answer, Lent, Profile, Refusal, MOST_FIELDS};

/// Numbers as the C interface has them.
const RESPONSE: u32 = 0;
const DRAFT: u32 = 1;

/// Gives 0 and does the rest, or gives the refusal.
fn number<T>(result: Result<T, Refusal>, write: impl FnOnce(T)) -> u32 {
    match result {
        Ok(given) => {
            write(given);
            0
        }
        Err(refusal) => refusal as u32,
    }
}

/// # Safety
///
/// As `uaf_command` in `uaf_token.h`.
#[no_mangle]
pub unsafe extern "C" fn peer_command(
    command: *const u8,
    command_size: usize,
    aaid: *const u8,
    aaid_size: usize,
    version: u32,
    signature_algorithm: u32,
    key_algorithm: u32,
    metadata: *const u8,
    metadata_size: usize,
    verdict: u32,
    display: u32,
    key_id: *const u8,
    key_id_size: usize,
    public_key: *const u8,
    public_key_size: usize,
    nonce: *const u8,
    nonce_size: usize,
    table: *const u8,
    table_size: usize,
    response: *mut u8,
    response_size: usize,
    table_out: *mut u8,
    table_out_size: usize,
    answer: *mut u32,
    response_length: *mut usize,
    table_length: *mut usize,
) -> u32 {
    let lent = Lent {
        profile: Profile {
            aaid: slice::from_raw_parts(aaid, aaid_size),
            version,
            signature_algorithm,
            key_algorithm,
            metadata: slice::from_raw_parts(metadata, metadata_size),
        },
        verdict,
        display,
        key_id: slice::from_raw_parts(key_id, key_id_size),
        public_key: slice::from_raw_parts(public_key, public_key_size),
        nonce: slice::from_raw_parts(nonce, nonce_size),
    };
    let result = uaf_peer::command(
        slice::from_raw_parts(command, command_size),
        &lent,
        slice::from_raw_parts(table, table_size),
        slice::from_raw_parts_mut(response, response_size),
        slice::from_raw_parts_mut(table_out, table_out_size),
    );
    number(result, |served| {
        let (what, length) = match served.answer {
            Answer::Response(length) => (RESPONSE, length),
            Answer::Draft(length) => (DRAFT, length),
        };
        *answer = what;
        *response_length = length;
        *table_length = served.table_length;
    })
}

/// # Safety
///
/// As `uaf_withdraw` in `uaf_token.h`.
#[no_mangle]
pub unsafe extern "C" fn peer_withdraw(
    mixed: *const u8,
    mixed_size: usize,
    key_id: *const u8,
    key_id_size: usize,
    table: *const u8,
    table_size: usize,
    table_out: *mut u8,
    table_out_size: usize,
    table_length: *mut usize,
) -> u32 {
    let result = uaf_peer::withdraw(
        slice::from_raw_parts(mixed, mixed_size),
        slice::from_raw_parts(key_id, key_id_size),
        slice::from_raw_parts(table, table_size),
        slice::from_raw_parts_mut(table_out, table_out_size),
    );
    number(result, |length| *table_length = length)
}

/// # Safety
///
/// As `uaf_hash` in `uaf_token.h`.
#[no_mangle]
pub unsafe extern "C" fn peer_hash(
    first: *const u8,
    first_size: usize,
    second: *const u8,
    second_size: usize,
    hash: *mut [u8; 32],
) {
    *hash = uaf_peer::hash(
        slice::from_raw_parts(first, first_size),
        slice::from_raw_parts(second, second_size),
    );
}

/// # Safety
///
/// As `uaf_complete` in `uaf_token.h`.
#[no_mangle]
pub unsafe extern "C" fn peer_complete(
    kind: u32,
    draft: *const u8,
    draft_size: usize,
    attestation: u32,
    signature: *const u8,
    signature_size: usize,
    certificate: *const u8,
    certificate_size: usize,
    response: *mut u8,
    response_size: usize,
    response_length: *mut usize,
) -> u32 {
    let result = uaf_peer::complete(
        kind,
        slice::from_raw_parts(draft, draft_size),
        attestation,
        slice::from_raw_parts(signature, signature_size),
        slice::from_raw_parts(certificate, certificate_size),
        slice::from_raw_parts_mut(response, response_size),
    );
    number(result, |length| *response_length = length)
}

/// # Safety
///
/// As `uaf_signed_part` in `uaf_token.h`.
#[no_mangle]
pub unsafe extern "C" fn peer_signed_part(
    response: *const u8,
    response_size: usize,
    place: *mut usize,
    part_length: *mut usize,
) -> u32 {
    let result = uaf_peer::signed_part(slice::from_raw_parts(response, response_size));
    number(result, |part| {
        *place = part.start;
        *part_length = part.len();
    })
}

/// # Safety
///
/// As `uaf_read_fields` in `uaf_token.h`.
#[no_mangle]
pub unsafe extern "C" fn peer_read_fields(
    response: *const u8,
    response_size: usize,
    tag: *mut usize,
    status: *mut usize,
    count: *mut usize,
    tags: *mut [usize; MOST_FIELDS],
    places: *mut [usize; MOST_FIELDS],
    lengths: *mut [usize; MOST_FIELDS],
) -> u32 {
    let result = uaf_peer::read_rows(
        slice::from_raw_parts(response, response_size),
        &mut *tags,
        &mut *places,
        &mut *lengths,
    );
    number(result, |heading| {
        *tag = heading.tag.into();
        *status = heading.status.into();
        *count = heading.count;
    })
}

/// # Safety
///
/// As `uaf_write_get_info` in `uaf_token.h`.
#[no_mangle]
pub unsafe extern "C" fn peer_write_get_info(
    command: *mut u8,
    command_size: usize,
    command_length: *mut usize,
) -> u32 {
    uaf_peer::write_get_info(
        slice::from_raw_parts_mut(command, command_size),
        &mut *command_length,
    )
}

/// # Safety
///
/// As `uaf_write_register` in `uaf_token.h`.
#[no_mangle]
pub unsafe extern "C" fn peer_write_register(
    app_id_given: u32,
    app_id: *const u8,
    app_id_size: usize,
    challenge: *const u8,
    challenge_size: usize,
    username: *const u8,
    username_size: usize,
    attestation: u32,
    access_token: *const u8,
    access_token_size: usize,
    verify_token_given: u32,
    verify_token: *const u8,
    verify_token_size: usize,
    command: *mut u8,
    command_size: usize,
    command_length: *mut usize,
) -> u32 {
    uaf_peer::write_register(
        app_id_given,
        slice::from_raw_parts(app_id, app_id_size),
        slice::from_raw_parts(challenge, challenge_size),
        slice::from_raw_parts(username, username_size),
        attestation,
        slice::from_raw_parts(access_token, access_token_size),
        verify_token_given,
        slice::from_raw_parts(verify_token, verify_token_size),
        slice::from_raw_parts_mut(command, command_size),
        &mut *command_length,
    )
}

/// # Safety
///
/// As `uaf_write_sign` in `uaf_token.h`.
#[no_mangle]
pub unsafe extern "C" fn peer_write_sign(
    app_id_given: u32,
    app_id: *const u8,
    app_id_size: usize,
    challenge: *const u8,
    challenge_size: usize,
    content_given: u32,
    content: *const u8,
    content_size: usize,
    access_token: *const u8,
    access_token_size: usize,
    verify_token_given: u32,
    verify_token: *const u8,
    verify_token_size: usize,
    handles: *const u8,
    handles_size: usize,
    handle_sizes: *const usize,
    handle_count: usize,
    command: *mut u8,
    command_size: usize,
    command_length: *mut usize,
) -> u32 {
    uaf_peer::write_sign(
        app_id_given,
        slice::from_raw_parts(app_id, app_id_size),
        slice::from_raw_parts(challenge, challenge_size),
        content_given,
        slice::from_raw_parts(content, content_size),
        slice::from_raw_parts(access_token, access_token_size),
        verify_token_given,
        slice::from_raw_parts(verify_token, verify_token_size),
        slice::from_raw_parts(handles, handles_size),
        slice::from_raw_parts(handle_sizes, handle_count),
        slice::from_raw_parts_mut(command, command_size),
        &mut *command_length,
    )
}

/// # Safety
///
/// As `uaf_write_deregister` in `uaf_token.h`.
#[no_mangle]
pub unsafe extern "C" fn peer_write_deregister(
    app_id_given: u32,
    app_id: *const u8,
    app_id_size: usize,
    key_id: *const u8,
    key_id_size: usize,
    access_token: *const u8,
    access_token_size: usize,
    command: *mut u8,
    command_size: usize,
    command_length: *mut usize,
) -> u32 {
    uaf_peer::write_deregister(
        app_id_given,
        slice::from_raw_parts(app_id, app_id_size),
        slice::from_raw_parts(key_id, key_id_size),
        slice::from_raw_parts(access_token, access_token_size),
        slice::from_raw_parts_mut(command, command_size),
        &mut *command_length,
    )
}

/// # Safety
///
/// As `uaf_write_open_settings` in `uaf_token.h`.
#[no_mangle]
pub unsafe extern "C" fn peer_write_open_settings(
    command: *mut u8,
    command_size: usize,
    command_length: *mut usize,
) -> u32 {
    uaf_peer::write_open_settings(
        slice::from_raw_parts_mut(command, command_size),
        &mut *command_length,
    )
}
