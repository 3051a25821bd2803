//! The eleven entries as `host/include/uaf_token.h` declares them. Nothing checks these declarations
//! against the archive but calling them.

use uaf_peer::MOST_FIELDS;

/// `UAF_HASH_SIZE`.
pub const HASH_SIZE: usize = 32;

extern "C" {
    pub fn uaf_write_get_info(
        command: *mut u8,
        command_size: usize,
        command_length: *mut usize,
    ) -> u32;

    pub fn uaf_write_register(
        app_id_given: u32,
        app_id: *const u8,
        app_id_size: usize,
        challenge: *const u8,
        challenge_size: usize,
        username: *const u8,
        username_size: usize,
        attestation: u32,
        access_token: *const u8,
        access_token_size: usize,
        verify_token_given: u32,
        verify_token: *const u8,
        verify_token_size: usize,
        command: *mut u8,
        command_size: usize,
        command_length: *mut usize,
    ) -> u32;

    pub fn uaf_write_sign(
        app_id_given: u32,
        app_id: *const u8,
        app_id_size: usize,
        challenge: *const u8,
        challenge_size: usize,
        content_given: u32,
        content: *const u8,
        content_size: usize,
        access_token: *const u8,
        access_token_size: usize,
        verify_token_given: u32,
        verify_token: *const u8,
        verify_token_size: usize,
        handles: *const u8,
        handles_size: usize,
        handle_sizes: *const usize,
        handle_count: usize,
        command: *mut u8,
        command_size: usize,
        command_length: *mut usize,
    ) -> u32;

    pub fn uaf_write_deregister(
        app_id_given: u32,
        app_id: *const u8,
        app_id_size: usize,
        key_id: *const u8,
        key_id_size: usize,
        access_token: *const u8,
        access_token_size: usize,
        command: *mut u8,
        command_size: usize,
        command_length: *mut usize,
    ) -> u32;

    pub fn uaf_write_open_settings(
        command: *mut u8,
        command_size: usize,
        command_length: *mut usize,
    ) -> u32;

    pub fn uaf_hash(
        first: *const u8,
        first_size: usize,
        second: *const u8,
        second_size: usize,
        hash: *mut [u8; HASH_SIZE],
    );

    pub fn uaf_command(
        command: *const u8,
        command_size: usize,
        aaid: *const u8,
        aaid_size: usize,
        version: u32,
        signature_algorithm: u32,
        key_algorithm: u32,
        metadata: *const u8,
        metadata_size: usize,
        verdict: u32,
        display: u32,
        key_id: *const u8,
        key_id_size: usize,
        public_key: *const u8,
        public_key_size: usize,
        nonce: *const u8,
        nonce_size: usize,
        table: *const u8,
        table_size: usize,
        response: *mut u8,
        response_size: usize,
        table_out: *mut u8,
        table_out_size: usize,
        answer: *mut u32,
        response_length: *mut usize,
        table_length: *mut usize,
    ) -> u32;

    pub fn uaf_withdraw(
        mixed: *const u8,
        mixed_size: usize,
        key_id: *const u8,
        key_id_size: usize,
        table: *const u8,
        table_size: usize,
        table_out: *mut u8,
        table_out_size: usize,
        table_length: *mut usize,
    ) -> u32;

    pub fn uaf_complete(
        kind: u32,
        draft: *const u8,
        draft_size: usize,
        attestation: u32,
        signature: *const u8,
        signature_size: usize,
        certificate: *const u8,
        certificate_size: usize,
        response: *mut u8,
        response_size: usize,
        response_length: *mut usize,
    ) -> u32;

    pub fn uaf_signed_part(
        response: *const u8,
        response_size: usize,
        place: *mut usize,
        part_length: *mut usize,
    ) -> u32;

    pub fn uaf_read_fields(
        response: *const u8,
        response_size: usize,
        tag: *mut usize,
        status: *mut usize,
        count: *mut usize,
        tags: *mut [usize; MOST_FIELDS],
        places: *mut [usize; MOST_FIELDS],
        lengths: *mut [usize; MOST_FIELDS],
    ) -> u32;
}
