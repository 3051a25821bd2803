//! The entries of token and peer, as `host/include/uaf_token.h` declares the token's, mbedTLS's SHA-256, and memcpy.
//!
//! All are called through pointers that the compiler cannot look behind: so nothing of the peer, which it optimises together with this program,
//! is inlined into what calls it or made for the arguments given here.

use std::ffi::{c_void, CStr};
use std::os::raw::{c_char, c_int};
use std::ptr;

// Only the archive that this crate links is asked for.
use uaf_token as _;

pub const MOST_FIELDS: usize = 17;
pub type Row = [usize; MOST_FIELDS];
pub type Digest = [u8; 32];

/// For each entry the type of a pointer to it, and the token's own.
macro_rules! entries {
    ($($alias:ident = $entry:ident($($argument:ident: $type:ty,)*) $(-> $result:ty)?;)*) => {
        $(pub type $alias = unsafe extern "C" fn($($argument: $type),*) $(-> $result)?;)*

        extern "C" {
            $(fn $entry($($argument: $type),*) $(-> $result)?;)*
        }
    };
}

entries! {
    Command = uaf_command(
        command: *const u8,
        command_size: usize,
        aaid: *const u8,
        aaid_size: usize,
        version: u32,
        signature_algorithm: u32,
        key_algorithm: u32,
        metadata: *const u8,
        metadata_size: usize,
        verdict: u32,
        display: u32,
        key_id: *const u8,
        key_id_size: usize,
        public_key: *const u8,
        public_key_size: usize,
        nonce: *const u8,
        nonce_size: usize,
        table: *const u8,
        table_size: usize,
        response: *mut u8,
        response_size: usize,
        table_out: *mut u8,
        table_out_size: usize,
        answer: *mut u32,
        response_length: *mut usize,
        table_length: *mut usize,
    ) -> u32;
    Withdraw = uaf_withdraw(
        mixed: *const u8,
        mixed_size: usize,
        key_id: *const u8,
        key_id_size: usize,
        table: *const u8,
        table_size: usize,
        table_out: *mut u8,
        table_out_size: usize,
        table_length: *mut usize,
    ) -> u32;
    Complete = uaf_complete(
        kind: u32,
        draft: *const u8,
        draft_size: usize,
        attestation: u32,
        signature: *const u8,
        signature_size: usize,
        certificate: *const u8,
        certificate_size: usize,
        response: *mut u8,
        response_size: usize,
        response_length: *mut usize,
    ) -> u32;
    SignedPart = uaf_signed_part(
        response: *const u8,
        response_size: usize,
        place: *mut usize,
        part_length: *mut usize,
    ) -> u32;
    ReadFields = uaf_read_fields(
        response: *const u8,
        response_size: usize,
        tag: *mut usize,
        status: *mut usize,
        count: *mut usize,
        tags: *mut Row,
        places: *mut Row,
        lengths: *mut Row,
    ) -> u32;
    WriteGetInfo = uaf_write_get_info(
        command: *mut u8,
        command_size: usize,
        command_length: *mut usize,
    ) -> u32;
    WriteRegister = uaf_write_register(
        app_id_given: u32,
        app_id: *const u8,
        app_id_size: usize,
        challenge: *const u8,
        challenge_size: usize,
        username: *const u8,
        username_size: usize,
        attestation: u32,
        access_token: *const u8,
        access_token_size: usize,
        verify_token_given: u32,
        verify_token: *const u8,
        verify_token_size: usize,
        command: *mut u8,
        command_size: usize,
        command_length: *mut usize,
    ) -> u32;
    WriteSign = uaf_write_sign(
        app_id_given: u32,
        app_id: *const u8,
        app_id_size: usize,
        challenge: *const u8,
        challenge_size: usize,
        content_given: u32,
        content: *const u8,
        content_size: usize,
        access_token: *const u8,
        access_token_size: usize,
        verify_token_given: u32,
        verify_token: *const u8,
        verify_token_size: usize,
        handles: *const u8,
        handles_size: usize,
        handle_sizes: *const usize,
        handle_count: usize,
        command: *mut u8,
        command_size: usize,
        command_length: *mut usize,
    ) -> u32;
    WriteDeregister = uaf_write_deregister(
        app_id_given: u32,
        app_id: *const u8,
        app_id_size: usize,
        key_id: *const u8,
        key_id_size: usize,
        access_token: *const u8,
        access_token_size: usize,
        command: *mut u8,
        command_size: usize,
        command_length: *mut usize,
    ) -> u32;
    WriteOpenSettings = uaf_write_open_settings(
        command: *mut u8,
        command_size: usize,
        command_length: *mut usize,
    ) -> u32;
    Hash = uaf_hash(
        first: *const u8,
        first_size: usize,
        second: *const u8,
        second_size: usize,
        hash: *mut Digest,
    );
}

#[derive(Clone, Copy)]
pub struct Entries {
    pub command: Command,
    pub withdraw: Withdraw,
    pub complete: Complete,
    pub signed_part: SignedPart,
    pub read_fields: ReadFields,
    pub write_get_info: WriteGetInfo,
    pub write_register: WriteRegister,
    pub write_sign: WriteSign,
    pub write_deregister: WriteDeregister,
    pub write_open_settings: WriteOpenSettings,
    pub hash: Hash,
}

pub fn token() -> Entries {
    hidden(Entries {
        command: uaf_command,
        withdraw: uaf_withdraw,
        complete: uaf_complete,
        signed_part: uaf_signed_part,
        read_fields: uaf_read_fields,
        write_get_info: uaf_write_get_info,
        write_register: uaf_write_register,
        write_sign: uaf_write_sign,
        write_deregister: uaf_write_deregister,
        write_open_settings: uaf_write_open_settings,
        hash: uaf_hash,
    })
}

pub fn peer() -> Entries {
    hidden(Entries {
        command: peer_c::peer_command,
        withdraw: peer_c::peer_withdraw,
        complete: peer_c::peer_complete,
        signed_part: peer_c::peer_signed_part,
        read_fields: peer_c::peer_read_fields,
        write_get_info: peer_c::peer_write_get_info,
        write_register: peer_c::peer_write_register,
        write_sign: peer_c::peer_write_sign,
        write_deregister: peer_c::peer_write_deregister,
        write_open_settings: peer_c::peer_write_open_settings,
        hash: peer_c::peer_hash,
    })
}

/// Of one stretch; the last number is 0 for SHA-256. In some versions it gives a number, which is not looked at: the hash is.
pub type Sha256 =
    unsafe extern "C" fn(input: *const u8, size: usize, output: *mut Digest, is224: c_int);

extern "C" {
    fn mbedtls_sha256(input: *const u8, size: usize, output: *mut Digest, is224: c_int);
    fn mbedtls_version_get_string_full(string: *mut c_char);
}

pub fn mbedtls() -> Sha256 {
    hidden(mbedtls_sha256)
}

/// Its name and version.
pub fn mbedtls_version() -> String {
    // It writes at most 18 letters and a 0.
    let mut letters: [c_char; 64] = [0; 64];
    // Safety: there is room for what it writes, which ends with a 0.
    let version = unsafe {
        mbedtls_version_get_string_full(letters.as_mut_ptr());
        CStr::from_ptr(letters.as_ptr())
    };
    version.to_string_lossy().into_owned()
}

pub type Memcpy = unsafe extern "C" fn(*mut c_void, *const c_void, usize) -> *mut c_void;

extern "C" {
    fn memcpy(to: *mut c_void, from: *const c_void, size: usize) -> *mut c_void;
}

/// The C library's.
pub fn copier() -> Memcpy {
    hidden(memcpy)
}

/// The value, of which the compiler no longer knows what it is.
fn hidden<T: Copy>(value: T) -> T {
    // Safety: a reference is valid for reads.
    unsafe { ptr::read_volatile(&value) }
}
