//! The writers of commands by their C entries: each command whole, by hand from 001's tables, and
//! each refusal.

use uaf_token::{
    write_deregister, write_get_info, write_open_settings, write_register, write_sign,
};

/// The access token of the commands that are right.
const TOKEN: [u8; 32] = [0xDD; 32];
const UNSET: usize = 77;
const FILL: u8 = 0xEE;

/// What a writer wrote into an output of this length, or its refusal, which changes nothing.
fn written(size: usize, write: impl Fn(&mut [u8], &mut usize) -> u32) -> Result<Vec<u8>, u32> {
    let (mut command, mut length) = (vec![FILL; size], UNSET);
    let refusal = write(&mut command, &mut length);
    if refusal != 0 {
        assert_eq!(length, UNSET);
        length = 0;
    }
    assert!(command[length..].iter().all(|&byte| byte == FILL));
    command.truncate(length);
    if refusal == 0 {
        Ok(command)
    } else {
        Err(refusal)
    }
}

/// A Register of this name and type, with an AppID and an empty USERVERIFY_TOKEN.
fn register(name: &[u8], attestation: u32, size: usize) -> Result<Vec<u8>, u32> {
    written(size, |command, length| {
        write_register(
            1,
            b"ab",
            &[0xCC],
            name,
            attestation,
            &TOKEN,
            1,
            &[],
            command,
            length,
        )
    })
}

/// A Sign with this content and these handles, without AppID and USERVERIFY_TOKEN.
fn sign(
    content_given: u32,
    content: &[u8],
    handles: &[u8],
    handle_sizes: &[usize],
    size: usize,
) -> Result<Vec<u8>, u32> {
    written(size, |command, length| {
        write_sign(
            0,
            &[0; 513],
            &[0xCC],
            content_given,
            content,
            &TOKEN,
            0,
            &[],
            handles,
            handle_sizes,
            command,
            length,
        )
    })
}

fn deregister(app_id: &[u8], key_id: &[u8], size: usize) -> Result<Vec<u8>, u32> {
    written(size, |command, length| {
        write_deregister(1, app_id, key_id, &TOKEN, command, length)
    })
}

const GET_INFO: [u8; 4] = [0x01, 0x34, 0, 0];
const OPEN_SETTINGS: [u8; 9] = [0x06, 0x34, 5, 0, 0x0D, 0x28, 1, 0, 0];

#[test]
fn without_fields() {
    assert_eq!(written(4, write_get_info), Ok(GET_INFO.to_vec()));
    assert_eq!(written(3, write_get_info), Err(1));
    assert_eq!(written(0, write_get_info), Err(1));
    assert_eq!(written(20, write_open_settings), Ok(OPEN_SETTINGS.to_vec()));
    assert_eq!(written(8, write_open_settings), Err(1));
}

#[test]
fn a_register() {
    #[rustfmt::skip]
    let mut expected = vec![
        0x02, 0x34, 68, 0, 0x0D, 0x28, 1, 0, 0, 0x04, 0x28, 2, 0, b'a', b'b',
        0x0A, 0x2E, 1, 0, 0xCC, 0x06, 0x28, 2, 0, 0xC3, 0xA9, 0x07, 0x28, 2, 0, 0x08, 0x3E,
        0x05, 0x28, 32, 0,
    ];
    expected.extend(TOKEN);
    // An empty USERVERIFY_TOKEN.
    expected.extend([0x03, 0x28, 0, 0]);
    assert_eq!(expected.len(), 72);
    assert_eq!(register("é".as_bytes(), 0x3E08, 72), Ok(expected));
    assert_eq!(register("é".as_bytes(), 0x3E08, 71), Err(1));
    for (name, attestation) in [(&b"\xC3"[..], 0x3E08), (b"", 0x3E08), (b"Ann", 65_536)] {
        assert_eq!(register(name, attestation, 71), Err(6));
    }
}

#[test]
fn a_sign() {
    let handles = [[7; 32], [3; 32], [7; 32]].concat();
    #[rustfmt::skip]
    let mut expected = vec![
        0x03, 0x34, 160, 0, 0x0D, 0x28, 1, 0, 0, 0x0A, 0x2E, 1, 0, 0xCC,
        0x10, 0x28, 2, 0, b'$', b'5', 0x05, 0x28, 32, 0,
    ];
    expected.extend(TOKEN);
    for byte in [7, 3, 7] {
        expected.extend([0x01, 0x28, 32, 0]);
        expected.extend([byte; 32]);
    }
    assert_eq!(sign(1, b"$5", &handles, &[32; 3], 8192), Ok(expected));
    assert_eq!(sign(1, b"$5", &handles, &[32; 3], 163), Err(1));
    assert_eq!(sign(2, b"$5", &handles, &[32; 3], 0), Err(6));
    assert_eq!(sign(1, b"$5", &handles, &[32; 2], 0), Err(6));
    assert_eq!(sign(1, b"$5", &handles[..64], &[31, 33], 0), Err(6));
    assert_eq!(sign(0, b"", &[7; 288], &[32; 9], 0), Err(6));
}

/// Of the 8,192 bytes the content has all but its header and the 50 of the rest.
#[test]
fn the_longest_sign() {
    let longest = sign(1, &[0; 8_138], &[], &[], 8_192).expect("8,192 bytes");
    assert_eq!(longest.len(), 8_192);
    assert_eq!(longest[..4], [0x03, 0x34, 0xFC, 0x1F]);
    assert_eq!(sign(1, &[0; 8_138], &[], &[], 8_191), Err(1));
    assert_eq!(sign(1, &[0; 8_139], &[], &[], 9_000), Err(6));
    assert_eq!(sign(1, &[0; 70_000], &[], &[], 9_000), Err(6));
    // What is not given is not looked at.
    assert_eq!(
        sign(0, &[0; 70_000], &[], &[], 50).map(|sign| sign.len()),
        Ok(50)
    );
}

#[test]
fn a_deregister() {
    #[rustfmt::skip]
    let mut expected = vec![
        0x04, 0x34, 50, 0, 0x0D, 0x28, 1, 0, 0, 0x04, 0x28, 1, 0, b'a',
        0x09, 0x2E, 0, 0, 0x05, 0x28, 32, 0,
    ];
    expected.extend(TOKEN);
    assert_eq!(expected.len(), 54);
    assert_eq!(deregister(b"a", &[], 54), Ok(expected));
    assert_eq!(deregister(b"a", &[], 53), Err(1));
    assert_eq!(deregister(b"a", &[0; 31], 53), Err(6));
    assert_eq!(deregister(b"", &[], 53), Err(6));
    assert_eq!(deregister(&[0; 513], &[], 53), Err(6));
}

/// An access token has 32 bytes in each command that gives one.
#[test]
fn tokens_of_other_lengths() {
    for length in [0, 1, 31, 33] {
        let token = &vec![0xDD; length];
        let register = written(1024, |command, n| {
            write_register(0, &[], &[0xCC], b"Ann", 0x3E07, token, 0, &[], command, n)
        });
        let sign = written(1024, |command, n| {
            write_sign(0, &[], &[0xCC], 0, &[], token, 0, &[], &[], &[], command, n)
        });
        let deregister = written(1024, |command, n| {
            write_deregister(0, &[], &[], token, command, n)
        });
        assert_eq!([register, sign, deregister], [Err(6), Err(6), Err(6)]);
    }
}
