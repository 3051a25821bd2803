//! The writers of commands. What is expected is written by hand: 001's tables give the order of the
//! children, document 01 their tags and limits.

mod common;

use common::{hex, join, tlv};
use uaf_peer::{write_deregister, write_get_info, write_open_settings, write_register, write_sign};

const FIELD: Result<Vec<u8>, u32> = Err(6);
const OUTPUT: Result<Vec<u8>, u32> = Err(1);

/// Writes into an output of this length, and sees that nothing is changed by a refusal, nor beyond
/// the length written.
fn written(size: usize, write: impl Fn(&mut [u8], &mut usize) -> u32) -> Result<Vec<u8>, u32> {
    let (fill, unset) = (0xEE, 77);
    let (mut command, mut length) = (vec![fill; size], unset);
    let refusal = write(&mut command, &mut length);
    if refusal != 0 {
        assert_eq!(length, unset);
        length = 0;
    }
    assert!(command[length..].iter().all(|&byte| byte == fill));
    command.truncate(length);
    if refusal == 0 {
        Ok(command)
    } else {
        Err(refusal)
    }
}

#[derive(Clone, Copy)]
struct Register<'a> {
    app_id: (u32, &'a [u8]),
    challenge: &'a [u8],
    username: &'a [u8],
    attestation: u32,
    access_token: &'a [u8],
    verify_token: (u32, &'a [u8]),
}

impl Register<'_> {
    fn write_into(&self, size: usize) -> Result<Vec<u8>, u32> {
        written(size, |command, length| {
            write_register(
                self.app_id.0,
                self.app_id.1,
                self.challenge,
                self.username,
                self.attestation,
                self.access_token,
                self.verify_token.0,
                self.verify_token.1,
                command,
                length,
            )
        })
    }

    fn write(&self) -> Result<Vec<u8>, u32> {
        self.write_into(9000)
    }
}

#[derive(Clone, Copy)]
struct Sign<'a> {
    app_id: (u32, &'a [u8]),
    challenge: &'a [u8],
    content: (u32, &'a [u8]),
    access_token: &'a [u8],
    verify_token: (u32, &'a [u8]),
    handles: &'a [u8],
    handle_sizes: &'a [usize],
}

impl Sign<'_> {
    fn write_into(&self, size: usize) -> Result<Vec<u8>, u32> {
        written(size, |command, length| {
            write_sign(
                self.app_id.0,
                self.app_id.1,
                self.challenge,
                self.content.0,
                self.content.1,
                self.access_token,
                self.verify_token.0,
                self.verify_token.1,
                self.handles,
                self.handle_sizes,
                command,
                length,
            )
        })
    }

    fn write(&self) -> Result<Vec<u8>, u32> {
        self.write_into(9000)
    }
}

#[derive(Clone, Copy)]
struct Deregister<'a> {
    app_id: (u32, &'a [u8]),
    key_id: &'a [u8],
    access_token: &'a [u8],
}

impl Deregister<'_> {
    fn write_into(&self, size: usize) -> Result<Vec<u8>, u32> {
        written(size, |command, length| {
            write_deregister(
                self.app_id.0,
                self.app_id.1,
                self.key_id,
                self.access_token,
                command,
                length,
            )
        })
    }

    fn write(&self) -> Result<Vec<u8>, u32> {
        self.write_into(9000)
    }
}

/// What is not given breaks its rule where it has one: it is not looked at.
const NOT_GIVEN: (u32, &[u8]) = (0, &[0xFF; 9000]);

const REGISTER: Register = Register {
    app_id: NOT_GIVEN,
    challenge: &[0xAA],
    username: b"Ann",
    attestation: 0x3E07,
    access_token: &[0xAA; 32],
    verify_token: NOT_GIVEN,
};
const SIGN: Sign = Sign {
    app_id: NOT_GIVEN,
    challenge: &[0xAA],
    content: NOT_GIVEN,
    access_token: &[0xAA; 32],
    verify_token: NOT_GIVEN,
    handles: &[],
    handle_sizes: &[],
};
const DEREGISTER: Deregister = Deregister {
    app_id: NOT_GIVEN,
    key_id: &[],
    access_token: &[0xAA; 32],
};

/// The shortest Register but for one field.
fn register<'a>(change: impl Fn(&mut Register<'a>)) -> Result<Vec<u8>, u32> {
    let mut register = REGISTER;
    change(&mut register);
    register.write()
}

fn sign<'a>(change: impl Fn(&mut Sign<'a>)) -> Result<Vec<u8>, u32> {
    let mut sign = SIGN;
    change(&mut sign);
    sign.write()
}

fn deregister<'a>(change: impl Fn(&mut Deregister<'a>)) -> Result<Vec<u8>, u32> {
    let mut deregister = DEREGISTER;
    change(&mut deregister);
    deregister.write()
}

#[test]
fn the_shortest_of_each() {
    let get_info = written(4, write_get_info);
    assert_eq!(get_info, Ok(hex("01 34 00 00")));
    let token = vec![0xAA; 32];
    let register = hex(
        "02 34 3B 00 0D 28 01 00 00 0A 2E 01 00 AA 06 28 03 00 41 6E 6E \
         07 28 02 00 07 3E 05 28 20 00",
    );
    assert_eq!(REGISTER.write(), Ok(join(&[&register, &token])));
    let sign = hex("03 34 2E 00 0D 28 01 00 00 0A 2E 01 00 AA 05 28 20 00");
    assert_eq!(SIGN.write(), Ok(join(&[&sign, &token])));
    let deregister = hex("04 34 2D 00 0D 28 01 00 00 09 2E 00 00 05 28 20 00");
    assert_eq!(DEREGISTER.write(), Ok(join(&[&deregister, &token])));
    // P6.
    let open_settings = written(9, write_open_settings);
    assert_eq!(open_settings, Ok(hex("06 34 05 00 0D 28 01 00 00")));
}

#[test]
fn register_with_every_field() {
    let register = Register {
        app_id: (1, b"ab"),
        challenge: &[0xC1, 0xC2],
        username: "é".as_bytes(),
        attestation: 0x3E08,
        access_token: &[0xD1; 32],
        verify_token: (1, &[0xE1]),
    };
    let expected = join(&[
        hex(
            "02 34 46 00 0D 28 01 00 00 04 28 02 00 61 62 0A 2E 02 00 C1 C2 \
             06 28 02 00 C3 A9 07 28 02 00 08 3E 05 28 20 00",
        ),
        vec![0xD1; 32],
        hex("03 28 01 00 E1"),
    ]);
    assert_eq!(register.write(), Ok(expected));
}

#[test]
fn sign_with_every_field() {
    let sign = Sign {
        app_id: (1, b"ab"),
        challenge: &[0xC1, 0xC2],
        content: (1, b"5 pounds"),
        access_token: &[0xD1; 32],
        verify_token: (1, &[0xE1]),
        handles: &[[7; 32], [3; 32], [7; 32]].concat(),
        handle_sizes: &[32; 3],
    };
    let mut expected = join(&[
        hex(
            "03 34 B2 00 0D 28 01 00 00 04 28 02 00 61 62 0A 2E 02 00 C1 C2 \
             10 28 08 00 35 20 70 6F 75 6E 64 73 05 28 20 00",
        ),
        vec![0xD1; 32],
        hex("03 28 01 00 E1"),
    ]);
    // As given: neither sorted nor without the second 7.
    for byte in [7, 3, 7] {
        expected.extend(hex("01 28 20 00"));
        expected.extend([byte; 32]);
    }
    assert_eq!(expected.len(), 4 + 0xB2);
    assert_eq!(sign.write(), Ok(expected));
}

#[test]
fn deregister_with_every_field() {
    let deregister = Deregister {
        app_id: (1, b"ab"),
        key_id: &[0x1D; 32],
        access_token: &[0xD1; 32],
    };
    let expected = join(&[
        hex("04 34 53 00 0D 28 01 00 00 04 28 02 00 61 62 09 2E 20 00"),
        vec![0x1D; 32],
        hex("05 28 20 00"),
        vec![0xD1; 32],
    ]);
    assert_eq!(deregister.write(), Ok(expected));
}

/// One that is given and empty is written, and is not the same as one that is not given.
#[test]
fn given_and_empty() {
    let register = Register {
        verify_token: (1, &[]),
        ..REGISTER
    };
    let expected = join(&[
        hex(
            "02 34 3F 00 0D 28 01 00 00 0A 2E 01 00 AA 06 28 03 00 41 6E 6E \
             07 28 02 00 07 3E 05 28 20 00",
        ),
        vec![0xAA; 32],
        hex("03 28 00 00"),
    ]);
    assert_eq!(register.write(), Ok(expected));
    let sign = Sign {
        content: (1, &[]),
        verify_token: (1, &[]),
        ..SIGN
    };
    let expected = join(&[
        hex("03 34 36 00 0D 28 01 00 00 0A 2E 01 00 AA 10 28 00 00 05 28 20 00"),
        vec![0xAA; 32],
        hex("03 28 00 00"),
    ]);
    assert_eq!(sign.write(), Ok(expected));
}

#[test]
fn app_id_has_1_to_512_bytes() {
    for (length, right) in [(0, false), (1, true), (512, true), (513, false)] {
        let bytes = vec![b'a'; length];
        for written in [
            register(|fields| fields.app_id = (1, &bytes)),
            sign(|fields| fields.app_id = (1, &bytes)),
            deregister(|fields| fields.app_id = (1, &bytes)),
        ] {
            if right {
                assert_eq!(written.unwrap()[9..13 + length], tlv(0x2804, &bytes));
            } else {
                assert_eq!(written, FIELD);
            }
        }
    }
}

#[test]
fn challenge_has_1_to_32_bytes() {
    for (length, right) in [(0, false), (1, true), (32, true), (33, false)] {
        let bytes = vec![0x5A; length];
        for written in [
            register(|fields| fields.challenge = &bytes),
            sign(|fields| fields.challenge = &bytes),
        ] {
            assert_eq!(written.is_ok(), right);
            assert!(right || written == FIELD);
        }
    }
}

#[test]
fn access_token_has_32_bytes() {
    for (length, right) in [
        (0, false),
        (1, false),
        (31, false),
        (32, true),
        (33, false),
        (64, false),
        (288, false),
        (65_568, false),
    ] {
        let bytes = vec![0x5A; length];
        for written in [
            register(|fields| fields.access_token = &bytes),
            sign(|fields| fields.access_token = &bytes),
            deregister(|fields| fields.access_token = &bytes),
        ] {
            assert_eq!(written.is_ok(), right);
            assert!(right || written == FIELD);
        }
    }
}

#[test]
fn username_is_utf8_of_1_to_128_bytes() {
    fn named(name: &[u8]) -> Result<Vec<u8>, u32> {
        register(|fields| fields.username = name)
    }
    for length in [1, 2, 127, 128] {
        let name = vec![b'n'; length];
        assert_eq!(named(&name).unwrap()[14..18 + length], tlv(0x2806, &name));
    }
    // 32 letters of four bytes.
    assert!(named("😀".repeat(32).as_bytes()).is_ok());
    assert!(named(b"\0").is_ok());
    let broken: [&[u8]; 8] = [
        b"",
        &[b'n'; 129],
        b"Jos\xC3",
        b"\x80",
        b"\xC0\x80",
        b"\xED\xA0\x80",
        b"\xF4\x90\x80\x80",
        b"\xFF",
    ];
    for name in broken {
        assert_eq!(named(name), FIELD, "{:02X?}", name);
    }
}

/// Its rule is that it has 16 bits; whether Register supports it is Register's to say.
#[test]
fn attestation_type_has_16_bits() {
    let typed = |attestation| register(|fields| fields.attestation = attestation);
    for (attestation, bytes) in [
        (0, "00 00"),
        (1, "01 00"),
        (0x3E07, "07 3E"),
        (0x3E08, "08 3E"),
        (0x3E09, "09 3E"),
        (0x073E, "3E 07"),
        (65_535, "FF FF"),
    ] {
        let expected = join(&[hex("07 28 02 00"), hex(bytes)]);
        assert_eq!(typed(attestation).unwrap()[21..27], expected);
    }
    for attestation in [65_536, 0x1_3E07, 0x8000_3E07, u32::MAX] {
        assert_eq!(typed(attestation), FIELD);
    }
}

#[test]
fn key_id_has_0_or_32_bytes() {
    for (length, right) in [
        (0, true),
        (1, false),
        (16, false),
        (31, false),
        (32, true),
        (33, false),
        (64, false),
    ] {
        let bytes = vec![0x1D; length];
        let written = deregister(|fields| fields.key_id = &bytes);
        assert_eq!(written.is_ok(), right);
        assert!(right || written == FIELD);
    }
}

#[test]
fn a_mark_is_0_or_1() {
    for mark in [2, 255, 256, 257, 65_536, 65_537, 0x8000_0001, u32::MAX] {
        let field: (u32, &[u8]) = (mark, b"x");
        for written in [
            register(|fields| fields.app_id = field),
            register(|fields| fields.verify_token = field),
            sign(|fields| fields.app_id = field),
            sign(|fields| fields.content = field),
            sign(|fields| fields.verify_token = field),
            deregister(|fields| fields.app_id = field),
        ] {
            assert_eq!(written, FIELD);
        }
    }
}

#[test]
fn at_most_8_handles_of_32_bytes() {
    let bytes: Vec<u8> = (0..9).flat_map(|number| [number; 32]).collect();
    for count in 0..=8 {
        let sign = Sign {
            handles: &bytes[..32 * count],
            handle_sizes: &[32; 8][..count],
            ..SIGN
        };
        assert_eq!(sign.write().unwrap().len(), 50 + 36 * count);
    }
    let equal = [0x11; 32 * 9];
    for handles in [&bytes[..], &equal] {
        let sign = Sign {
            handles,
            handle_sizes: &[32; 9],
            ..SIGN
        };
        assert_eq!(sign.write(), FIELD);
    }
}

/// Each length must be right, not only their sum, and the sum must be the stretch's.
#[test]
fn lengths_of_handles() {
    let bytes = [0x11; 320];
    let max = usize::MAX;
    let wrong: [(usize, &[usize]); 19] = [
        (0, &[32]),
        (0, &[0]),
        (0, &[0, 0]),
        (1, &[1]),
        (31, &[31]),
        (31, &[32]),
        (33, &[33]),
        (33, &[32]),
        (32, &[]),
        (32, &[32, 0]),
        (32, &[16, 16]),
        (64, &[32]),
        (64, &[64]),
        (64, &[31, 33]),
        (32, &[32, 32]),
        (32, &[max, 33]),
        (64, &[32, max, 33]),
        (0, &[1 << 63, 1 << 63]),
        (32, &[max]),
    ];
    for (length, handle_sizes) in wrong {
        let sign = Sign {
            handles: &bytes[..length],
            handle_sizes,
            ..SIGN
        };
        assert_eq!(sign.write(), FIELD, "{} {:?}", length, handle_sizes);
    }
}

/// The shortest Register has room for 8,192 - 63 - 4 bytes more, the shortest Sign for
/// 8,192 - 50 - 4.
#[test]
fn at_most_8192_bytes() {
    let bytes = vec![0x55; 70_000];
    for (more, right) in [
        (0, true),
        (1, false),
        (2, false),
        (40, false),
        // Lengths of which the low 16 bits are good.
        (65_536 - 8_125, false),
        (65_536 - 8_000, false),
    ] {
        let every = Sign {
            app_id: (1, &bytes[..512]),
            challenge: &bytes[..32],
            access_token: &bytes[..32],
            // 50 + 31 + 516 + 8 * 36 are 885, and two headers.
            content: (1, &bytes[..7_299 + more]),
            verify_token: (1, &[]),
            handles: &bytes[..256],
            handle_sizes: &[32; 8],
        };
        for written in [
            register(|fields| fields.verify_token = (1, &bytes[..8_125 + more])),
            sign(|fields| fields.content = (1, &bytes[..8_138 + more])),
            sign(|fields| fields.verify_token = (1, &bytes[..8_138 + more])),
            sign(|fields| {
                fields.content = (1, &bytes[..4_000 + more]);
                fields.verify_token = (1, &bytes[..4_134]);
            }),
            every.write(),
        ] {
            match written {
                Ok(command) => {
                    assert!(right);
                    assert_eq!(command.len(), 8_192);
                    assert_eq!(command[2..4], hex("FC 1F"));
                }
                refused => assert!(!right && refused == FIELD),
            }
        }
    }
}

#[test]
fn two_long_fields_are_too_long() {
    let bytes = vec![0; 65_536 + 10];
    for (content, verify_token) in [
        (5_000, 5_000),
        (65_536, 10),
        (65_526, 65_526),
        (8_192, 8_192),
    ] {
        let sign = Sign {
            content: (1, &bytes[..content]),
            verify_token: (1, &bytes[..verify_token]),
            ..SIGN
        };
        assert_eq!(sign.write(), FIELD);
    }
}

#[test]
fn an_output_as_long_as_the_command() {
    let handles = [0x11; 64];
    let sign = Sign {
        handles: &handles,
        handle_sizes: &[32, 32],
        ..SIGN
    };
    assert_eq!(written(4, write_get_info).unwrap().len(), 4);
    assert_eq!(REGISTER.write_into(63).unwrap().len(), 63);
    assert_eq!(sign.write_into(122).unwrap().len(), 122);
    assert_eq!(DEREGISTER.write_into(49).unwrap().len(), 49);
    assert_eq!(written(9, write_open_settings).unwrap().len(), 9);

    for less in [1, 2, 3, 4] {
        assert_eq!(written(4 - less, write_get_info), OUTPUT);
        assert_eq!(REGISTER.write_into(63 - less), OUTPUT);
        assert_eq!(sign.write_into(122 - less), OUTPUT);
        assert_eq!(DEREGISTER.write_into(49 - less), OUTPUT);
        assert_eq!(written(9 - less, write_open_settings), OUTPUT);
    }
    for output in [
        REGISTER.write_into(0),
        SIGN.write_into(0),
        DEREGISTER.write_into(0),
    ] {
        assert_eq!(output, OUTPUT);
    }
}

/// "comes after 6"
#[test]
fn six_before_one() {
    let register = Register {
        username: b"\xFF",
        ..REGISTER
    };
    let sign = Sign {
        handle_sizes: &[32],
        ..SIGN
    };
    let long = Sign {
        content: (1, &[0; 8_170]),
        ..SIGN
    };
    let deregister = Deregister {
        key_id: &[0; 31],
        ..DEREGISTER
    };
    let short = Deregister {
        access_token: &[0xAA; 31],
        ..DEREGISTER
    };
    for refused in [
        short.write_into(0),
        register.write_into(0),
        sign.write_into(0),
        long.write_into(0),
        deregister.write_into(0),
    ] {
        assert_eq!(refused, FIELD);
    }
}
