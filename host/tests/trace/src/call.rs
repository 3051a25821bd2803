//! What the program's calls are lent, each with the letter that sets it in a script.

use crate::bytes::{key, walk, ACCESS_TOKEN};
use uaf_peer::{hash, Lent, Profile, TableValue};

/// An argument as the script has it. Every number has 32 bits there, little-endian, so that none is
/// cut off before the token judges it.
pub type Argument = (char, Vec<u8>);

fn number(letter: char, number: u32) -> Argument {
    (letter, number.to_le_bytes().to_vec())
}

fn bytes(letter: char, bytes: &[u8]) -> Argument {
    (letter, bytes.to_vec())
}

/// A command and what it is lent.
#[derive(Clone)]
pub struct Call {
    pub command: Vec<u8>,
    pub aaid: Vec<u8>,
    pub version: u32,
    pub signature_algorithm: u32,
    pub key_algorithm: u32,
    pub metadata: Vec<u8>,
    pub verdict: u32,
    pub display: u32,
    pub key_id: Vec<u8>,
    pub public_key: Vec<u8>,
    pub nonce: Vec<u8>,
    pub response_size: u32,
    pub table_out_size: u32,
    /// How a table by value is made to break a rule, or 0.
    pub spoilt: u32,
    /// Whether the table left is printed whole, beside its length and sums.
    pub dump: bool,
}

/// A command with the usual arguments.
pub fn of(command: Vec<u8>) -> Call {
    Call {
        command,
        aaid: b"4A4F#0001".to_vec(),
        version: 0x0102,
        signature_algorithm: 0x0304,
        key_algorithm: 0x0506,
        metadata: (0x30..0x3F).collect(),
        verdict: 0,
        display: 0,
        key_id: vec![0; 32],
        public_key: (1..66).collect(),
        nonce: (0x80..0x90).collect(),
        response_size: 4096,
        table_out_size: 6912,
        spoilt: 0,
        dump: false,
    }
}

/// The same call with another argument.
impl Call {
    /// Lent the KeyID with this number.
    pub fn key(self, number: u8) -> Call {
        let key_id = key(number);
        Call { key_id, ..self }
    }

    /// With this access token in place of the one that the command has.
    pub fn by(mut self, token: [u8; 32]) -> Call {
        let children = walk(&self.command, 0);
        let has = children.iter().find(|met| met.tag == ACCESS_TOKEN);
        let place = has.expect("an access token").place;
        self.command[place..place + 32].copy_from_slice(&token);
        self
    }

    pub fn verdict(self, verdict: u32) -> Call {
        Call { verdict, ..self }
    }

    pub fn display(self, display: u32) -> Call {
        Call { display, ..self }
    }

    /// With the table left printed whole.
    pub fn dumped(self) -> Call {
        Call { dump: true, ..self }
    }
}

impl Call {
    /// In the order in which a script sets them.
    pub fn arguments(&self, table: &[u8]) -> Vec<Argument> {
        vec![
            bytes('c', &self.command),
            bytes('a', &self.aaid),
            number('v', self.version),
            number('s', self.signature_algorithm),
            number('g', self.key_algorithm),
            bytes('m', &self.metadata),
            number('u', self.verdict),
            number('d', self.display),
            bytes('k', &self.key_id),
            bytes('p', &self.public_key),
            bytes('n', &self.nonce),
            bytes('t', table),
            number('o', self.response_size),
            number('w', self.table_out_size),
            number('b', self.spoilt),
        ]
    }

    pub fn lent(&self) -> Lent<'_> {
        Lent {
            profile: Profile {
                aaid: &self.aaid,
                version: self.version,
                signature_algorithm: self.signature_algorithm,
                key_algorithm: self.key_algorithm,
                metadata: &self.metadata,
            },
            verdict: self.verdict,
            display: self.display,
            key_id: &self.key_id,
            public_key: &self.public_key,
            nonce: &self.nonce,
        }
    }
}

/// What a withdrawal is lent, besides the table.
#[derive(Clone)]
pub struct Withdrawal {
    pub mixed: Vec<u8>,
    pub key_id: Vec<u8>,
    pub table_out_size: u32,
    /// As a command's.
    pub spoilt: u32,
}

impl Withdrawal {
    /// Of the record with this number, by the holder with this access token and no AppID.
    pub fn of(token: &[u8; 32], number: u8) -> Withdrawal {
        Withdrawal {
            mixed: hash(token, b"").to_vec(),
            key_id: key(number),
            table_out_size: 6912,
            spoilt: 0,
        }
    }

    /// In the order in which a script sets them.
    pub fn arguments(&self, table: &[u8]) -> Vec<Argument> {
        vec![
            bytes('M', &self.mixed),
            bytes('k', &self.key_id),
            bytes('t', table),
            number('w', self.table_out_size),
            number('b', self.spoilt),
        ]
    }
}

/// The ways to break a rule that no table which loads can break, by their numbers from 1 on.
pub const SPOILT: [&str; 5] = [
    "said to be 33",
    "an empty name",
    "a name of 129",
    "a KeyID twice",
    "one mixed token",
];

/// One more such way, for which one record is enough: its name starts with the tail of a letter.
pub const TAIL_FIRST: u32 = 6;

/// Breaks the rule with this number, if any, in a table of at least nine records.
pub fn spoil(table: &mut TableValue, spoilt: u32) {
    let first = table.records[0];
    match spoilt {
        0 => {}
        1 => table.count = 33,
        2 => table.records[0].name_length = 0,
        3 => table.records[0].name_length = 129,
        4 => table.records[1].key_id = first.key_id,
        TAIL_FIRST => table.records[0].name[0] = 0x80,
        _ => {
            for record in &mut table.records[..table.count] {
                record.mixed = first.mixed;
            }
        }
    }
}

/// What a completion is lent.
#[derive(Clone)]
pub struct Completion {
    pub kind: u32,
    pub draft: Vec<u8>,
    pub attestation: u32,
    pub signature: Vec<u8>,
    pub certificate: Vec<u8>,
    pub response_size: u32,
}

impl Completion {
    /// In the order in which a script sets them.
    pub fn arguments(&self) -> Vec<Argument> {
        vec![
            number('j', self.kind),
            bytes('q', &self.draft),
            number('y', self.attestation),
            bytes('z', &self.signature),
            bytes('e', &self.certificate),
            number('o', self.response_size),
        ]
    }
}

/// The commands, by the numbers that a script gives them.
#[derive(Clone, Copy, PartialEq, Eq, Debug)]
pub enum Kind {
    GetInfo,
    Register,
    Sign,
    Deregister,
    OpenSettings,
}

/// A field that may be left away, and its mark.
pub type Marked = (u32, Vec<u8>);

/// What the writer of a command is lent: the fields that the command lists.
#[derive(Clone)]
pub struct Writing {
    pub kind: Kind,
    pub app_id: Marked,
    pub challenge: Vec<u8>,
    pub username: Vec<u8>,
    pub attestation: u32,
    pub content: Marked,
    pub key_id: Vec<u8>,
    pub access_token: Vec<u8>,
    pub verify_token: Marked,
    pub handles: Vec<u8>,
    pub handle_sizes: Vec<u32>,
    pub command_size: u32,
}

impl Writing {
    /// In the order in which a script sets them, which is the writer's.
    pub fn arguments(&self) -> Vec<Argument> {
        let sizes = self.handle_sizes.iter();
        let sizes: Vec<u8> = sizes.flat_map(|size| size.to_le_bytes()).collect();
        let app_id = [number('B', self.app_id.0), bytes('A', &self.app_id.1)];
        let access_token = [bytes('K', &self.access_token)];
        let verify_token = [
            number('W', self.verify_token.0),
            bytes('V', &self.verify_token.1),
        ];
        let fields = match self.kind {
            Kind::GetInfo | Kind::OpenSettings => vec![],
            Kind::Register => {
                let own = [
                    bytes('C', &self.challenge),
                    bytes('U', &self.username),
                    number('y', self.attestation),
                ];
                [&app_id[..], &own, &access_token, &verify_token].concat()
            }
            Kind::Sign => {
                let own = [
                    bytes('C', &self.challenge),
                    number('S', self.content.0),
                    bytes('T', &self.content.1),
                ];
                let handles = [bytes('H', &self.handles), bytes('L', &sizes)];
                [&app_id[..], &own, &access_token, &verify_token, &handles].concat()
            }
            Kind::Deregister => {
                let own = [bytes('k', &self.key_id)];
                [&app_id[..], &own, &access_token].concat()
            }
        };
        let kind = [number('j', self.kind as u32)];
        let output = [number('o', self.command_size)];
        [&kind[..], &fields, &output].concat()
    }

    /// Writes it by the peer. Gives 0 or the refusal.
    pub fn write(&self, command: &mut [u8], length: &mut usize) -> u32 {
        let sizes: Vec<usize> = self
            .handle_sizes
            .iter()
            .map(|&size| size as usize)
            .collect();
        match self.kind {
            Kind::GetInfo => uaf_peer::write_get_info(command, length),
            Kind::Register => uaf_peer::write_register(
                self.app_id.0,
                &self.app_id.1,
                &self.challenge,
                &self.username,
                self.attestation,
                &self.access_token,
                self.verify_token.0,
                &self.verify_token.1,
                command,
                length,
            ),
            Kind::Sign => uaf_peer::write_sign(
                self.app_id.0,
                &self.app_id.1,
                &self.challenge,
                self.content.0,
                &self.content.1,
                &self.access_token,
                self.verify_token.0,
                &self.verify_token.1,
                &self.handles,
                &sizes,
                command,
                length,
            ),
            Kind::Deregister => uaf_peer::write_deregister(
                self.app_id.0,
                &self.app_id.1,
                &self.key_id,
                &self.access_token,
                command,
                length,
            ),
            Kind::OpenSettings => uaf_peer::write_open_settings(command, length),
        }
    }
}
