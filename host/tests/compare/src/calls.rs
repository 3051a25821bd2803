//! The calls to be made, with inputs of their own, and how they are printed.

use crate::tlv::Kind;
use std::fmt::{self, Display, Formatter};
use uaf_peer::{Lent, Profile};

/// The least outputs.
pub const LEAST_RESPONSE: usize = 4096;
pub const LEAST_TABLE: usize = 6912;

/// What a command is lent.
#[derive(Clone, PartialEq, Eq)]
pub struct LentBytes {
    pub aaid: Vec<u8>,
    pub version: u32,
    pub signature_algorithm: u32,
    pub key_algorithm: u32,
    pub metadata: Vec<u8>,
    pub verdict: u32,
    pub display: u32,
    pub key_id: Vec<u8>,
    pub public_key: Vec<u8>,
    pub nonce: Vec<u8>,
}

impl LentBytes {
    pub fn lend(&self) -> Lent<'_> {
        Lent {
            profile: Profile {
                aaid: &self.aaid,
                version: self.version,
                signature_algorithm: self.signature_algorithm,
                key_algorithm: self.key_algorithm,
                metadata: &self.metadata,
            },
            verdict: self.verdict,
            display: self.display,
            key_id: &self.key_id,
            public_key: &self.public_key,
            nonce: &self.nonce,
        }
    }
}

#[derive(Clone, PartialEq, Eq)]
pub struct CommandCall {
    pub command: Vec<u8>,
    pub lent: LentBytes,
    pub table: Vec<u8>,
    pub response_size: usize,
    pub table_out_size: usize,
}

#[derive(Clone, PartialEq, Eq)]
pub struct WithdrawCall {
    pub mixed: Vec<u8>,
    pub key_id: Vec<u8>,
    pub table: Vec<u8>,
    pub table_out_size: usize,
}

#[derive(Clone, PartialEq, Eq)]
pub struct CompleteCall {
    pub kind: u32,
    pub draft: Vec<u8>,
    pub attestation: u32,
    pub signature: Vec<u8>,
    pub certificate: Vec<u8>,
    pub response_size: usize,
}

/// The marks of a field that may be left away.
pub const NOT_GIVEN: u32 = 0;
pub const GIVEN: u32 = 1;

/// A field that may be left away, with its mark.
#[derive(Clone, PartialEq, Eq, Default)]
pub struct Marked {
    pub mark: u32,
    pub bytes: Vec<u8>,
}

/// A call of the writer of one command, which is lent the fields that the command lists.
#[derive(Clone, PartialEq, Eq)]
pub struct WriteCall {
    pub kind: Kind,
    pub app_id: Marked,
    pub challenge: Vec<u8>,
    pub username: Vec<u8>,
    pub attestation: u32,
    pub content: Marked,
    pub access_token: Vec<u8>,
    pub verify_token: Marked,
    pub key_id: Vec<u8>,
    pub handles: Vec<u8>,
    pub handle_sizes: Vec<usize>,
    pub command_size: usize,
}

impl WriteCall {
    /// Without fields.
    pub fn new(kind: Kind) -> WriteCall {
        WriteCall {
            kind,
            app_id: Marked::default(),
            challenge: Vec::new(),
            username: Vec::new(),
            attestation: 0,
            content: Marked::default(),
            access_token: Vec::new(),
            verify_token: Marked::default(),
            key_id: Vec::new(),
            handles: Vec::new(),
            handle_sizes: Vec::new(),
            command_size: 0,
        }
    }
}

/// What document 01 says of a call, as far as the generator knows it without deciding the command.
#[derive(Clone, Copy, PartialEq, Eq, Debug)]
pub enum Expect {
    Anything,
    Refusal(u32),
    /// PARAMS_INVALID.
    Invalid,
    /// Neither a refusal nor, of a command, PARAMS_INVALID.
    Served,
}

/// Bytes in hex, with their number.
pub struct Hex<'a>(pub &'a [u8]);

impl Display for Hex<'_> {
    fn fmt(&self, f: &mut Formatter) -> fmt::Result {
        write!(f, "[{}] ", self.0.len())?;
        for byte in self.0 {
            write!(f, "{:02X}", byte)?;
        }
        Ok(())
    }
}

impl Display for CommandCall {
    fn fmt(&self, f: &mut Formatter) -> fmt::Result {
        let lent = &self.lent;
        writeln!(f, "uaf_command")?;
        writeln!(f, "  command             {}", Hex(&self.command))?;
        writeln!(f, "  aaid                {}", Hex(&lent.aaid))?;
        writeln!(f, "  version             {:#06X}", lent.version)?;
        writeln!(f, "  signature_algorithm {:#06X}", lent.signature_algorithm)?;
        writeln!(f, "  key_algorithm       {:#06X}", lent.key_algorithm)?;
        writeln!(f, "  metadata            {}", Hex(&lent.metadata))?;
        writeln!(f, "  verdict             {}", lent.verdict)?;
        writeln!(f, "  display             {}", lent.display)?;
        writeln!(f, "  key_id              {}", Hex(&lent.key_id))?;
        writeln!(f, "  public_key          {}", Hex(&lent.public_key))?;
        writeln!(f, "  nonce               {}", Hex(&lent.nonce))?;
        writeln!(f, "  table               {}", Hex(&self.table))?;
        writeln!(f, "  response_size       {}", self.response_size)?;
        writeln!(f, "  table_out_size      {}", self.table_out_size)
    }
}

impl Display for WithdrawCall {
    fn fmt(&self, f: &mut Formatter) -> fmt::Result {
        writeln!(f, "uaf_withdraw")?;
        writeln!(f, "  mixed               {}", Hex(&self.mixed))?;
        writeln!(f, "  key_id              {}", Hex(&self.key_id))?;
        writeln!(f, "  table               {}", Hex(&self.table))?;
        writeln!(f, "  table_out_size      {}", self.table_out_size)
    }
}

impl Display for CompleteCall {
    fn fmt(&self, f: &mut Formatter) -> fmt::Result {
        writeln!(f, "uaf_complete")?;
        writeln!(f, "  kind                {}", self.kind)?;
        writeln!(f, "  draft               {}", Hex(&self.draft))?;
        writeln!(f, "  attestation         {:#X}", self.attestation)?;
        writeln!(f, "  signature           {}", Hex(&self.signature))?;
        writeln!(f, "  certificate         {}", Hex(&self.certificate))?;
        writeln!(f, "  response_size       {}", self.response_size)
    }
}

impl Display for Marked {
    fn fmt(&self, f: &mut Formatter) -> fmt::Result {
        write!(f, "mark {} {}", self.mark, Hex(&self.bytes))
    }
}

impl Display for WriteCall {
    fn fmt(&self, f: &mut Formatter) -> fmt::Result {
        writeln!(f, "uaf_write_*, {:?}", self.kind)?;
        writeln!(f, "  app_id              {}", self.app_id)?;
        writeln!(f, "  challenge           {}", Hex(&self.challenge))?;
        writeln!(f, "  username            {}", Hex(&self.username))?;
        writeln!(f, "  attestation         {:#X}", self.attestation)?;
        writeln!(f, "  content             {}", self.content)?;
        writeln!(f, "  key_id              {}", Hex(&self.key_id))?;
        writeln!(f, "  access_token        {}", Hex(&self.access_token))?;
        writeln!(f, "  verify_token        {}", self.verify_token)?;
        writeln!(f, "  handles             {}", Hex(&self.handles))?;
        writeln!(f, "  handle_sizes        {:?}", self.handle_sizes)?;
        writeln!(f, "  command_size        {}", self.command_size)
    }
}
