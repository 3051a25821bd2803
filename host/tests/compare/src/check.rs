//! Makes each call on the token and on the independent implementation and compares all that they
//! answer and all that they leave.

use crate::answered;
use crate::calls::{CommandCall, CompleteCall, Expect, Hex, WithdrawCall, WriteCall};
use crate::outcome;
use crate::output::Output;
use crate::properties;
use crate::report::{self, Counts, Entry, Outcome};
use crate::rng::Rng;
use crate::tlv::Kind;
use crate::withdrawn;
use std::fmt::Debug;
use std::ops::Range;
use std::panic::{catch_unwind, AssertUnwindSafe};
use uaf_peer::{Answer, Fields, Refusal, Served, MOST_FIELDS};
use uaf_token::raw::{self, CommandNumbers, FieldNumbers, PartNumbers};
use uaf_token::HASH_SIZE;

/// What disagreed, and the whole call with both results.
pub struct Mismatch {
    pub what: String,
    pub call: String,
}

pub type Checked<T> = Result<T, Box<Mismatch>>;

/// What a command that was not refused wrote.
pub struct Wrote {
    pub draft: bool,
    pub response: Vec<u8>,
    pub table: Vec<u8>,
}

impl Wrote {
    /// What a withdrawal wrote, which has no response.
    pub fn table_alone(table: Vec<u8>) -> Wrote {
        Wrote {
            draft: false,
            response: Vec::new(),
            table,
        }
    }
}

/// What the reader's two calls gave.
pub struct Read {
    pub part: Range<usize>,
    pub fields: FieldNumbers,
}

/// What an entry returned, and the lent numbers as it left them.
type Left<N> = (u32, N);

/// The peer's result as a C entry gives it: a refusal leaves the numbers as they were.
fn as_entry<T, N>(
    before: N,
    call: impl FnOnce() -> Result<T, Refusal>,
    numbers: impl FnOnce(T) -> N,
) -> Result<Left<N>, String> {
    match catch_unwind(AssertUnwindSafe(call)) {
        Ok(Ok(given)) => Ok((0, numbers(given))),
        Ok(Err(refusal)) => Ok((refusal as u32, before)),
        Err(_) => Err("the peer panicked".into()),
    }
}

fn command_numbers(served: Served) -> CommandNumbers {
    let (answer, response_length) = match served.answer {
        Answer::Response(length) => (uaf_token::RESPONSE, length),
        Answer::Draft(length) => (uaf_token::DRAFT, length),
    };
    CommandNumbers {
        answer,
        response_length,
        table_length: served.table_length,
    }
}

fn part_numbers(part: Range<usize>) -> PartNumbers {
    PartNumbers {
        place: part.start,
        length: part.len(),
    }
}

fn field_numbers(read: Fields) -> FieldNumbers {
    FieldNumbers {
        tag: read.tag.into(),
        status: read.status.into(),
        count: read.count,
        tags: read.fields.map(|field| field.tag.into()),
        places: read.fields.map(|field| field.place),
        lengths: read.fields.map(|field| field.length),
    }
}

/// What differs in the two results, or is not what the generator knows.
fn differ<N: PartialEq>(token: &Left<N>, peer: &Left<N>, expect: Expect) -> Option<String> {
    if token.0 != peer.0 {
        return Some(format!("token gives {}, peer {}", token.0, peer.0));
    }
    if token.1 != peer.1 {
        return Some("the numbers differ, or a refusal changed one".into());
    }
    let right = match expect {
        Expect::Anything => true,
        Expect::Refusal(number) => token.0 == number,
        Expect::Invalid | Expect::Served => token.0 == 0,
    };
    (!right).then(|| format!("both give {}, the generator made {:?}", token.0, expect))
}

fn changed(input: bool) -> Option<String> {
    input.then(|| "an input changed".into())
}

fn both<N: Debug>(token: &N, peer: &N) -> String {
    format!("  token {:?}\n  peer  {:?}\n", token, peer)
}

fn reader_call(entry: &str, response: &[u8]) -> String {
    format!("{}\n  response {}\n", entry, Hex(response))
}

/// Random numbers to be lent, so that an untouched one is seen.
fn row(rng: &mut Rng) -> [usize; MOST_FIELDS] {
    [(); MOST_FIELDS].map(|()| rng.next() as usize)
}

/// The call of a writer, by the token or by the peer: both have the same shapes.
macro_rules! write_by {
    ($by:ident, $call:expr, $command:expr, $length:expr) => {{
        let call: &WriteCall = $call;
        match call.kind {
            Kind::GetInfo => $by::write_get_info($command, $length),
            Kind::Register => $by::write_register(
                call.app_id.mark,
                &call.app_id.bytes,
                &call.challenge,
                &call.username,
                call.attestation,
                &call.access_token,
                call.verify_token.mark,
                &call.verify_token.bytes,
                $command,
                $length,
            ),
            Kind::Sign => $by::write_sign(
                call.app_id.mark,
                &call.app_id.bytes,
                &call.challenge,
                call.content.mark,
                &call.content.bytes,
                &call.access_token,
                call.verify_token.mark,
                &call.verify_token.bytes,
                &call.handles,
                &call.handle_sizes,
                $command,
                $length,
            ),
            Kind::Deregister => $by::write_deregister(
                call.app_id.mark,
                &call.app_id.bytes,
                &call.key_id,
                &call.access_token,
                $command,
                $length,
            ),
            Kind::OpenSettings => $by::write_open_settings($command, $length),
        }
    }};
}

/// The lengths that a refused command wrote.
const NOTHING: CommandNumbers = CommandNumbers {
    answer: 0,
    response_length: 0,
    table_length: 0,
};

/// How the first bytes of an output are printed.
type ShowBytes = fn(&Output, usize) -> String;

pub struct Checker {
    pub counts: Counts,
    rng: Rng,
    response: Output,
    table: Output,
    command: Output,
    hash: Output,
}

impl Checker {
    pub fn new() -> Checker {
        Checker {
            counts: Counts::default(),
            rng: Rng::new(0, 0),
            response: Output::default(),
            table: Output::default(),
            command: Output::default(),
            hash: Output::default(),
        }
    }

    /// What outputs and numbers hold before a call is determined by the case alone.
    pub fn start(&mut self, seed: u64, case: u64) {
        self.rng = Rng::new(!seed, case);
    }

    /// The numbers that the token and the peer leave; what they write stands in the outputs.
    fn run_command(
        &mut self,
        call: &CommandCall,
    ) -> Result<(Left<CommandNumbers>, Left<CommandNumbers>), String> {
        let before = CommandNumbers {
            answer: self.rng.next() as u32,
            response_length: self.rng.next() as usize,
            table_length: self.rng.next() as usize,
        };
        let lent = call.lent.lend();
        self.response.prepare(&mut self.rng, call.response_size);
        self.table.prepare(&mut self.rng, call.table_out_size);

        let (response, table) = (self.response.token(), self.table.token());
        let mut numbers = before;
        let refusal = raw::command(
            &call.command,
            &lent,
            &call.table,
            response,
            table,
            &mut numbers,
        );
        let (response, table) = (self.response.peer(), self.table.peer());
        let peer = as_entry(
            before,
            || uaf_peer::command(&call.command, &lent, &call.table, response, table),
            command_numbers,
        )?;
        Ok(((refusal, numbers), peer))
    }

    /// A command. Gives what it wrote or its refusal.
    pub fn command(&mut self, call: &CommandCall, expect: Expect) -> Checked<Result<Wrote, u32>> {
        let kept = call.clone();
        let (token, peer) = self
            .run_command(call)
            .or_else(|what| fail(what, call.to_string()))?;
        let (refusal, numbers) = token;
        let written = if refusal == 0 { numbers } else { NOTHING };
        let fault = differ(&token, &peer, expect)
            .or_else(|| self.response.fault("response", written.response_length))
            .or_else(|| self.table.fault("table_out", written.table_length))
            .or_else(|| changed(kept != *call));
        if let Some(what) = fault {
            return fail(what, self.show_command(call, &token, &peer));
        }
        let answer = match refusal {
            0 => Ok(Wrote {
                draft: numbers.answer == uaf_token::DRAFT,
                response: self.response.written(numbers.response_length).to_vec(),
                table: self.table.written(numbers.table_length).to_vec(),
            }),
            _ => Err(refusal),
        };
        let asked = outcome::asked(&call.command);
        self.counts
            .add(Entry::Command, asked, outcome::of_command(&answer));
        match answered::of_command(&mut self.counts, call, &answer, expect) {
            Err(what) => fail(what, self.show_command(call, &token, &peer)),
            Ok(()) => Ok(answer),
        }
    }

    fn show_command(
        &self,
        call: &CommandCall,
        token: &Left<CommandNumbers>,
        peer: &Left<CommandNumbers>,
    ) -> String {
        let mut text = call.to_string() + &both(token, peer);
        let of_token: ShowBytes = Output::token_hex;
        let of_peer: ShowBytes = Output::peer_hex;
        for (whose, left, show) in [("token", token, of_token), ("peer", peer, of_peer)] {
            if left.0 == 0 {
                let response = show(&self.response, left.1.response_length);
                let table = show(&self.table, left.1.table_length);
                text += &format!("  {}'s response  {}\n", whose, response);
                text += &format!("  {}'s table_out {}\n", whose, table);
            }
        }
        text
    }

    /// A withdrawal. Gives the table left or its refusal.
    pub fn withdraw(
        &mut self,
        call: &WithdrawCall,
        expect: Expect,
    ) -> Checked<Result<Vec<u8>, u32>> {
        let kept = call.clone();
        let (token, peer) = self
            .run_withdrawal(call)
            .or_else(|what| fail(what, call.to_string()))?;
        let (refusal, length) = token;
        let fault = differ(&token, &peer, expect)
            .or_else(|| {
                let written = if refusal == 0 { length } else { 0 };
                self.table.fault("table_out", written)
            })
            .or_else(|| changed(kept != *call));
        if let Some(what) = fault {
            return fail(what, self.show_withdrawal(call, &token, &peer));
        }
        let answer = match refusal {
            0 => Ok(self.table.written(length).to_vec()),
            _ => Err(refusal),
        };
        match withdrawn::of_withdrawal(&mut self.counts, call, &answer) {
            Err(what) => fail(what, self.show_withdrawal(call, &token, &peer)),
            Ok(()) => Ok(answer),
        }
    }

    fn run_withdrawal(
        &mut self,
        call: &WithdrawCall,
    ) -> Result<(Left<usize>, Left<usize>), String> {
        let WithdrawCall {
            mixed,
            key_id,
            table,
            table_out_size,
        } = call;
        let before = self.rng.next() as usize;
        self.table.prepare(&mut self.rng, *table_out_size);
        let mut length = before;
        let refusal = raw::withdraw(mixed, key_id, table, self.table.token(), &mut length);
        let table_out = self.table.peer();
        let by_peer = || uaf_peer::withdraw(mixed, key_id, table, table_out);
        let peer = as_entry(before, by_peer, |length| length)?;
        Ok(((refusal, length), peer))
    }

    fn show_withdrawal(
        &self,
        call: &WithdrawCall,
        token: &Left<usize>,
        peer: &Left<usize>,
    ) -> String {
        let mut text = call.to_string() + &both(token, peer);
        let of_token: ShowBytes = Output::token_hex;
        let of_peer: ShowBytes = Output::peer_hex;
        for (whose, left, show) in [("token", token, of_token), ("peer", peer, of_peer)] {
            if left.0 == 0 {
                let table = show(&self.table, left.1);
                text += &format!("  {}'s table_out {}\n", whose, table);
            }
        }
        text
    }

    /// A completion. Gives the response, or nothing after a refusal.
    pub fn complete(&mut self, call: &CompleteCall, expect: Expect) -> Checked<Option<Vec<u8>>> {
        let kept = call.clone();
        let (token, peer) = self
            .run_completion(call)
            .or_else(|what| fail(what, call.to_string()))?;
        let (refusal, length) = token;
        let fault = differ(&token, &peer, expect)
            .or_else(|| {
                let written = if refusal == 0 { length } else { 0 };
                self.response.fault("response", written)
            })
            .or_else(|| changed(kept != *call));
        if let Some(what) = fault {
            let mut text = call.to_string() + &both(&token, &peer);
            text += &format!("  token's response {}\n", self.response.token_hex(length));
            text += &format!("  peer's response  {}\n", self.response.peer_hex(peer.1));
            return fail(what, text);
        }
        let kind = report::completion_name(call.kind);
        let class = outcome::of_completion(refusal, call.kind, &call.draft, call.attestation);
        self.counts.add(Entry::Complete, kind, class);
        if refusal != 0 {
            self.counts.add_property(properties::REFUSAL);
            return Ok(None);
        }
        Ok(Some(self.response.written(length).to_vec()))
    }

    fn run_completion(
        &mut self,
        call: &CompleteCall,
    ) -> Result<(Left<usize>, Left<usize>), String> {
        let before = self.rng.next() as usize;
        self.response.prepare(&mut self.rng, call.response_size);
        let mut length = before;
        let refusal = raw::complete(
            call.kind,
            &call.draft,
            call.attestation,
            &call.signature,
            &call.certificate,
            self.response.token(),
            &mut length,
        );
        let response = self.response.peer();
        let by_peer = || {
            uaf_peer::complete(
                call.kind,
                &call.draft,
                call.attestation,
                &call.signature,
                &call.certificate,
                response,
            )
        };
        let peer = as_entry(before, by_peer, |length| length)?;
        Ok(((refusal, length), peer))
    }

    /// The hash of two stretches.
    pub fn hash(&mut self, first: &[u8], second: &[u8]) -> Checked<[u8; HASH_SIZE]> {
        let kept = (first.to_vec(), second.to_vec());
        self.hash.prepare(&mut self.rng, HASH_SIZE);
        let output = self.hash.token().try_into().expect("its size");
        raw::hash(first, second, output);
        let by_peer = catch_unwind(|| uaf_peer::hash(&kept.0, &kept.1));
        let show = || {
            format!(
                "uaf_hash\n  first  {}\n  second {}\n",
                Hex(first),
                Hex(second)
            )
        };
        match by_peer {
            Ok(hash) => self.hash.peer().copy_from_slice(&hash),
            Err(_) => return fail("the peer panicked".into(), show()),
        }
        let fault = self.hash.fault("hash", HASH_SIZE);
        let fault = fault.or_else(|| changed((first, second) != (&kept.0[..], &kept.1[..])));
        if let Some(what) = fault {
            let token = self.hash.token_hex(HASH_SIZE);
            let peer = self.hash.peer_hex(HASH_SIZE);
            return fail(what, show() + &both(&token, &peer));
        }
        let filled = usize::from(!first.is_empty()) + 2 * usize::from(!second.is_empty());
        let stretches = report::STRETCHES[filled];
        self.counts.add(Entry::Hash, stretches, Outcome::Hash);
        let hash = self.hash.written(HASH_SIZE);
        Ok(hash.try_into().expect("its size"))
    }

    /// A writer. Gives the command, or nothing after a refusal.
    pub fn write(&mut self, call: &WriteCall, expect: Expect) -> Checked<Option<Vec<u8>>> {
        let kept = call.clone();
        let (token, peer) = self
            .run_writer(call)
            .or_else(|what| fail(what, call.to_string()))?;
        let (refusal, length) = token;
        let fault = differ(&token, &peer, expect)
            .or_else(|| {
                let written = if refusal == 0 { length } else { 0 };
                self.command.fault("command", written)
            })
            .or_else(|| changed(kept != *call));
        if let Some(what) = fault {
            let mut text = call.to_string() + &both(&token, &peer);
            text += &format!("  token's command {}\n", self.command.token_hex(length));
            text += &format!("  peer's command  {}\n", self.command.peer_hex(peer.1));
            return fail(what, text);
        }
        let answer = match refusal {
            0 => Outcome::Written,
            _ => Outcome::Refusal(refusal),
        };
        self.counts
            .add(Entry::Write, report::name_of(call.kind), answer);
        if refusal != 0 {
            self.counts.add_property(properties::REFUSAL);
            return Ok(None);
        }
        Ok(Some(self.command.written(length).to_vec()))
    }

    fn run_writer(&mut self, call: &WriteCall) -> Result<(Left<usize>, Left<usize>), String> {
        let before = self.rng.next() as usize;
        self.command.prepare(&mut self.rng, call.command_size);
        let mut length = before;
        let refusal = write_by!(raw, call, self.command.token(), &mut length);
        let mut by_peer = before;
        let command = self.command.peer();
        let write = || write_by!(uaf_peer, call, command, &mut by_peer);
        let peer = catch_unwind(AssertUnwindSafe(write)).or(Err("the peer panicked"))?;
        Ok(((refusal, length), (peer, by_peer)))
    }

    /// The reader's first call.
    fn signed_part(&mut self, response: &[u8], expect: Expect) -> Checked<Option<Range<usize>>> {
        let before = PartNumbers {
            place: self.rng.next() as usize,
            length: self.rng.next() as usize,
        };
        let kept = response.to_vec();
        let mut numbers = before;
        let token = (raw::signed_part(response, &mut numbers), numbers);
        let show = || reader_call("uaf_signed_part", &kept);
        let peer = as_entry(before, || uaf_peer::signed_part(&kept), part_numbers);
        let peer = peer.or_else(|what| fail(what, show()))?;
        let fault = differ(&token, &peer, expect).or_else(|| changed(kept != response));
        if let Some(what) = fault {
            return fail(what, show() + &both(&token, &peer));
        }
        let answer = match token {
            (0, PartNumbers { length: 0, .. }) => Outcome::NoPart,
            (0, _) => Outcome::Part,
            (refusal, _) => Outcome::Refusal(refusal),
        };
        self.counts
            .add(Entry::SignedPart, outcome::answered(response), answer);
        Ok((token.0 == 0).then(|| numbers.place..numbers.place + numbers.length))
    }

    /// The reader's second call.
    fn read_fields(&mut self, response: &[u8], expect: Expect) -> Checked<Option<FieldNumbers>> {
        let before = FieldNumbers {
            tag: self.rng.next() as usize,
            status: self.rng.next() as usize,
            count: self.rng.next() as usize,
            tags: row(&mut self.rng),
            places: row(&mut self.rng),
            lengths: row(&mut self.rng),
        };
        let kept = response.to_vec();
        let mut numbers = before;
        let token = (raw::read_fields(response, &mut numbers), numbers);
        let show = || reader_call("uaf_read_fields", &kept);
        let peer = as_entry(before, || uaf_peer::read_fields(&kept), field_numbers);
        let peer = peer.or_else(|what| fail(what, show()))?;
        let fault = differ(&token, &peer, expect).or_else(|| changed(kept != response));
        if let Some(what) = fault {
            return fail(what, show() + &both(&token, &peer));
        }
        let answer = match token.0 {
            0 => outcome::of_fields(&numbers),
            refusal => Outcome::Refusal(refusal),
        };
        self.counts
            .add(Entry::ReadFields, outcome::answered(response), answer);
        Ok((token.0 == 0).then_some(numbers))
    }

    /// Both of the reader's calls.
    pub fn read(&mut self, response: &[u8], expect: Expect) -> Checked<Option<Read>> {
        let part = self.signed_part(response, expect)?;
        let fields = self.read_fields(response, expect)?;
        match properties::of_reading(&mut self.counts, response, part, fields) {
            Err(what) => fail(what, reader_call("both calls of the reader", response)),
            Ok(read) => Ok(read),
        }
    }
}

pub fn fail<T>(what: String, call: String) -> Checked<T> {
    Err(Box::new(Mismatch { what, call }))
}
