//! A script in the making: the lines that the program is given, and those that it must print, which
//! are what the peer answers to the same calls.

use crate::bytes::hex;
use crate::call::{spoil, Argument, Call, Completion, Withdrawal, Writing};
use crate::output::{sum, Output};
use std::collections::BTreeMap;
use uaf_peer::{Answer, Fields, Refusal, TableValue, MOST_FIELDS};

/// What a number that a call writes holds before it.
const UNSET: usize = 77;

/// Names say what a call shows.
#[derive(Default)]
pub struct Trace {
    pub script: Vec<String>,
    pub expected: Vec<String>,
    /// The arguments as they were set last.
    set: BTreeMap<char, Vec<u8>>,
    /// The stored form of the next call's table.
    table: Vec<u8>,
    by_value_every: usize,
    ending: &'static str,
    runs: usize,
}

/// What is printed of an answer, and what was written.
fn answered(answer: Answer, response: &Output) -> (String, Vec<u8>) {
    let (what, length) = match answer {
        Answer::Response(length) => ("response", length),
        Answer::Draft(length) => ("draft", length),
    };
    let said = format!("{} {}", what, response.written(length, true));
    (said, response.0[..length].to_vec())
}

/// What is printed of storing a table that came back, and its stored form, if it has one.
fn stored(table: &TableValue, size: u32, dump: bool) -> (String, Option<Vec<u8>>) {
    let mut form = Output::new(size);
    match uaf_peer::store(table, &mut form.0) {
        Ok(length) => {
            let said = format!("table {}", form.written(length, dump));
            (said, Some(form.0[..length].to_vec()))
        }
        Err(refusal) => {
            let said = format!("store {} {}", refusal as u32, form.whole_sum());
            (said, None)
        }
    }
}

impl Trace {
    /// From here on each so-many-th command or withdrawal is made on a table by value, the others on
    /// its stored form: 0 is none, 1 is all. The ending is put behind each name.
    pub fn change_form(&mut self, by_value_every: usize, ending: &'static str) {
        self.by_value_every = by_value_every;
        self.ending = ending;
        self.runs = 0;
    }

    pub fn say(&mut self, text: &str) {
        self.script.push(format!("# {text}"));
    }

    /// Hands the next call this table.
    pub fn give(&mut self, records: &[Vec<u8>]) {
        self.table = records.concat();
    }

    /// The table that the next call is handed.
    pub fn table(&self) -> &[u8] {
        &self.table
    }

    /// Sets the arguments that are not so already.
    fn set(&mut self, arguments: Vec<Argument>) {
        for (letter, value) in arguments {
            if self.set.get(&letter) != Some(&value) {
                self.script.push(format!("{} {}", letter, hex(&value)));
                self.set.insert(letter, value);
            }
        }
    }

    fn expect(&mut self, name: &str, said: &str) {
        self.expected.push(format!("{name}: {said}"));
    }

    /// The program keeps the table left as the next one.
    fn keep(&mut self, table: &[u8]) {
        self.table = table.to_vec();
        self.set.insert('t', table.to_vec());
    }

    /// Whether the next command or withdrawal is made on a table by value.
    fn next_by_value(&mut self) -> bool {
        self.runs += 1;
        self.by_value_every > 0 && self.runs % self.by_value_every == 0
    }

    /// Runs a command; the table left is the next call's. Gives what was written, nothing after a
    /// refusal.
    pub fn run(&mut self, name: &str, call: Call) -> Vec<u8> {
        self.set(call.arguments(&self.table));
        let by_value = self.next_by_value();
        let name = format!("{}{}", name, self.ending);
        let mark = match (by_value, call.dump) {
            (false, false) => '!',
            (false, true) => '?',
            (true, false) => '&',
            (true, true) => '@',
        };
        self.script.push(format!("{mark} {name}"));
        if by_value {
            self.run_by_value(&name, &call)
        } else {
            self.run_stored(&name, &call)
        }
    }

    fn run_stored(&mut self, name: &str, call: &Call) -> Vec<u8> {
        let mut response = Output::new(call.response_size);
        let mut table = Output::new(call.table_out_size);
        let lent = call.lent();
        let outputs = (&mut response.0, &mut table.0);
        match uaf_peer::command(&call.command, &lent, &self.table, outputs.0, outputs.1) {
            Err(refusal) => {
                let sums = format!("{} {}", response.whole_sum(), table.whole_sum());
                let numbers = format!("{UNSET} {UNSET} {UNSET}");
                self.expect(
                    name,
                    &format!("refusal {} {numbers} {sums}", refusal as u32),
                );
                vec![]
            }
            Ok(served) => {
                let (said, answer) = answered(served.answer, &response);
                let left = table.written(served.table_length, call.dump);
                self.expect(name, &format!("{said} table {left}"));
                self.keep(&table.0[..served.table_length]);
                answer
            }
        }
    }

    /// The table is loaded, and the one that comes back is stored, also after a refusal.
    fn run_by_value(&mut self, name: &str, call: &Call) -> Vec<u8> {
        let mut table = match uaf_peer::load(&self.table) {
            Ok(table) => table,
            Err(refusal) => {
                self.expect(name, &format!("load {}", refusal as u32));
                return vec![];
            }
        };
        spoil(&mut table, call.spoilt);
        let mut response = Output::new(call.response_size);
        let served =
            uaf_peer::command_by_value(&call.command, &call.lent(), &mut table, &mut response.0);
        let (said, answer) = match served {
            Ok(answer) => answered(answer, &response),
            Err(refusal) => {
                let said = format!("refusal {} {}", refusal as u32, response.whole_sum());
                (said, vec![])
            }
        };
        let (kept, stored) = stored(&table, call.table_out_size, call.dump);
        self.expect(name, &format!("by value, {said} {kept}"));
        if let (Ok(_), Some(stored)) = (served, stored) {
            self.keep(&stored);
        }
        answer
    }

    /// Withdraws a record; the table left is the next call's. Gives 0 or the refusal.
    pub fn withdraw(&mut self, name: &str, withdrawal: &Withdrawal) -> u32 {
        self.set(withdrawal.arguments(&self.table));
        let by_value = self.next_by_value();
        let name = format!("{}{}", name, self.ending);
        let mark = if by_value { '~' } else { '-' };
        self.script.push(format!("{mark} {name}"));
        let done = if by_value {
            self.withdraw_by_value(&name, withdrawal)
        } else {
            self.withdraw_stored(&name, withdrawal)
        };
        done.map_or_else(|refusal| refusal as u32, |()| 0)
    }

    fn withdraw_stored(&mut self, name: &str, withdrawal: &Withdrawal) -> Result<(), Refusal> {
        let Withdrawal { mixed, key_id, .. } = withdrawal;
        let mut table = Output::new(withdrawal.table_out_size);
        let done = uaf_peer::withdraw(mixed, key_id, &self.table, &mut table.0);
        match done {
            Err(refusal) => {
                let kept = table.whole_sum();
                self.expect(name, &format!("refusal {} {UNSET} {kept}", refusal as u32));
            }
            Ok(length) => {
                let left = table.written(length, true);
                self.expect(name, &format!("withdrawn table {left}"));
                self.keep(&table.0[..length]);
            }
        }
        done.map(drop)
    }

    /// The table is loaded, and the one that comes back is stored, also after a refusal.
    fn withdraw_by_value(&mut self, name: &str, withdrawal: &Withdrawal) -> Result<(), Refusal> {
        let Withdrawal { mixed, key_id, .. } = withdrawal;
        let mut table = match uaf_peer::load(&self.table) {
            Ok(table) => table,
            Err(refusal) => {
                self.expect(name, &format!("load {}", refusal as u32));
                return Err(refusal);
            }
        };
        spoil(&mut table, withdrawal.spoilt);
        let done = uaf_peer::withdraw_by_value(mixed, key_id, &mut table);
        let said = match done {
            Ok(()) => "withdrawn".to_string(),
            Err(refusal) => format!("refusal {}", refusal as u32),
        };
        let (kept, stored) = stored(&table, withdrawal.table_out_size, true);
        self.expect(name, &format!("by value, {said} {kept}"));
        if let (Ok(()), Some(stored)) = (done, stored) {
            self.keep(&stored);
        }
        done
    }

    /// Completes a draft; the response is what is read next. Gives it, nothing after a refusal.
    pub fn complete(&mut self, name: &str, completion: &Completion) -> Vec<u8> {
        self.set(completion.arguments());
        self.script.push(format!("= {name}"));
        let mut response = Output::new(completion.response_size);
        match completed(completion, &mut response) {
            Err(refusal) => {
                let kept = response.whole_sum();
                self.expect(name, &format!("refusal {} {UNSET} {kept}", refusal as u32));
                vec![]
            }
            Ok(length) => {
                self.expect(
                    name,
                    &format!("completed {}", response.written(length, true)),
                );
                response.0.truncate(length);
                self.set.insert('r', response.0.clone());
                response.0
            }
        }
    }

    /// Writes a command, which is what is run next. Gives it, nothing after a refusal.
    pub fn write(&mut self, name: &str, writing: &Writing) -> Vec<u8> {
        self.set(writing.arguments());
        self.script.push(format!("+ {name}"));
        let (mut command, mut length) = (Output::new(writing.command_size), UNSET);
        let refusal = writing.write(&mut command.0, &mut length);
        if refusal != 0 {
            let kept = command.whole_sum();
            self.expect(name, &format!("refusal {refusal} {length} {kept}"));
            return vec![];
        }
        self.expect(name, &format!("written {}", command.written(length, true)));
        command.0.truncate(length);
        self.set.insert('c', command.0.clone());
        command.0
    }

    /// Hashes two stretches.
    pub fn hash(&mut self, name: &str, first: &[u8], second: &[u8]) {
        // One that was never set is empty.
        let mut arguments = vec![('x', first.to_vec()), ('h', second.to_vec())];
        arguments.retain(|(letter, value)| !value.is_empty() || self.set.contains_key(letter));
        self.set(arguments);
        self.script.push(format!("% {name}"));
        let hash = Output(uaf_peer::hash(first, second).to_vec());
        self.expect(name, &format!("hash {}", hash.written(32, true)));
    }

    /// Reads the response that lies there. Gives whether it is one.
    pub fn read_this(&mut self, name: &str, response: &[u8]) -> bool {
        self.script.push(format!("< {name}"));
        let (said, is_read) = match uaf_peer::read_fields(response) {
            Ok(fields) => (read(response, &fields), true),
            Err(refusal) => (not_read(refusal), false),
        };
        self.expect(name, &said);
        is_read
    }

    /// Reads a response. Gives whether it is one.
    pub fn read(&mut self, name: &str, response: &[u8]) -> bool {
        self.set(vec![('r', response.to_vec())]);
        self.read_this(name, response)
    }

    /// Reads a response with one byte changed, and changes it back.
    pub fn read_changed(&mut self, name: &str, response: &[u8], place: usize, byte: u8) -> bool {
        self.set(vec![('r', response.to_vec())]);
        let mut changed = response.to_vec();
        changed[place] = byte;
        self.change_byte(place, byte);
        let is_read = self.read_this(name, &changed);
        self.change_byte(place, response[place]);
        is_read
    }

    fn change_byte(&mut self, place: usize, byte: u8) {
        let place = hex(&(place as u16).to_le_bytes());
        self.script.push(format!("^ {place}{byte:02X}"));
    }
}

/// A completion by the peer.
pub fn completed(completion: &Completion, response: &mut Output) -> Result<usize, Refusal> {
    uaf_peer::complete(
        completion.kind,
        &completion.draft,
        completion.attestation,
        &completion.signature,
        &completion.certificate,
        &mut response.0,
    )
}

/// What is printed of a response that is read: the signed structure's place and length, by the C
/// entry; its length and sum, as a stretch of the response; and all 17 rows of the fields.
fn read(response: &[u8], fields: &Fields) -> String {
    let part = uaf_peer::signed_part(response).expect("what has fields has a part");
    let (place, length) = (part.start, part.len());
    let mut said = format!(
        "signed 0 {place} {length} part 0 {length} {}",
        sum(&response[part])
    );
    said += &format!(" list 0 {} {} {}", fields.tag, fields.status, fields.count);
    for field in fields.fields {
        said += &format!("; {} {} {}", field.tag, field.place, field.length);
    }
    said
}

/// The numbers are as they were, and of the arrays' rows the sum.
fn not_read(refusal: Refusal) -> String {
    let (number, rows) = (refusal as u32, MOST_FIELDS * UNSET);
    format!(
        "signed {number} {UNSET} {UNSET} part {number} 0 1 \
         list {number} {UNSET} {UNSET} {UNSET} {rows} {rows} {rows}"
    )
}

#[cfg(test)]
mod tests {
    use super::Trace;
    use crate::bytes::{anns, ANN};
    use crate::call::{of, Kind, Withdrawal, Writing};

    fn settings(command_size: u32) -> Writing {
        Writing {
            kind: Kind::OpenSettings,
            app_id: (0, vec![]),
            challenge: vec![],
            username: vec![],
            attestation: 0,
            content: (0, vec![]),
            key_id: vec![],
            access_token: vec![],
            verify_token: (0, vec![]),
            handles: vec![],
            handle_sizes: vec![],
            command_size,
        }
    }

    /// The sums are zlib's.
    #[test]
    fn what_is_printed_of_a_writer() {
        let mut t = Trace::default();
        t.write("longer", &settings(12));
        t.write("short", &settings(8));
        assert_eq!(
            t.expected,
            [
                "longer: written 9 48627830 93782731 063405000D28010000",
                "short: refusal 1 77 562038641",
            ]
        );
        assert_eq!(
            t.script,
            [
                "j 04000000",
                "o 0C000000",
                "+ longer",
                "o 08000000",
                "+ short"
            ]
        );
    }

    /// The command that was written is not set again to be run, also after a refusal.
    #[test]
    fn a_written_command_is_run() {
        let mut t = Trace::default();
        let command = t.write("write", &settings(9));
        t.write("refused", &settings(0));
        t.run("run", of(command));
        assert!(t.script.iter().all(|line| !line.starts_with("c ")));
        assert!(t.expected[2].starts_with("run: response 10 "));
    }

    /// An argument that was never set is empty; one that was set stays so.
    #[test]
    fn what_is_printed_of_a_hash() {
        let mut t = Trace::default();
        t.hash("nothing", b"", b"");
        t.hash("abc", b"ab", b"c");
        t.hash("c", b"", b"c");
        assert_eq!(
            t.expected,
            [
                "nothing: hash 32 800526640 1 E3B0C44298FC1C149AFBF4C8996FB92427AE41E4649B934CA495991B7852B855",
                "abc: hash 32 4091350675 1 BA7816BF8F01CFEA414140DE5DAE2223B00361A396177A9CB410FF61F20015AD",
                "c: hash 32 4058124166 1 2E7D2C03A9507AE265ECF5B5356885A53393A2029D241394997265A1A25AEFC6",
            ]
        );
        assert_eq!(
            t.script,
            ["% nothing", "x 6162", "h 63", "% abc", "x ", "% c"]
        );
    }

    /// In both forms: a refusal, a table output that is short, and a record that goes.
    #[test]
    fn what_is_printed_of_a_withdrawal() {
        let mut t = Trace::default();
        let right = Withdrawal::of(&ANN, 1);
        let short = Withdrawal {
            table_out_size: 4,
            ..right.clone()
        };
        for by_value_every in [0, 1] {
            t.change_form(by_value_every, "");
            t.give(&[anns(1)]);
            assert_eq!(t.withdraw("short", &short), 1 - by_value_every as u32);
            assert_eq!(t.table(), anns(1));
            assert_eq!(t.withdraw("gone", &right), 0);
            assert_eq!(t.withdraw("none", &right), 7);
        }
        t.give(&[vec![0]]);
        assert_eq!(t.withdraw("broken", &right), 2);
        assert_eq!(
            t.expected,
            [
                "short: refusal 1 77 156238777",
                "gone: withdrawn table 0 1 2230393720 ",
                "none: refusal 7 77 2230393720",
                "short: by value, withdrawn store 1 156238777",
                "gone: by value, withdrawn table 0 1 2230393720 ",
                "none: by value, refusal 7 table 0 1 2230393720 ",
                "broken: load 2",
            ]
        );
        let marks: Vec<&str> = t.script.iter().map(|line| &line[..1]).collect();
        assert_eq!(marks.concat(), "Mktwb-w--tw~w~~t~");
    }
}
