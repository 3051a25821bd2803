//! Names that are UTF-8 and names that are not, at each place where one is read: in a Register, in a
//! stored table, in Sign's list when it is read back, and where a Register is written of it.

use crate::calls::{CommandCall, Expect, WriteCall, LEAST_RESPONSE, LEAST_TABLE};
use crate::check::{Checked, Checker};
use crate::gen_lent;
use crate::gen_name::{self, EDGES, MOST_NAME};
use crate::gen_response;
use crate::gen_table::{encode, Record};
use crate::properties;
use crate::rng::Rng;
use crate::tlv::{self, Child, Kind};
use uaf_peer::hash;

const VERIFIED: u32 = 0;
const DENIED: u32 = 1;
/// For a Register of the longest name and the shortest other fields.
const LONG_ENOUGH: usize = 60 + MOST_NAME;
const TOKEN: [u8; 32] = [0xAA; 32];

/// A holder whose calls and records differ in their names alone.
struct Holder {
    /// On no records.
    register: CommandCall,
    /// Without handles.
    sign: CommandCall,
    /// Of the shortest fields.
    write: WriteCall,
    records: [Record; 2],
}

/// The children of a Register or a Sign, the name apart.
fn children(kind: Kind) -> Vec<Child> {
    let mut children = vec![
        Child::new(tlv::INDEX, [0]),
        Child::new(tlv::CHALLENGE_HASH, [0xAA]),
        Child::new(tlv::ACCESS_TOKEN, TOKEN),
    ];
    if kind == Kind::Register {
        let full = tlv::BASIC_FULL.to_le_bytes();
        children.push(Child::new(tlv::ATTESTATION_TYPE, full));
    }
    children
}

impl Holder {
    fn new(rng: &mut Rng) -> Holder {
        let (mixed, key_id) = (hash(&TOKEN, &[]), rng.array());
        let mut lent = gen_lent::right(rng, &key_id);
        lent.verdict = VERIFIED;
        let call = |kind: Kind| CommandCall {
            command: tlv::holding(kind.tag(), &children(kind)),
            lent: lent.clone(),
            table: Vec::new(),
            response_size: LEAST_RESPONSE,
            table_out_size: LEAST_TABLE,
        };
        let record = |key_id| Record {
            key_id,
            mixed,
            name: b"Ann".to_vec(),
            counter: 0,
        };
        let write = WriteCall {
            challenge: vec![0xAA],
            access_token: TOKEN.to_vec(),
            command_size: LONG_ENOUGH,
            ..WriteCall::new(Kind::Register)
        };
        Holder {
            register: call(Kind::Register),
            sign: call(Kind::Sign),
            write,
            records: [record(rng.array()), record(rng.array())],
        }
    }

    /// Registers it: a draft, or 0x08 before the verdict is asked.
    fn register(&mut self, checker: &mut Checker, name: &[u8], good: bool) -> Checked<()> {
        let mut children = children(Kind::Register);
        children.insert(2, Child::new(tlv::USERNAME, name));
        self.register.command = tlv::holding(tlv::REGISTER, &children);
        let (verdict, expect) = if good {
            (VERIFIED, Expect::Served)
        } else {
            (DENIED, Expect::Invalid)
        };
        self.register.lent.verdict = verdict;
        checker.command(&self.register, expect).map(drop)
    }

    /// Signs on a table that has it: a list of both names, or refusal 2.
    fn sign(&mut self, checker: &mut Checker, name: &[u8], good: bool) -> Checked<()> {
        self.records[1].name = name.to_vec();
        self.sign.table = encode(&self.records);
        let expect = if good {
            Expect::Served
        } else {
            Expect::Refusal(2)
        };
        checker.command(&self.sign, expect).map(drop)
    }

    /// Reads that list, or is refused with 5.
    fn read(&self, checker: &mut Checker, name: &[u8], good: bool) -> Checked<()> {
        let [ann, other] = &self.records;
        let pairs = [
            gen_response::pair(&ann.name, &ann.key_id),
            gen_response::pair(name, &other.key_id),
        ];
        let expect = if good {
            Expect::Served
        } else {
            Expect::Refusal(5)
        };
        let response = gen_response::list_response(&pairs);
        checker.read(&response, expect).map(drop)
    }

    /// Writes a Register of it, or is refused with 6.
    fn write(&mut self, checker: &mut Checker, name: &[u8], good: bool) -> Checked<()> {
        self.write.username = name.to_vec();
        let expect = if good {
            Expect::Served
        } else {
            Expect::Refusal(6)
        };
        checker.write(&self.write, expect).map(drop)
    }

    /// Sees that the name is taken at each place, or at none.
    fn takes(&mut self, checker: &mut Checker, name: &[u8], good: bool) -> Checked<()> {
        self.register(checker, name, good)?;
        self.sign(checker, name, good)?;
        self.read(checker, name, good)?;
        self.write(checker, name, good)
    }
}

/// A name of letters of which some have more than one byte, and the places inside these.
fn with_insides(rng: &mut Rng) -> (Vec<u8>, Vec<usize>) {
    loop {
        let name = gen_name::right(rng);
        let is_tail = |&place: &usize| name[place] & 0xC0 == 0x80;
        let insides: Vec<usize> = (1..name.len()).filter(is_tail).collect();
        if !insides.is_empty() {
            return (name, insides);
        }
    }
}

/// A name, which is refused when it is cut inside a letter, and two names, which are one together.
pub fn cut_and_joined(rng: &mut Rng, checker: &mut Checker) -> Checked<()> {
    let mut holder = Holder::new(rng);
    let (name, insides) = with_insides(rng);
    holder.takes(checker, &name, true)?;
    let inside = rng.pick(&insides);
    holder.takes(checker, &name[..inside], false)?;
    holder.takes(checker, &name[inside..], false)?;
    checker.counts.add_property(properties::CUT);

    let length = rng.length(0, MOST_NAME - name.len());
    let other = gen_name::of_length(rng, length);
    holder.takes(checker, &[&name[..], &other].concat(), true)?;
    holder.takes(checker, &[&other[..], &name].concat(), true)?;
    checker.counts.add_property(properties::JOINED);
    Ok(())
}

/// Every name of one byte and of two.
fn short() -> Vec<Vec<u8>> {
    let mut names: Vec<Vec<u8>> = (0..=0xFF).map(|byte| vec![byte]).collect();
    names.extend((0..=0xFFFF_u16).map(|bytes| bytes.to_be_bytes().to_vec()));
    names
}

/// Where the later bytes of a letter begin and end, and the bytes beside these.
const SECOND: [u8; 10] = [0x00, 0x7F, 0x80, 0x8F, 0x90, 0x9F, 0xA0, 0xBF, 0xC0, 0xFF];
const LATER: [u8; 4] = [0x7F, 0x80, 0xBF, 0xC0];

/// A name of 128 bytes that is ASCII but for some of them.
fn among_ascii(bytes: &[u8], place: usize) -> Vec<u8> {
    let mut name = vec![b'n'; MOST_NAME];
    name[place..place + bytes.len()].copy_from_slice(bytes);
    name
}

/// Every byte with each of those after it, and at the end also without the last of them.
fn long() -> Vec<Vec<u8>> {
    let mut names = Vec::new();
    let at_end = |bytes: &[u8]| among_ascii(bytes, MOST_NAME - bytes.len());
    for first in 0..=0xFF {
        names.push(at_end(&[first]));
        for second in SECOND {
            names.push(at_end(&[first, second]));
            for third in LATER {
                names.push(at_end(&[first, second, third]));
                for fourth in LATER {
                    let bytes = [first, second, third, fourth];
                    names.push(at_end(&bytes));
                    names.push(among_ascii(&bytes, 0));
                    names.push(among_ascii(&bytes, MOST_NAME / 2 - 2));
                }
            }
        }
    }
    names
}

/// Names of each kind of letter, and of all kinds, up to each of their bytes.
fn cuts() -> Vec<Vec<u8>> {
    let mut wholes: Vec<String> = EDGES
        .into_iter()
        .chain(['e', 'é', 'ж', '名', '😀'])
        .map(|letter| letter.to_string().repeat(MOST_NAME))
        .collect();
    wholes.push(EDGES.iter().collect::<String>().repeat(5));
    wholes.push("José Пётр 山田 😀 ".repeat(5));
    let mut names = Vec::new();
    for whole in wholes {
        names.extend((1..=MOST_NAME).map(|end| whole.as_bytes()[..end].to_vec()));
    }
    names
}

/// All of these at each place. Gives their number.
pub fn sweep(rng: &mut Rng, checker: &mut Checker) -> Checked<usize> {
    let mut holder = Holder::new(rng);
    let names = [short(), long(), cuts()].concat();
    for name in &names {
        holder.takes(checker, name, gen_name::is_right(name))?;
    }
    Ok(names.len())
}
