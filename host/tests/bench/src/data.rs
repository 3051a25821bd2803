//! What the cases are made of: tables and commands, each from its fields.

use crate::entries::mbedtls;

/// What the commands of all callers have alike, but for the access token, which each has for itself.
pub const APP_ID: &[u8] = b"https://tote.example/facets.json";
pub const ACCESS_TOKEN: &[u8] = b"0123456789abcdef0123456789abcdef";
pub const CHALLENGE: &[u8] = b"a challenge hash: 32 bytes in it";

/// A caller's access token.
pub fn access_token(holder: usize) -> Vec<u8> {
    let mut token = ACCESS_TOKEN.to_vec();
    token[31] = b'a' + holder as u8;
    token
}

/// The mixed token of a caller: the hash of its access token and the AppID, by neither token nor peer.
fn mixed_of(holder: usize) -> Vec<u8> {
    let both = [&access_token(holder), APP_ID].concat();
    let mut hash = [0; 32];
    // Safety: the pointer goes with the length of what it points to.
    unsafe { mbedtls()(both.as_ptr(), both.len(), &mut hash, 0) };
    hash.to_vec()
}

/// A TLV as bytes.
pub fn tlv(tag: u16, value: &[u8]) -> Vec<u8> {
    let mut bytes = tag.to_le_bytes().to_vec();
    bytes.extend((value.len() as u16).to_le_bytes());
    bytes.extend(value);
    bytes
}

/// A command: its tag, and its children's tags and values.
pub fn command(tag: u16, children: &[(u16, &[u8])]) -> Vec<u8> {
    let run: Vec<u8> = children
        .iter()
        .flat_map(|(tag, value)| tlv(*tag, value))
        .collect();
    tlv(tag, &run)
}

/// Bytes that look random and are the same in every run.
pub fn noise(length: usize, seed: u64) -> Vec<u8> {
    let mut state = seed.wrapping_mul(0x9E37_79B9_7F4A_7C15) ^ 0xD1B5_4A32_D192_ED03;
    let mut bytes = Vec::with_capacity(length);
    for _ in 0..length {
        state ^= state << 13;
        state ^= state >> 7;
        state ^= state << 17;
        bytes.push((state >> 32) as u8);
    }
    bytes
}

/// How KeyIDs and mixed tokens differ from each other. The mixed token that a command gives is a hash, which nobody chooses; a table may have any. So a
/// table is made for a caller: its own records have its hash, and those of other holders have what is said here.
#[derive(Clone, Copy)]
pub enum Ids {
    /// They share no more than chance gives: KeyIDs are noise, and mixed tokens the hashes of other callers.
    Random,
    /// KeyIDs are equal but for the last byte, as counters are, and the other holders' mixed tokens equal the caller's but for the last byte.
    Alike,
    /// They are equal but for two of the last bytes, and the sums of their words are the same, which only someone who chooses them brings about:
    /// neither a look at the first bytes nor a filter that adds up the words tells two of them apart. No mixed token is the caller's own.
    OfOneSum,
}

impl Ids {
    pub fn mixed(self, holder: usize, caller: usize) -> Vec<u8> {
        match self {
            Ids::Random => mixed_of(holder),
            Ids::Alike => {
                let mut id = mixed_of(caller);
                id[31] ^= (holder ^ caller) as u8;
                id
            }
            Ids::OfOneSum => of_one_sum(mixed_of(caller), holder),
        }
    }

    pub fn key_id(self, record: usize) -> Vec<u8> {
        const SEED: u64 = 2000;
        match self {
            Ids::Random => noise(32, SEED + record as u64),
            Ids::Alike => {
                let mut id = noise(32, SEED);
                id[31] = record as u8;
                id
            }
            Ids::OfOneSum => of_one_sum(noise(32, SEED), record),
        }
    }
}

fn of_one_sum(mut id: Vec<u8>, number: usize) -> Vec<u8> {
    (id[24], id[28]) = (number as u8, 255 - number as u8);
    id
}

/// What names are written in.
#[derive(Clone, Copy)]
pub enum Text {
    /// A byte for each letter.
    Ascii,
    /// Mostly a byte, two where there is an accent.
    Latin,
    /// Two bytes for each letter, a space of one between words.
    Cyrillic,
    /// Three bytes for each letter and for the space.
    Kana,
    /// One to four bytes, in an order that nobody can foresee.
    Mixed,
}

/// The parts that names in each text are made of.
const LATIN: &str = "José García Núñez Maria Brontë François Müller Söderström Anna Ruiz Peter Łukasz Dvořák Smith Inês Weiß";
const CYRILLIC: &str = "Иван Мария Ольга Сергей Петрова Кузнецов Наталья Лев Соколова Пётр Анна Шевченко Юрий Зоя Богданов Ия";
const KANA: &str = "さくら タナカ ひろし スズキ 山田 花子 サトウ 一郎 ゆき 高橋 ケンジ みどり 渡辺 アヤ なおみ 中村";
const MIXED: &str = "a Z é ß ж Ω か 字 € 한 🐎 𝄞";

impl Text {
    /// At least so many letters, but in ASCII; the same ones for a number in every run.
    fn letters(self, number: usize, least: usize) -> String {
        let (parts, space) = match self {
            Text::Ascii => return format!("Seller no {:02}", number),
            Text::Latin => (LATIN, " "),
            Text::Cyrillic => (CYRILLIC, " "),
            Text::Kana => (KANA, "\u{3000}"),
            Text::Mixed => (MIXED, ""),
        };
        let parts: Vec<&str> = parts.split(' ').collect();
        noise(least, 3000 + number as u64)
            .iter()
            .flat_map(|chance| [parts[usize::from(*chance) % parts.len()], space])
            .collect()
    }

    /// A name of so many bytes: as many letters as fit, then dots.
    fn name(self, number: usize, length: usize) -> Vec<u8> {
        let mut name = String::new();
        for letter in self.letters(number, length).chars() {
            if name.len() + letter.len_utf8() > length {
                break;
            }
            name.push(letter);
        }
        let mut name = name.into_bytes();
        name.resize(length, b'.');
        name
    }
}

/// How many records a holder has, which is as many as one may have.
pub const OWN: usize = 8;

/// Whose a record is, by its place in the table.
pub fn holder_of(record: usize) -> usize {
    record / OWN
}

/// A stored table, eight records to a holder.
#[derive(Clone, Copy)]
pub struct Setting {
    pub records: usize,
    pub ids: Ids,
    pub name_length: usize,
    pub text: Text,
    /// The one record that has not signed, if there is one.
    pub unsigned: Option<usize>,
}

impl Setting {
    pub fn new(records: usize, ids: Ids, name_length: usize) -> Self {
        Setting {
            records,
            ids,
            name_length,
            text: Text::Ascii,
            unsigned: None,
        }
    }

    /// The same with names in another text.
    pub fn written_in(self, text: Text) -> Self {
        Setting { text, ..self }
    }

    /// The same with one record that has not signed.
    pub fn with_unsigned(self, record: usize) -> Self {
        let unsigned = Some(record);
        Setting { unsigned, ..self }
    }

    pub fn name(&self, record: usize) -> Vec<u8> {
        self.text.name(record, self.name_length)
    }

    /// The table for a command of this caller's.
    pub fn table(&self, caller: usize) -> Vec<u8> {
        (0..self.records)
            .flat_map(|i| self.record(i, caller))
            .collect()
    }

    /// The same table without one of its records.
    pub fn table_without(&self, record: usize, caller: usize) -> Vec<u8> {
        (0..self.records)
            .filter(|i| *i != record)
            .flat_map(|i| self.record(i, caller))
            .collect()
    }

    fn count(&self, number: usize) -> u32 {
        if self.unsigned == Some(number) {
            0
        } else {
            number as u32 + 1
        }
    }

    fn record(&self, number: usize, caller: usize) -> Vec<u8> {
        let inner = [
            tlv(0x2E09, &self.ids.key_id(number)),
            tlv(0x2805, &self.ids.mixed(holder_of(number), caller)),
            tlv(0x2806, &self.name(number)),
            tlv(0x2E0D, &self.count(number).to_le_bytes()),
        ];
        tlv(0x3802, &inner.concat())
    }
}
