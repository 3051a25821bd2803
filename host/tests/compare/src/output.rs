//! An output lent to both implementations.

use crate::calls::Hex;
use crate::rng::Rng;

/// Bytes around an output, in which a write beyond its ends shows.
const MARGIN: usize = 64;

/// The bytes that an output held before, and what each implementation made of them.
#[derive(Default)]
pub struct Output {
    before: Vec<u8>,
    token: Vec<u8>,
    peer: Vec<u8>,
}

fn lent(bytes: &mut [u8]) -> &mut [u8] {
    let end = bytes.len() - MARGIN;
    &mut bytes[MARGIN..end]
}

fn hex(bytes: &[u8], length: usize) -> String {
    let size = bytes.len() - 2 * MARGIN;
    Hex(&bytes[MARGIN..MARGIN + length.min(size)]).to_string()
}

impl Output {
    /// Random bytes, the same for both, so that every byte that a call changes is seen.
    pub fn prepare(&mut self, rng: &mut Rng, size: usize) {
        self.before.resize(size + 2 * MARGIN, 0);
        rng.fill(&mut self.before);
        self.token.clone_from(&self.before);
        self.peer.clone_from(&self.before);
    }

    pub fn token(&mut self) -> &mut [u8] {
        lent(&mut self.token)
    }

    pub fn peer(&mut self) -> &mut [u8] {
        lent(&mut self.peer)
    }

    /// The first bytes of the token's.
    pub fn written(&self, length: usize) -> &[u8] {
        &self.token[MARGIN..MARGIN + length]
    }

    pub fn token_hex(&self, length: usize) -> String {
        hex(&self.token, length)
    }

    pub fn peer_hex(&self, length: usize) -> String {
        hex(&self.peer, length)
    }

    /// What is wrong where a call says that it wrote so many bytes; 0 after a refusal.
    pub fn fault(&self, name: &str, length: usize) -> Option<String> {
        let size = self.before.len() - 2 * MARGIN;
        if length > size {
            return Some(format!("{}: {} bytes said, {} lent", name, length, size));
        }
        let (front, back) = (..MARGIN, MARGIN + length..);
        let kept = self.token[front] == self.before[front]
            && self.token[back.clone()] == self.before[back];
        if !kept {
            return Some(format!("{}: a byte beyond those written changed", name));
        }
        let place = self
            .token
            .iter()
            .zip(&self.peer)
            .position(|(a, b)| a != b)?;
        Some(format!("{}: byte {} differs", name, place - MARGIN))
    }
}
