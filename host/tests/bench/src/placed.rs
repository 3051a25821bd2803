//! Bytes at a chosen place in a page of memory. Where buffers happen to lie against each other decides over some of a call's time: so in a round
//! every case has its buffers at the same places, and in the next one at others.

use std::ops::{Deref, DerefMut};

const PAGE: usize = 4096;
/// Buffers are aligned as an allocator aligns them.
const ALIGNMENT: usize = 16;

/// What a buffer is lent for, which with the round decides its place.
#[derive(Clone, Copy)]
pub enum Role {
    Table = 1,
    TableOut,
    Response,
    ResponseOut,
    Command,
    Draft,
    Certificate,
    KeyId,
    Username,
    Content,
    Handles,
    CommandOut,
    First,
    Second,
    Joined,
    Mixed,
}

impl Role {
    /// Odd multiples of the role's number: no two roles are ever at one place, and how far apart they are differs from round to round.
    fn place(self, round: usize) -> usize {
        (self as usize * (2 * round + 1) * 37 * ALIGNMENT) % PAGE
    }
}

pub struct Placed {
    room: Vec<u8>,
    start: usize,
    length: usize,
    role: Role,
}

impl Placed {
    pub fn new(bytes: &[u8], role: Role) -> Self {
        let mut placed = Placed {
            room: vec![0; bytes.len() + PAGE],
            start: 0,
            length: bytes.len(),
            role,
        };
        placed.copy_from_slice(bytes);
        placed.settle(0);
        placed
    }

    /// Moves the bytes to their place in a round.
    pub fn settle(&mut self, round: usize) {
        let place = self.role.place(round);
        let start = place.wrapping_sub(self.room.as_ptr() as usize) % PAGE;
        self.room
            .copy_within(self.start..self.start + self.length, start);
        self.start = start;
    }
}

impl Deref for Placed {
    type Target = [u8];

    fn deref(&self) -> &[u8] {
        &self.room[self.start..][..self.length]
    }
}

impl DerefMut for Placed {
    fn deref_mut(&mut self) -> &mut [u8] {
        &mut self.room[self.start..][..self.length]
    }
}

impl PartialEq for Placed {
    fn eq(&self, other: &Self) -> bool {
        self[..] == other[..]
    }
}
