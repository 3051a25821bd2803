//! Random numbers that a seed determines: xoshiro256**, seeded by splitmix64.

pub struct Rng {
    state: [u64; 4],
}

fn splitmix(state: &mut u64) -> u64 {
    *state = state.wrapping_add(0x9E37_79B9_7F4A_7C15);
    let mut z = *state;
    z = (z ^ (z >> 30)).wrapping_mul(0xBF58_476D_1CE4_E5B9);
    z = (z ^ (z >> 27)).wrapping_mul(0x94D0_49BB_1331_11EB);
    z ^ (z >> 31)
}

impl Rng {
    /// Each case has a stream of its own, so that one case can be run alone.
    pub fn new(seed: u64, case: u64) -> Rng {
        let mut mixed = seed;
        let mut source = splitmix(&mut mixed) ^ case;
        let mut state = [0; 4];
        for word in &mut state {
            *word = splitmix(&mut source);
        }
        Rng { state }
    }

    pub fn next(&mut self) -> u64 {
        let s = &mut self.state;
        let result = s[1].wrapping_mul(5).rotate_left(7).wrapping_mul(9);
        let t = s[1] << 17;
        s[2] ^= s[0];
        s[3] ^= s[1];
        s[1] ^= s[2];
        s[0] ^= s[3];
        s[2] ^= t;
        s[3] = s[3].rotate_left(45);
        result
    }

    /// 0 to n - 1.
    pub fn below(&mut self, n: usize) -> usize {
        ((u128::from(self.next()) * n as u128) >> 64) as usize
    }

    /// Both ends included.
    pub fn between(&mut self, least: usize, greatest: usize) -> usize {
        least + self.below(greatest - least + 1)
    }

    pub fn one_in(&mut self, n: usize) -> bool {
        self.below(n) == 0
    }

    pub fn percent(&mut self, share: usize) -> bool {
        self.below(100) < share
    }

    pub fn pick<T: Copy>(&mut self, from: &[T]) -> T {
        from[self.below(from.len())]
    }

    /// The place of one of the weights, each as likely as its share.
    pub fn weighed(&mut self, weights: &[usize]) -> usize {
        let mut left = self.below(weights.iter().sum());
        for (i, &weight) in weights.iter().enumerate() {
            if left < weight {
                return i;
            }
            left -= weight;
        }
        unreachable!("below their sum")
    }

    pub fn fill(&mut self, bytes: &mut [u8]) {
        for chunk in bytes.chunks_mut(8) {
            let word = self.next().to_le_bytes();
            chunk.copy_from_slice(&word[..chunk.len()]);
        }
    }

    pub fn bytes(&mut self, length: usize) -> Vec<u8> {
        let mut bytes = vec![0; length];
        self.fill(&mut bytes);
        bytes
    }

    pub fn array<const N: usize>(&mut self) -> [u8; N] {
        let mut bytes = [0; N];
        self.fill(&mut bytes);
        bytes
    }

    pub fn shuffle<T>(&mut self, items: &mut [T]) {
        for i in (1..items.len()).rev() {
            items.swap(i, self.below(i + 1));
        }
    }

    /// A length from least to greatest, at the limits more often than between them.
    pub fn length(&mut self, least: usize, greatest: usize) -> usize {
        match self.below(8) {
            0 => least,
            1 => greatest,
            2 => (least + 1).min(greatest),
            3 => greatest.saturating_sub(1).max(least),
            _ => self.between(least, greatest),
        }
    }

    /// A length outside least to greatest, mostly one off.
    pub fn wrong_length(&mut self, least: usize, greatest: usize) -> usize {
        let beyond = greatest
            + if self.percent(70) {
                1
            } else {
                self.between(1, 40)
            };
        if least == 0 {
            return beyond;
        }
        match self.below(5) {
            0 => 0,
            1 | 2 => least - 1,
            _ => beyond,
        }
    }

    /// 16 bits, now and then all equal.
    pub fn number16(&mut self) -> u16 {
        match self.below(8) {
            0 => 0,
            1 => u16::MAX,
            _ => self.next() as u16,
        }
    }
}
