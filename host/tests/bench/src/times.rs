//! Times: medians of batches that take turns, in rounds through all cases, so that a while in which the machine is slow falls on all sides of a
//! case alike, and on a part of its batches only. In each round the buffers lie elsewhere, and so does the stack.

use crate::calls::{repeat, repeat_mbedtls, Desk, Outputs};
use crate::cases::Case;
use crate::entries::{copier, peer, token};
use crate::placed::Placed;
use crate::stack;
use std::time::{Duration, Instant};

const ROUNDS: usize = 11;
/// The turns of a case in one round; odd in all, so that there is one in the middle.
const TURNS: usize = 9;
/// How long a batch takes at least.
const BATCH: Duration = Duration::from_micros(250);

#[derive(Clone, Copy)]
enum Runner {
    Token,
    Peer,
    Mbedtls,
    Floor,
}

const RUNNERS: usize = 4;

/// A case on the clock: how many calls make a batch, and how many nanoseconds a call took in each.
struct Clocked<'a> {
    desk: &'a Desk,
    case: &'a mut Case,
    copied: Vec<Placed>,
    batch: [u32; RUNNERS],
    spent: [Vec<f64>; RUNNERS],
}

/// Nanoseconds of a call. A ratio is the median of the turns' ratios, which is steadier than that of the medians.
pub struct Times {
    pub token: f64,
    pub peer: f64,
    pub ratio: f64,
    /// Nothing where nothing is copied.
    pub floor: Option<f64>,
    /// Nothing where nothing but a hash is asked for.
    pub mbedtls: Option<f64>,
    pub mbedtls_ratio: Option<f64>,
}

pub fn measure(desk: &Desk, cases: &mut [Case]) -> Vec<Times> {
    let mut out = Outputs::new();
    let mut clocked: Vec<Clocked> = cases
        .iter_mut()
        .map(|case| Clocked::new(desk, case, &mut out))
        .collect();
    for round in 0..ROUNDS {
        out.settle(round);
        stack::from_place(round, || {
            for case in &mut clocked {
                case.settle(round);
                case.turns(&mut out);
            }
        });
    }
    clocked.iter().map(Clocked::times).collect()
}

impl<'a> Clocked<'a> {
    fn new(desk: &'a Desk, case: &'a mut Case, out: &mut Outputs) -> Self {
        let mut clocked = Clocked {
            desk,
            copied: case.goes_through(desk),
            case,
            batch: [16; RUNNERS],
            spent: Default::default(),
        };
        for runner in clocked.runners(0) {
            clocked.fit_batch(runner, out);
        }
        clocked
    }

    /// Who takes part in a turn, and in what order.
    fn runners(&self, turn: usize) -> Vec<Runner> {
        let mut runners = vec![Runner::Token, Runner::Peer];
        if self.case.is_hash() {
            runners.push(Runner::Mbedtls);
        }
        let first = turn % runners.len();
        runners.rotate_left(first);
        if !self.copied.is_empty() {
            runners.push(Runner::Floor);
        }
        runners
    }

    /// Doubles a batch until the quickest of three is long enough: one alone may have been held up.
    fn fit_batch(&mut self, runner: Runner, out: &mut Outputs) {
        while (0..3).map(|_| self.clock(runner, out)).min() < Some(BATCH) {
            self.batch[runner as usize] *= 2;
        }
    }

    fn clock(&self, runner: Runner, out: &mut Outputs) -> Duration {
        let times = self.batch[runner as usize];
        match runner {
            Runner::Token => {
                let token = token();
                self.calls(|| repeat(&token, self.desk, &self.case.call, out, times))
            }
            Runner::Peer => {
                let peer = peer();
                self.calls(|| repeat(&peer, self.desk, &self.case.call, out, times))
            }
            Runner::Mbedtls => {
                self.calls(|| repeat_mbedtls(&self.case.call, out, times).expect("a hash"))
            }
            Runner::Floor => self.copies(out, times),
        }
    }

    fn calls(&self, repeated: impl FnOnce() -> u32) -> Duration {
        let start = Instant::now();
        let gave = repeated();
        let took = start.elapsed();
        assert_eq!(gave, self.case.refusal, "{}", self.case.name);
        took
    }

    fn copies(&self, out: &mut Outputs, times: u32) -> Duration {
        let copy = copier();
        let outputs = out.of(&self.case.call);
        let copies: Vec<(*mut u8, &[u8])> = outputs
            .into_iter()
            .zip(&self.copied)
            .map(|(to, from)| (to[..from.len()].as_mut_ptr(), &from[..]))
            .collect();
        let start = Instant::now();
        for _ in 0..times {
            for (to, from) in &copies {
                // Safety: each output is as long as what is copied into it, and apart from it.
                unsafe { copy(to.cast(), from.as_ptr().cast(), from.len()) };
            }
        }
        start.elapsed()
    }

    fn settle(&mut self, round: usize) {
        self.case.call.settle(round);
        for copied in &mut self.copied {
            copied.settle(round);
        }
    }

    fn turns(&mut self, out: &mut Outputs) {
        for turn in 0..TURNS {
            for runner in self.runners(turn) {
                let took = self.clock(runner, out).as_nanos() as f64;
                let calls = f64::from(self.batch[runner as usize]);
                self.spent[runner as usize].push(took / calls);
            }
        }
    }

    fn times(&self) -> Times {
        let [token, peer, mbedtls, floor] = &self.spent;
        let ratios = |of: &[f64]| token.iter().zip(of).map(|(token, of)| token / of).collect();
        Times {
            ratio: median(ratios(peer)),
            token: median(token.clone()),
            peer: median(peer.clone()),
            floor: median_of_any(floor.clone()),
            mbedtls: median_of_any(mbedtls.clone()),
            mbedtls_ratio: median_of_any(ratios(mbedtls)),
        }
    }
}

fn median(mut numbers: Vec<f64>) -> f64 {
    numbers.sort_by(f64::total_cmp);
    numbers[numbers.len() / 2]
}

/// Nothing where there are none.
fn median_of_any(numbers: Vec<f64>) -> Option<f64> {
    Some(numbers)
        .filter(|numbers| !numbers.is_empty())
        .map(median)
}
