//! Counts what was compared, and keeps what differed.

use std::fmt::Debug;

use highvane::Refusal;

/// How many differences of a part are shown in full.
const SHOWN: usize = 5;

#[derive(Default)]
pub struct Tally {
    pub compared: u64,
    pub wrong: u64,
    pub shown: Vec<String>,
    /// How often the archive gave each refusal, by its number.
    pub reached: [u64; Refusal::ALL.len() + 1],
}

impl Tally {
    /// Compares what was given for an input with what docs/SCOPE.md gives.
    pub fn same<T: PartialEq + Debug>(&mut self, given: T, meant: T, input: impl FnOnce() -> String) {
        self.compared += 1;
        if given != meant {
            self.wrong += 1;
            if self.shown.len() < SHOWN {
                let input = input();
                self.shown.push(format!("{input}: gives {given:?}, docs/SCOPE.md gives {meant:?}"));
            }
        }
    }

    /// Compares two outcomes, refusal number included.
    pub fn outcome<T: PartialEq + Debug>(
        &mut self,
        given: Result<T, Refusal>,
        meant: Result<T, u32>,
        input: impl FnOnce() -> String,
    ) {
        if let Err(refusal) = given {
            self.reach(refusal);
        }
        self.same(given.map_err(Refusal::number), meant, input);
    }

    /// Notes that the archive gave a refusal.
    pub fn reach(&mut self, refusal: Refusal) {
        self.reached[refusal.number() as usize] += 1;
    }

    /// Adds another tally to this one.
    pub fn add(&mut self, other: Tally) {
        self.compared += other.compared;
        self.wrong += other.wrong;
        self.shown.extend(other.shown);
        self.shown.truncate(SHOWN);
        for (sum, more) in self.reached.iter_mut().zip(other.reached) {
            *sum += more;
        }
    }
}
