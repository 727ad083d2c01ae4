//! What was compared, and what was left out.

use crate::device::{Call, Departure, Event, Refusal};
use std::collections::BTreeMap;
use std::panic::{UnwindSafe, catch_unwind};
use std::process::ExitCode;

/// The first faults say enough.
const MAX_FAULTS: u64 = 9;

/// So many programs meet each refusal.
const MANY_PROGRAMS: u64 = 1000;

#[derive(Default)]
pub struct Counts {
    passed: u64,

    /// Programs that differ, also before a departure; panics of the original; and refusals that no program met.
    failed: u64,

    /// Programs that were left out, by the departure that they meet.
    left_out: BTreeMap<&'static str, u64>,

    /// Refusals in the programs that passed.
    refusals: BTreeMap<(Call, Refusal), u64>,
}

impl Counts {
    fn fail(&mut self, why: &str) {
        self.failed += 1;
        if self.failed <= MAX_FAULTS {
            println!("FAILED: {why}");
        }
    }

    /// Compares both runs of a program. Where the original is about to depart, they are compared up to there. A panic
    /// of the crate has a transcript of its own, and one of the original is a failure.
    pub fn compare(
        &mut self,
        seed: u64,
        there: impl FnOnce() -> Vec<Event> + UnwindSafe,
        here: impl FnOnce() -> Vec<Event> + UnwindSafe,
    ) {
        let there = catch_unwind(there).map_err(|why| why.downcast::<Departure>());
        let here = catch_unwind(here).unwrap_or_else(|_| vec![Event::Panicked]);
        match there {
            Ok(there) if there == here => {
                self.passed += 1;
                for event in there {
                    if let Event::Ended(call, Some(refusal)) = event {
                        *self.refusals.entry((call, refusal)).or_default() += 1;
                    }
                }
            }
            Ok(there) => self.fail(&difference(seed, &there, &here)),
            Err(Ok(departure)) => {
                *self.left_out.entry(departure.why).or_default() += 1;
                if !here.starts_with(&departure.before) {
                    self.fail(&difference(seed, &departure.before, &here));
                }
            }
            Err(Err(_)) => self.fail(&format!("random program {seed}: the original panics")),
        }
    }

    pub fn add(&mut self, other: Counts) {
        self.passed += other.passed;
        self.failed += other.failed;
        for (departure, count) in other.left_out {
            *self.left_out.entry(departure).or_default() += count;
        }
        for (refusal, count) in other.refusals {
            *self.refusals.entry(refusal).or_default() += count;
        }
    }

    /// Prints what the programs met, and the last line. Of many programs, some have to meet each refusal.
    pub fn end(mut self, programs: u64) -> ExitCode {
        // Of programs that depart, those that differ before that are among the failed ones.
        let compared = self.passed + self.failed;
        println!("compared: {compared} of {programs}");
        for (departure, count) in &self.left_out {
            println!("left out: {count}, once they were compared up to there: {departure}");
        }
        for call in Call::ALL {
            for refusal in call.refusals() {
                let count = self.refusals.get(&(call, *refusal)).copied().unwrap_or(0);
                println!("refused: {count} times, {call:?}: {refusal:?}");
                if compared >= MANY_PROGRAMS && count == 0 {
                    self.fail(&format!("no program met {call:?}: {refusal:?}"));
                }
            }
        }
        println!("{} passed, {} failed", self.passed, self.failed);
        ExitCode::from(u8::from(self.failed > 0))
    }
}

/// The first line that differs.
fn difference(seed: u64, there: &[Event], here: &[Event]) -> String {
    let place = there.iter().zip(here).take_while(|(one, other)| one == other).count();
    format!(
        "random program {seed}, line {place}:\n  the original: {:?}\n  the crate: {:?}",
        there.get(place),
        here.get(place)
    )
}
