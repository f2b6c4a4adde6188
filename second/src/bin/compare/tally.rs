//! Comparing and counting.

use std::collections::BTreeMap;
use std::process::exit;

use second::ffi::Verified;
use second::kit::{Answer, Second};

use crate::call::{Call, Held};
use crate::numbers::Numbers;

/// After so many mismatches the run ends.
const SHOWN: u64 = 10;

#[derive(Default)]
pub struct Tally {
    pub passed: u64,
    pub failed: u64,
    /// Cases of each call, and how many of them were refused.
    pub calls: BTreeMap<&'static str, (u64, u64)>,
    pub refusals: BTreeMap<u64, u64>,
    pub rules: BTreeMap<u64, u64>,
    /// Lawful sets that were walked, by f and by block mark.
    pub sets: BTreeMap<(u16, bool), u64>,
    pub opened_by_l: u64,
    pub opened_by_z: u64,
    pub symbols: u64,
    pub out_of_band: u64,
}

impl Tally {
    /// Makes a call of both builds and compares everything; answers what this build did.
    pub fn compare(&mut self, numbers: &Numbers, tape: Option<&[u8]>, call: Call, before: Held) -> (Answer, Held) {
        let on = numbers.on(tape);
        let (mut theirs, mut ours) = (before.clone(), before.clone());
        let their_answer = call.make(&Verified, &on, &mut theirs);
        let answer = call.make(&Second, &on, &mut ours);

        let mut faults = Vec::new();
        if !same_answer(numbers, &their_answer, &answer) {
            faults.push(format!("answers: kit {their_answer:?}, second {answer:?}"));
        }
        for part in theirs.differences(&ours) {
            faults.push(format!("{part} differs"));
        }
        let wiped = |held: &Held| if call.lends() { held.clone().with_areas_wiped() } else { held.clone() };
        if theirs != wiped(&theirs) {
            faults.push("working areas are not zeros".to_string());
        }
        if answer.code != 0 {
            for part in theirs.differences(&wiped(&before)) {
                faults.push(format!("refused, but {part} is not as before"));
            }
        }
        self.count(call.name(), &answer.refusal);
        self.verdict(faults, || format!("{}, tape {:?}, {numbers:?}", call.described(), tape.map(<[u8]>::len)));
        (answer, ours)
    }

    pub fn count(&mut self, name: &'static str, refusal: &[u64; 4]) {
        let counts = self.calls.entry(name).or_default();
        counts.0 += 1;
        if refusal[0] != 0 {
            counts.1 += 1;
            *self.refusals.entry(refusal[0]).or_default() += 1;
        }
        if refusal[0] == 11 {
            *self.rules.entry(refusal[1]).or_default() += 1;
        }
    }

    pub fn verdict(&mut self, faults: Vec<String>, what: impl FnOnce() -> String) {
        if faults.is_empty() {
            self.passed += 1;
            return;
        }
        self.failed += 1;
        println!("MISMATCH {}: {}", what(), faults.join("; "));
        if self.failed == SHOWN {
            self.close();
        }
    }

    /// A statement about both builds together.
    pub fn holds(&mut self, name: &'static str, statement: bool, what: impl FnOnce() -> String) {
        self.count(name, &[0; 4]);
        let faults = if statement { vec![] } else { vec!["does not hold".to_string()] };
        self.verdict(faults, || format!("{name}: {}", what()));
    }

    pub fn close(&self) -> ! {
        println!("{:<14}{:>9}{:>9}", "call", "cases", "refused");
        for (name, (cases, refused)) in &self.calls {
            println!("{name:<14}{cases:>9}{refused:>9}");
        }
        let list = |counts: &BTreeMap<u64, u64>| {
            counts.iter().map(|(number, count)| format!("{number}: {count}")).collect::<Vec<_>>().join(", ")
        };
        println!("refusals by number  {}", list(&self.refusals));
        println!("11 by rule          {}", list(&self.rules));
        for (block, name) in [(false, "sets by f           "), (true, "by f, block mark    ")] {
            let counts = self.sets.iter().filter(|set| set.0.1 == block).map(|(set, count)| (set.0.into(), *count));
            println!("{name}{}", list(&counts.collect()));
        }
        println!("untouched parcels   {} opened by l, {} by z", self.opened_by_l, self.opened_by_z);
        println!("symbols gauged      {}, of them out of band {}", self.symbols, self.out_of_band);
        println!("{} passed, {} failed", self.passed, self.failed);
        exit(if self.failed == 0 { 0 } else { 1 });
    }
}

/// Answers must be equal; but a 12 may name any pair that shares two checks.
pub fn same_answer(numbers: &Numbers, theirs: &Answer, ours: &Answer) -> bool {
    let shares = |answer: &Answer| {
        let [number, a, b, rest] = answer.refusal;
        let kappa = u64::from(numbers.kappa);
        answer.code == 12 && number == 12 && rest == 0 && a < b && b < kappa && numbers.shared(a, b) >= 2
    };
    theirs == ours && ours.code != 12 || shares(theirs) && shares(ours)
}
