//! What was compared: how many comparisons of each operation agreed, those that differ, and how often each refusal was met.

use crate::operations::Operation;
use interpreter::again::Again;
use std::fmt::Debug;

/// A comparison in which the library and the interpreter differ.
pub struct Difference {
    pub operation: Operation,
    pub text: String,
}

#[derive(Default)]
pub struct Tally {
    passed: [u64; 8],
    failed: u64,
    /// By operation and refusal; 0 is accepted, completed or judged.
    met: [[u64; 28]; 8],
    verdicts: [u64; 4],
    /// Searches that came to a position again, where the bound fell inside and at the end of the lists below it, and where a
    /// list broke the rule later.
    again: [u64; 4],
    /// Those of the present file.
    pub differences: Vec<Difference>,
}

impl Tally {
    /// One comparison, where the interpreter gives this refusal.
    pub fn compare<T: PartialEq + Debug>(
        &mut self,
        operation: Operation,
        what: &str,
        library: T,
        expected: T,
        refusal: u32,
    ) {
        self.met[operation as usize][refusal as usize] += 1;
        if library == expected {
            self.passed[operation as usize] += 1;
            return;
        }
        self.failed += 1;
        let text = format!("{what}: the library gives {library:?}, the interpreter {expected:?}");
        self.differences.push(Difference { operation, text });
    }

    pub fn judged(&mut self, verdict: u32) {
        self.verdicts[verdict as usize] += 1;
    }

    pub fn searched(&mut self, met: &Again) {
        let all = [!met.ends.is_empty(), met.bound_inside, met.bound_at_end, met.broken_after];
        self.again.iter_mut().zip(all).for_each(|(count, met)| *count += met as u64);
    }

    /// Prints what was met; a refusal or verdict that can be met and was not is a failure.
    pub fn report(&mut self, all_must_be_met: bool) {
        for operation in Operation::ALL {
            if operation.compared() {
                self.report_operation(operation, all_must_be_met);
            } else {
                println!("{}: NOT COMPARED", operation.name());
            }
        }
        if Operation::Verdict.compared() {
            let [_, broken, held, spent] = self.verdicts;
            println!("verdicts: broken {broken}, held {held}, spent {spent}");
            self.must_be_met(all_must_be_met && self.verdicts[1..].contains(&0), "a verdict");
        }
        self.report_numbers(all_must_be_met);
    }

    /// How often positions were met again; what was not met is a failure.
    pub fn report_again(&mut self, all_must_be_met: bool) {
        let [times, inside, end, broken] = self.again;
        println!("searches that met a position again: {times}");
        println!("the bound among the lists below it {inside}, at their end {end}; the rule broken later {broken}");
        self.must_be_met(all_must_be_met && times == 0, "a repeated position");
        self.must_be_met(all_must_be_met && inside == 0, "a bound among the lists below a repeated position");
        self.must_be_met(all_must_be_met && end == 0, "a bound at the end of the lists below one");
        self.must_be_met(all_must_be_met && broken == 0, "a rule broken after a repeated position");
    }

    fn report_operation(&mut self, operation: Operation, all_must_be_met: bool) {
        let met = self.met[operation as usize];
        let seen: Vec<String> = operation.refusals().map(|n| format!("{n}:{}", met[n])).collect();
        println!("{}: answered {}, refused {}", operation.name(), met[0], seen.join(" "));
        for number in operation.refusals() {
            let missing = all_must_be_met && met[number] == 0;
            self.must_be_met(missing, &format!("refusal {number} of {}", operation.name()));
        }
    }

    /// How often each number was met in all.
    fn report_numbers(&mut self, all_must_be_met: bool) {
        let all_compared = Operation::ALL[..7].iter().all(|operation| operation.compared());
        for number in (1..=12).chain(20..=27) {
            let count: u64 = self.met.iter().map(|met| met[number]).sum();
            println!("refusal {number}: {count}");
            self.must_be_met(all_must_be_met && all_compared && count == 0, &format!("refusal {number}"));
        }
    }

    fn must_be_met(&mut self, missing: bool, what: &str) {
        if missing {
            println!("FAILED: {what} was not met");
            self.failed += 1;
        }
    }

    /// Prints the last line; gives whether nothing failed.
    pub fn finish(&self) -> bool {
        println!("{} passed, {} failed", self.passed.iter().sum::<u64>(), self.failed);
        self.failed == 0
    }
}
