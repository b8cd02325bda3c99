//! The operations of the library, and the report program.

#[derive(Clone, Copy, Debug, PartialEq, Eq)]
pub enum Operation {
    Read,
    Expand,
    Start,
    Call,
    StartExpanded,
    CallExpanded,
    Verdict,
    Report,
}

use Operation::*;

impl Operation {
    pub const ALL: [Operation; 8] = [Read, Expand, Start, Call, StartExpanded, CallExpanded, Verdict, Report];

    pub fn name(self) -> &'static str {
        ["read", "expand", "start", "call", "start expanded", "call expanded", "verdict", "report"][self as usize]
    }

    /// Whether tests/operations lists it.
    pub fn compared(self) -> bool {
        match self {
            Read => cfg!(agreement_read),
            Expand => cfg!(agreement_expand),
            Start => cfg!(agreement_start),
            Call => cfg!(agreement_call),
            StartExpanded => cfg!(agreement_start_expanded),
            CallExpanded => cfg!(agreement_call_expanded),
            Verdict => cfg!(agreement_verdict),
            Report => cfg!(report),
        }
    }

    /// The refusals that it can give besides 1 to 8, all of which the tests must meet.
    fn later_refusals(self) -> &'static [usize] {
        match self {
            Read => &[],
            Expand => &[11],
            Start => &[27],
            Call => &[9, 20, 21, 22, 23, 24, 25, 26],
            StartExpanded => &[11, 12, 27],
            CallExpanded => &[9, 11, 12, 20, 21, 22, 23, 24, 25, 26],
            Verdict => &[10, 11, 27],
            Report => &[27],
        }
    }

    pub fn refusals(self) -> impl Iterator<Item = usize> {
        (1..=8).chain(self.later_refusals().iter().copied())
    }
}
