//! Values as literal terms of the proof language.

use interpreter::machine::{Call, Outcome, State};
use interpreter::verdict::{self, Verdict};

/// What each file of cases in a crate begins with.
pub fn head(name: &str) -> String {
    HEAD.replace("CRATE", name)
}

const HEAD: &str = "\
-- Cases: what a definition gives is what the interpreter gives.
use Rattle.std.proofs.Common.{◌≡◌, refl, ℕ, List, [], ◌∷◌}
use Rattle.rules.specs.Accepting.{read_file, expand_file}
use Rattle.rules.specs.Calling.{call, run_list}
use Rattle.rules.specs.Stepping.{start_expanded, call_expanded, run_list_expanded}
use Rattle.rules.specs.Judging.{verdict}
use Rattle.rules.specs.Reporting.{report}
use Rattle.rules.proofs.Whole.{whole}
use Rattle.CRATE.proofs.Literals.{stepped, unread, words, calling, holding, done, gave, denied, numbers, judgement}
";

/// Short names for literal values, none of them a definition of the rules.
pub const LITERALS: &str = "\
-- Short names for literal values.
use Rattle.std.specs.Prelude.{ℕ, List, [], ◌∷◌, ◌++◌, Some, None, Ok, Err}
use Rattle.rules.specs.declared.Answer.TheVariants as answer
use Rattle.rules.specs.declared.Call.{Call}
use Rattle.rules.specs.declared.Judged.{Judged}
use Rattle.rules.specs.declared.Outcome.{Outcome}
use Rattle.rules.specs.declared.State.{State}
use Rattle.rules.specs.Accepting.{Counted, Lent}
use Rattle.rules.specs.Answers.{answer_numbers, state_numbers, judged_numbers}

abbrev pub stepped : ℕ → Counted
stepped n = Ok n

abbrev pub unread : (number place : ℕ) → Counted
unread n p = Err (record { number = n; place = p })

-- an answer with the lent words after it
abbrev pub words : {A : Type 0} → A → List ℕ → Lent A
words a ws = record { answer = a; words = ws }

abbrev pub calling : (name sender coins : ℕ) (arguments : List ℕ) → Call
calling n s c xs = record { name = n; sender = s; coins = c; arguments = xs }

abbrev pub holding : (state : ℕ) (variables balances : List ℕ) (own : ℕ) → State
holding s vs bs w = record { state = s; variables = vs; balances = bs; own = w }

-- completed with no value, completed with a value, refused
abbrev pub done : (units : ℕ) → State → Outcome
done u s = record { answer = answer.Completed None u; state = s }

abbrev pub gave : (value units : ℕ) → State → Outcome
gave x u s = record { answer = answer.Completed (Some x) u; state = s }

abbrev pub denied : (number place units : ℕ) → State → Outcome
denied n p u s = record { answer = answer.Refused (record { number = n; place = p }) u; state = s }

-- an outcome and a verdict by their numbers
abbrev pub numbers : Outcome → List ℕ
numbers o = answer_numbers (o.answer) ++ state_numbers (o.state)

abbrev pub judgement : Lent Judged → Lent (List ℕ)
judgement l = record { answer = judged_numbers (l.answer); words = l.words }
";

/// A list in brackets.
pub fn list(numbers: &[u32]) -> String {
    items(&numbers.iter().map(u32::to_string).collect::<Vec<_>>())
}

/// A list of terms in brackets.
pub fn items(terms: &[String]) -> String {
    let all: String = terms.iter().map(|t| format!("{t} ∷ ")).collect();
    format!("({all}[])")
}

/// A step count, or a refusal's number and place.
pub fn counted(answer: Result<u32, (u8, u32)>) -> String {
    match answer {
        Ok(steps) => format!("(stepped {steps})"),
        Err((number, place)) => format!("(unread {number} {place})"),
    }
}

pub fn call(call: &Call) -> String {
    format!("(calling {} {} {} {})", call.name, call.sender, call.coins, list(&call.arguments))
}

pub fn state(state: &State) -> String {
    format!("(holding {} {} {} {})", state.state, list(&state.variables), list(&state.balances), state.own)
}

pub fn outcome(outcome: &Outcome) -> String {
    let after = state(&outcome.state);
    match (outcome.refusal, outcome.value) {
        (0, None) => format!("(done {} {after})", outcome.units),
        (0, Some(value)) => format!("(gave {value} {} {after})", outcome.units),
        (number, _) => format!("(denied {number} {} {} {after})", outcome.place, outcome.units),
    }
}

pub fn outcomes(all: &[Outcome]) -> String {
    items(&all.iter().map(outcome).collect::<Vec<_>>())
}

/// An outcome by its numbers: refusal, place, value, units, then the record.
pub fn numbers(outcome: &Outcome) -> String {
    let value = outcome.value.filter(|_| outcome.refusal == 0);
    let mut all = vec![outcome.refusal as u32, outcome.place];
    all.extend([value.is_some() as u32, value.unwrap_or(0), outcome.units, outcome.state.state]);
    all.extend(outcome.state.variables);
    all.extend(outcome.state.balances);
    all.push(outcome.state.own);
    list(&all)
}

/// A verdict by its numbers: refusal, place, verdict, lists tried, the
/// length of the list, its rows and then zeros to eight.
pub fn judged(answer: &Verdict) -> String {
    let broken = answer.verdict == verdict::BROKEN;
    let length = if broken { answer.rows.len() as u32 } else { 0 };
    let mut all = vec![answer.refusal as u32, answer.place, answer.verdict as u32, answer.tried, length];
    all.extend(answer.rows.iter().map(|r| *r as u32));
    all.resize(13, 0);
    list(&all)
}
