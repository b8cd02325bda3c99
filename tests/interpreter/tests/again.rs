//! Searches that come to a position again, and the files that are made for them.

use interpreter::again::again;
use interpreter::generate::{binary, constant, count_up, counter, repeats, search};
use interpreter::random::Random;
use interpreter::read::read;
use interpreter::run;
use interpreter::tree::{Agreement, ExpressionKind, Rule};
use interpreter::verdict::{judge, row_call};

/// Two rows whose calls are refused, to depth 6: 127 lists, all in the start's position. The 32 lists below it with five rows
/// left are met once in length 5, and twice again in length 6, which begins after 63 lists.
fn all_refused(bound: u32) -> Agreement {
    let mut a = counter();
    (a.depth, a.bound, a.transitions[0].guard) = (6, bound, constant(0));
    a.rows = vec![a.rows[0].clone(); 2];
    a.rules = vec![Rule::Always(constant(1))];
    a
}

#[test]
fn ends_and_bounds_are_told() {
    for (bound, ends, inside, at_end) in [
        (1_000, vec![95, 127], false, false),
        (127, vec![95, 127], false, false),
        (126, vec![95, 126], true, false),
        (95, vec![95], false, true),
        (94, vec![94], true, false),
        (64, vec![64], true, false),
        (63, vec![], false, false),
    ] {
        let met = again(&all_refused(bound), 0);
        assert_eq!((met.ends, met.bound_inside, met.bound_at_end), (ends, inside, at_end), "bound {bound}");
        assert!(!met.broken_after);
    }
}

#[test]
fn a_rule_broken_after_repeats_is_told() {
    let mut a = all_refused(1_000);
    (a.depth, a.rows[1].name) = (7, 9);
    a.fallback = count_up(0);
    a.rules = vec![Rule::Always(binary(7, ExpressionKind::Variable(0).into(), constant(6)))];
    let met = again(&a, 0);
    assert_eq!(judge(&a, 0).rows, [1; 6]);
    assert!(met.broken_after && !met.ends.is_empty());
    a.rules = vec![Rule::Always(constant(0))];
    assert!(!again(&a, 0).broken_after);
}

#[test]
fn files_made_to_repeat_do_so_in_every_way() {
    let mut met = [0; 4];
    for seed in 0..300 {
        let agreement = read(&repeats::file(&mut Random::new(seed))).unwrap();
        assert_eq!(run::start_read(&agreement).refusal, 0, "seed {seed}");
        let one = again(&agreement, 0);
        let all = [!one.ends.is_empty(), one.bound_inside, one.bound_at_end, one.broken_after];
        met.iter_mut().zip(all).for_each(|(count, met)| *count += met as u32);
    }
    assert!(met.iter().all(|count| *count >= 10), "{met:?}");
}

#[test]
fn files_made_not_to_repeat_do_not() {
    for (rows, depth) in [(1, 8), (2, 8), (3, 8), (4, 7), (15, 4)] {
        let agreement = read(&search::all_distinct(rows, depth)).unwrap();
        let met = again(&agreement, 0);
        assert_eq!((met.ends, met.broken_after), (vec![], false), "{rows} rows");
        let start = run::start_read(&agreement).state;
        let calls = agreement.rows.iter().map(|row| run::call_read(&agreement, &start, &row_call(row)));
        assert!(calls.map(|outcome| outcome.refusal).all(|refusal| refusal == 0), "{rows} rows");
    }
}

#[test]
fn endless_loops_use_up_all_units() {
    let agreement = read(&search::endless_loops(5_000)).unwrap();
    let start = run::start_read(&agreement).state;
    for row in &agreement.rows {
        let outcome = run::call_read(&agreement, &start, &row_call(row));
        assert_eq!((outcome.refusal, outcome.units, outcome.state), (26, 4_096, start));
    }
}
