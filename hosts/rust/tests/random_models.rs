//! Random accepted models with one to four properties, with start parts and without: verdicts, traces, cores, cuts, MUST, MAY
//! and irrelevant rules of the library against the plain search.

#![deny(warnings)]

use codremif_host::answer::Reason;
use codremif_host::compare::{show, Tally};
use codremif_host::lent::Fill;
use codremif_host::plain::answers::Answers;
use codremif_host::plain::sets::minimal;
use codremif_host::plain::trace::trace;
use codremif_host::random::generator::seed_for;
use codremif_host::random::properties::PropertyCounts;
use codremif_host::random::start_parts::StartPartCounts;
use codremif_host::random::{models, Random};

/// How many models there are for each R of a test, for N from 1 to 7. A call's time grows with 4^N, so the small models
/// make up the number and the large ones are few.
type Plan = [usize; 7];

const SMALL: Plan = [1100, 1150, 750, 200, 30, 6, 2];
const MIDDLING: Plan = [130, 130, 100, 60, 15, 5, 2];
const LARGE: Plan = [12, 12, 12, 12, 12, 34, 6];

const fn sum(plan: Plan) -> usize {
    plan[0] + plan[1] + plan[2] + plan[3] + plan[4] + plan[5] + plan[6]
}

// The three tests have 6, 5 and 5 values of R; a model with N 6 or 7 and R 12 to 16 is called large.
const _: () = assert!(6 * sum(SMALL) + 5 * sum(MIDDLING) + 5 * sum(LARGE) >= 20_000);
const _: () = assert!(5 * (LARGE[5] + LARGE[6]) >= 200);

#[test]
fn small_models_with_every_set_judged() {
    let seen = compare_models("small models", 20_260_101, 1..=6, SMALL);
    assert!(seen.most_cores >= 6 && seen.most_cuts >= 5, "{seen:?}");
    assert!(seen.longest_trace >= 16, "{seen:?}");
    assert!(seen.duality_checked == seen.models, "{seen:?}");
    assert!(seen.contradictory >= 300 && seen.no_start >= 300 && seen.no_successor >= 300, "{seen:?}");
    assert!(seen.no_core >= 1000 && seen.empty_core >= 1000 && seen.neither >= 1000, "{seen:?}");
    assert!(seen.all_kinds >= 200 && seen.irrelevant_beside_core >= 2000, "{seen:?}");
    assert!(seen.properties.fewest() >= 4000 && seen.properties.several() >= 10_000, "{seen:?}");
    assert!(seen.trace_by_another >= 20_000, "{seen:?}");
    assert!(seen.start_parts.fewest() >= 3000 && seen.start_parts.none >= 8000, "{seen:?}");
}

#[test]
fn middling_models_with_a_sample_of_sets_judged() {
    let seen = compare_models("middling models", 20_260_102, 7..=11, MIDDLING);
    assert!(seen.many_cores >= 100, "{seen:?}");
    assert!(seen.contradictory >= 50 && seen.no_start >= 50 && seen.no_successor >= 50, "{seen:?}");
    assert!(seen.properties.fewest() >= 400 && seen.trace_by_another >= 1000, "{seen:?}");
    assert!(seen.start_parts.fewest() >= 250, "{seen:?}");
}

#[test]
fn large_models_with_a_sample_of_sets_judged() {
    let seen = compare_models("large models", 20_260_103, 12..=16, LARGE);
    assert!(seen.many_cores >= 100, "{seen:?}");
    assert!(seen.contradictory >= 10 && seen.no_start >= 10 && seen.no_successor >= 10, "{seen:?}");
    assert!(seen.properties.fewest() >= 80 && seen.trace_by_another >= 200, "{seen:?}");
    assert!(seen.start_parts.fewest() >= 50, "{seen:?}");
}

/// A binary counter that counts from 0 until all bits are set has the longest trace there is: every state once.
#[test]
fn counters_of_every_size() {
    let mut random = Random::new(seed_for("counters", 20_260_104));
    let mut seen = Seen::default();
    for bits in 1..=7 {
        let text = models::full_counter(bits).text();
        let plain = Answers::of(&text).expect("an accepted model");
        let every_state: Vec<u8> = (0..1 << bits).map(|state| state as u8).collect();
        assert_eq!(trace(&plain.system, plain.system.full_set()), Some(every_state));
        compare_model(&mut random, &mut seen, &text);
    }
    assert_eq!(seen.longest_trace, 128, "{seen:?}");
}

/// What came up, so that a test can demand that everything did.
#[derive(Debug, Default)]
struct Seen {
    models: usize,
    properties: PropertyCounts,
    start_parts: StartPartCounts,
    many_cores: usize,
    most_cores: usize,
    many_cuts: usize,
    most_cuts: usize,
    contradictory: usize,
    no_start: usize,
    no_successor: usize,
    no_core: usize,
    empty_core: usize,
    neither: usize,
    all_kinds: usize,
    irrelevant_beside_core: usize,
    judged: usize,
    longest_trace: usize,
    /// Traces that end in a state which meets the first property.
    trace_by_another: usize,
    duality_checked: usize,
    tally: Tally,
}

fn compare_models(
    name: &str,
    own_seed: u64,
    rule_counts: std::ops::RangeInclusive<usize>,
    plan: Plan,
) -> Seen {
    let mut random = Random::new(seed_for(name, own_seed));
    let mut seen = Seen::default();
    for rules in rule_counts.clone() {
        for (place, count) in plan.iter().enumerate() {
            assert_ne!(*count, 0, "every N comes with every R");
            for _ in 0..*count {
                let written = models::model(&mut random, place + 1, rules);
                compare_model(&mut random, &mut seen, &written.text());
                seen.start_parts.note(&written);
            }
        }
    }
    println!("{name}: R {rule_counts:?}, N 1 to 7: {seen:?}");
    assert!(seen.tally.given(Reason::NoSuchSet) >= seen.models, "{seen:?}");
    assert!(seen.tally.given(Reason::TooFewBytes) >= seen.models, "{seen:?}");
    seen
}

fn compare_model(random: &mut Random, seen: &mut Seen, text: &[u8]) {
    let plain = Answers::of(text).unwrap_or_else(|refused| panic!("{refused}; {}", show(text)));
    note_features(seen, &plain);
    compare_lists(seen, text, &plain);
    seen.tally.kinds(text, &plain);
    for set in sets_to_judge(random, &plain) {
        compare_judged(seen, text, &plain, set);
    }
    compare_too_large(seen, text, &plain);
    check_duality(seen, text, &plain);
}

fn note_features(seen: &mut Seen, plain: &Answers) {
    let (cores, cuts) = (plain.cores.len(), plain.cuts.len());
    seen.models += 1;
    seen.properties.note(plain.system.breaking.len());
    seen.many_cores += usize::from(cores >= 10);
    seen.most_cores = seen.most_cores.max(cores);
    seen.many_cuts += usize::from(cuts >= 10);
    seen.most_cuts = seen.most_cuts.max(cuts);
    seen.contradictory += usize::from(is_contradictory(plain));
    seen.no_start += usize::from(!plain.system.start_states(0).contains(&true));
    seen.no_successor += usize::from(has_start_without_successor(plain));
    seen.no_core += usize::from(plain.cores.is_empty());
    seen.empty_core += usize::from(plain.cores == [0]);
    seen.neither += usize::from(cores > 0 && cuts > 0);
    seen.all_kinds += usize::from(plain.must != 0 && plain.may != 0 && plain.irrelevant != 0);
    let in_a_core = plain.must | plain.may;
    seen.irrelevant_beside_core += usize::from(in_a_core != 0 && plain.irrelevant != 0);
}

/// Each rule is met by some pair of states, but none meets all of them.
fn is_contradictory(plain: &Answers) -> bool {
    (0..plain.system.rules).all(|rule| has_step(plain, 1 << rule))
        && !has_step(plain, plain.system.full_set())
}

fn has_step(plain: &Answers, set: u16) -> bool {
    (0..plain.system.states).any(|now| has_successor(plain, set, now))
}

fn has_successor(plain: &Answers, set: u16, now: usize) -> bool {
    (0..plain.system.states).any(|later| plain.system.is_step(set, now, later))
}

/// The full set has steps, but none from some start state.
fn has_start_without_successor(plain: &Answers) -> bool {
    let full_set = plain.system.full_set();
    let start = plain.system.start_states(full_set);
    let stuck = |state: usize| start[state] && !has_successor(plain, full_set, state);
    has_step(plain, full_set) && (0..plain.system.states).any(stuck)
}

/// The lists at every lent length around the needed one, prefilled in turn in each of the three ways.
fn compare_lists(seen: &mut Seen, text: &[u8], plain: &Answers) {
    for (turn, length) in lengths_around(2 * plain.cores.len(), plain).into_iter().enumerate() {
        let _ = seen.tally.cores(text, plain, length, Fill::ALL[(seen.models + turn) % 3]);
    }
    for (turn, length) in lengths_around(2 * plain.cuts.len(), plain).into_iter().enumerate() {
        let _ = seen.tally.cuts(text, plain, length, Fill::ALL[(seen.models + turn) % 3]);
    }
}

fn lengths_around(needed: usize, plain: &Answers) -> Vec<usize> {
    let fewer = |by| needed.checked_sub(by);
    if is_slow(plain) {
        return [Some(needed), Some(needed + 5), fewer(1)].into_iter().flatten().collect();
    }
    let mut lengths = vec![needed, needed + 1, needed + 5];
    lengths.extend([fewer(1), fewer(2)].into_iter().flatten());
    if needed > 2 {
        lengths.push(0);
    }
    lengths
}

/// A call on such a model takes milliseconds, so it is asked fewer questions.
fn is_slow(plain: &Answers) -> bool {
    plain.system.states > 32 && plain.system.rules > 6
}

/// Every set where R is at most 6. Above that the sets on both sides of the border between broken and holding, and some
/// others, fewer where a call takes long.
fn sets_to_judge(random: &mut Random, plain: &Answers) -> Vec<u16> {
    let full_set = plain.system.full_set();
    if plain.system.rules <= 6 {
        return (0..=full_set).collect();
    }
    let mut sets = vec![full_set, 0];
    for list in [&plain.cores, &plain.cuts] {
        for _ in 0..list.len().min(3) {
            let set = random.pick(list);
            sets.extend([set, set & set.wrapping_sub(1), full_set & !set]);
        }
    }
    sets.extend((0..4).map(|_| random.below(usize::from(full_set) + 1) as u16));
    if is_slow(plain) {
        random.shuffle(&mut sets[2..]);
        sets.truncate(4);
    }
    sets
}

fn compare_judged(seen: &mut Seen, text: &[u8], plain: &Answers, set: u16) {
    let run = trace(&plain.system, set).unwrap_or_default();
    let needed = run.len();
    assert_eq!(
        plain.verdicts.holds(set),
        needed == 0,
        "the plain search differs from itself; {}",
        show(text)
    );
    seen.judged += 1;
    seen.longest_trace = seen.longest_trace.max(needed);
    seen.trace_by_another +=
        usize::from(run.last().is_some_and(|state| !plain.system.breaking[0][usize::from(*state)]));
    let mut lengths = vec![[needed, needed + 1, 128][seen.judged / 3 % 3]];
    if seen.judged.is_multiple_of(4) {
        lengths.extend([needed.saturating_sub(1), 0]);
    }
    for (turn, length) in lengths.into_iter().enumerate() {
        let fill = Fill::ALL[(seen.judged + turn) % 3];
        let _ = seen.tally.judge(text, plain, u32::from(set), length, fill);
    }
}

/// Sets of rules that do not exist are refused with 10, whatever is lent.
fn compare_too_large(seen: &mut Seen, text: &[u8], plain: &Answers) {
    let first = 1 << plain.system.rules;
    let sets = [first, first + 1, 2 * first - 1, 2 * first, 65_536, 65_537, 1 << 31, u32::MAX];
    for (turn, set) in sets.into_iter().enumerate() {
        let length = [0, 1, 128][(seen.models + turn) % 3];
        let fill = Fill::ALL[(seen.models / 3 + turn) % 3];
        let answer = seen.tally.judge(text, plain, set, length, fill);
        assert_eq!(answer.map_err(|refused| refused.reason), Err(Reason::NoSuchSet), "{}", show(text));
    }
}

/// Demand 3 of the plain lists themselves: each is the other's minimal hitting sets, and MUST has exactly the rules that
/// form a cut alone. So a rule is in some core exactly where it is in some cut. By brute force over all sets, so only where
/// R is at most 10.
fn check_duality(seen: &mut Seen, text: &[u8], plain: &Answers) {
    let alone = plain.cuts.iter().filter(|cut| cut.count_ones() == 1);
    assert_eq!(plain.must, alone.fold(0, |set, cut| set | cut), "MUST; {}", show(text));
    let in_a_cut = plain.cuts.iter().fold(0, |set, cut| set | cut);
    assert_eq!(plain.may, in_a_cut & !plain.must, "MAY; {}", show(text));
    assert_eq!(plain.irrelevant, plain.system.full_set() & !in_a_cut, "irrelevant; {}", show(text));
    if plain.system.rules > 10 {
        return;
    }
    let full_set = plain.system.full_set();
    assert_eq!(plain.cuts, minimal_hitting_sets(full_set, &plain.cores), "cuts; {}", show(text));
    assert_eq!(plain.cores, minimal_hitting_sets(full_set, &plain.cuts), "cores; {}", show(text));
    seen.duality_checked += 1;
}

/// The sets that share a rule with every set of the list, while no proper part of them does.
fn minimal_hitting_sets(full_set: u16, list: &[u16]) -> Vec<u16> {
    minimal(full_set, |set| list.iter().all(|other| set & other != 0))
}
