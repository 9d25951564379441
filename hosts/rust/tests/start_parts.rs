//! Start parts: every call of the library against the plain search, on random models of which the rules speak about power-up and
//! on texts that are refused at a start part or before it. What the request says of them is tried with the library alone: a
//! start part that says nothing changes nothing, and without start parts the start states are those of `init`.

#![deny(warnings)]

use std::collections::BTreeMap;

use codremif_host::answer::Reason;
use codremif_host::calls;
use codremif_host::compare::{show, Tally};
use codremif_host::everything::{reached, trace, Everything};
use codremif_host::lent::Fill;
use codremif_host::plain;
use codremif_host::plain::answers::Answers;
use codremif_host::plain::expression::Expression;
use codremif_host::plain::system::TransitionSystem;
use codremif_host::plain::text::{self, Model, Rule};
use codremif_host::random::generator::seed_for;
use codremif_host::random::lists::random_set;
use codremif_host::random::logs::states;
use codremif_host::random::models::{model, model_of, KINDS};
use codremif_host::random::orders::order;
use codremif_host::random::properties::PropertyCounts;
use codremif_host::random::start_parts::{
    with_fault, with_start_part_everywhere, with_start_parts, Earlier, Fault, StartPartCounts,
};
use codremif_host::random::written::{join, Written, WrittenRule};
use codremif_host::random::Random;

/// What came up, so that a test can demand that everything did.
#[derive(Debug, Default)]
struct Seen {
    tally: Tally,
    start_parts: StartPartCounts,
    properties: PropertyCounts,
    /// Models with other lists than without their start parts; with another verdict on some set than if each set had the start
    /// states of the full set.
    start_parts_tell: usize,
    set_tells: usize,
    sets: usize,
    /// Sets with other start states than set 0, and than the full set.
    fewer_start_states: usize,
    more_start_states: usize,
    /// Sets without a start state, though set 0 has one; and of these, sets of which no rule alone is without one.
    no_start_state: usize,
    contradictory: usize,
    /// Sets that are broken at once, in a start state which the full set does not have.
    broken_at_once: usize,
    /// Sets that hold, and would be broken with every start state of `init`.
    held_by_start_parts: usize,
    /// Rules of a core that are in it for the start part alone, for the step part alone though there is a start part, and for
    /// both.
    core_by_start: usize,
    core_by_step: usize,
    core_by_both: usize,
    /// Cores that have no start state, for which they need no step part.
    core_without_start_state: usize,
    longest_trace: usize,
    most_cores: usize,
    most_cuts: usize,
}

impl Seen {
    /// Every call, over some sets of the model.
    fn compare(&mut self, random: &mut Random, written: &Written, fill: Fill) {
        let text = written.text();
        let model = text::read(&text).unwrap_or_else(|refused| panic!("{refused}; {}", show(&text)));
        let plain = Answers::of_model(&model);
        let sets = sets(random, &plain);
        let (order, log) = (order(random, plain.system.rules), states(random, written, 8));
        self.tally.accepted_text(&text, &plain, &sets, &order, &log, fill);
        self.start_parts.note(written);
        self.properties.note(written.properties.len());
        self.most_cores = self.most_cores.max(plain.cores.len());
        self.most_cuts = self.most_cuts.max(plain.cuts.len());
        for set in sets {
            self.note_set(&plain.system, set);
        }
        if written.start_parts() > 0 {
            self.note_model(&model, &plain);
        }
    }

    fn note_set(&mut self, system: &TransitionSystem, set: u16) {
        let start = system.start_states(set);
        let of_full_set = system.start_states(system.full_set());
        let has_none = |set| !system.start_states(set).contains(&true);
        let run = plain::trace::trace(system, set);
        self.sets += 1;
        self.fewer_start_states += usize::from(start != system.init);
        self.more_start_states += usize::from(start != of_full_set);
        if has_none(set) && !has_none(0) {
            self.no_start_state += 1;
            self.contradictory += usize::from((0..system.rules).all(|rule| !has_none(set & 1 << rule)));
        }
        if let Some(run) = &run {
            let first = usize::from(run[0]);
            self.broken_at_once += usize::from(run.len() == 1 && !of_full_set[first]);
            self.longest_trace = self.longest_trace.max(run.len());
        } else {
            let from_init = system.with_start_states(system.init.clone());
            self.held_by_start_parts += usize::from(!from_init.holds(set));
        }
    }

    fn note_model(&mut self, model: &Model, plain: &Answers) {
        let system = &plain.system;
        let without = Answers::of_system(system.with_start_states(system.init.clone()));
        self.start_parts_tell += usize::from(without.cores != plain.cores || without.cuts != plain.cuts);
        let of_full_set = system.with_start_states(system.start_states(system.full_set()));
        let is_unlike = |set| of_full_set.holds(set) != plain.verdicts.holds(set);
        self.set_tells += usize::from((0..=system.full_set()).any(is_unlike));
        for core in plain.cores.iter().take(3) {
            self.core_without_start_state +=
                usize::from(*core != 0 && !system.start_states(*core).contains(&true));
            self.note_core(model, *core);
        }
    }

    /// What the core loses if one of its rules gets `1` for its step part, or for its start part.
    fn note_core(&mut self, model: &Model, core: u16) {
        let still_holds = |place: usize, change: fn(&mut Rule)| {
            let mut changed = model.clone();
            change(&mut changed.rules[place]);
            TransitionSystem::of(&changed).holds(core)
        };
        for place in (0..model.rules.len()).filter(|place| core >> place & 1 == 1) {
            if model.rules[place].start != TRUE {
                let without_step = still_holds(place, |rule| rule.step = TRUE);
                let without_start = still_holds(place, |rule| rule.start = TRUE);
                self.core_by_start += usize::from(without_step && !without_start);
                self.core_by_step += usize::from(!without_step && without_start);
                self.core_by_both += usize::from(!without_step && !without_start);
            }
        }
    }
}

const TRUE: Expression = Expression::Constant(true);

/// Every set where R is at most 3. Above that set 0, the full set, the rules alone, sets on both sides of the border between
/// broken and holding, and one more.
fn sets(random: &mut Random, plain: &Answers) -> Vec<u16> {
    let full_set = plain.system.full_set();
    if plain.system.rules <= 3 {
        return (0..=full_set).collect();
    }
    let mut sets = vec![0, full_set, 1 << random.below(plain.system.rules), random_set(random) & full_set];
    for list in [&plain.cores, &plain.cuts] {
        if !list.is_empty() {
            let set = random.pick(list);
            sets.extend([set, set & set.wrapping_sub(1), full_set & !set]);
        }
    }
    sets
}

/// A model of which some rules have a start part.
fn model_with_start_parts(random: &mut Random, bits: usize, rules: usize) -> Written {
    let mut written = model(random, bits, rules);
    if written.start_parts() == 0 {
        with_start_parts(random, &mut written);
    }
    written
}

/// Every call on small models, of which one in seven has no start part.
#[test]
fn random_models() {
    let mut random = Random::new(seed_for("start parts, random models", 20_261_001));
    let mut seen = Seen::default();
    for turn in 0..7_000 {
        let (bits, rules) = (random.pick(&[1, 2, 2, 3, 3, 3, 3, 4, 4, 5]), random.between(1, 8));
        let written = match turn % 7 {
            0 => without_start_parts(&model(&mut random, bits, rules)),
            _ => model_with_start_parts(&mut random, bits, rules),
        };
        seen.compare(&mut random, &written, Fill::ALL[turn % 3]);
    }
    println!("start parts, random models: {seen:?}");
    assert!(seen.tally.asked >= 100_000 && seen.tally.accepted() >= 50_000, "{seen:?}");
    assert!(seen.tally.given(Reason::TooFewBytes) >= 20_000, "{seen:?}");
    assert!(seen.start_parts.fewest() >= 1_000 && seen.properties.fewest() >= 1_000, "{seen:?}");
    demand(&seen, 500);
}

/// Seven bits and 16 rules, and not much less.
#[test]
fn large_models() {
    let mut random = Random::new(seed_for("start parts, large models", 20_261_002));
    let mut seen = Seen::default();
    for turn in 0..24 {
        let mut written = model_of(&mut random, KINDS[turn % KINDS.len()], 6 + turn % 2, 16 - turn % 3);
        with_start_parts(&mut random, &mut written);
        seen.compare(&mut random, &written, Fill::ALL[turn % 3]);
    }
    println!("start parts, large models: {seen:?}");
    assert_eq!(seen.start_parts.none, 0, "{seen:?}");
    demand(&seen, 5);
}

fn demand(seen: &Seen, times: usize) {
    assert!(seen.start_parts_tell >= times && seen.set_tells >= times, "{seen:?}");
    assert!(seen.fewer_start_states >= times && seen.more_start_states >= times, "{seen:?}");
    assert!(seen.no_start_state >= times && seen.broken_at_once >= times, "{seen:?}");
    assert!(seen.held_by_start_parts >= times && seen.core_by_start >= times, "{seen:?}");
    assert!(seen.core_by_step >= times && seen.core_by_both >= times / 5, "{seen:?}");
    assert!(seen.core_without_start_state >= times / 5 && seen.contradictory >= times / 5, "{seen:?}");
}

/// Every fault of a start part, alone and behind every fault that the line may have before it: the number and the line are
/// those of the first, in every call, and no byte changes.
#[test]
fn refused_texts() {
    let mut random = Random::new(seed_for("start parts, refused texts", 20_261_003));
    let mut tally = Tally::default();
    let mut times: BTreeMap<(Option<Earlier>, Fault), usize> = BTreeMap::new();
    let mut numbers_of_start_parts: BTreeMap<u8, usize> = BTreeMap::new();
    for turn in 0..120 {
        for earlier in Earlier::every() {
            for fault in Fault::OF_A_START_PART {
                let (bits, rules) = (random.between(1, 7), random.pick(&[1, 2, 3, 4, 8, 16]));
                let place = random.below(rules);
                let can_be = earlier.is_none_or(|earlier| earlier.can_be(bits, place)) && fault.can_be(bits);
                if !can_be {
                    continue;
                }
                let written = model(&mut random, bits, rules);
                let (faulty, refused) = with_fault(&mut random, &written, place, earlier, fault);
                let text = faulty.text();
                assert_eq!(text::read(&text), Err(refused), "{earlier:?}, {fault:?}; {}", show(&text));
                tally.refused_text(&text, refused, Fill::ALL[turn % 3]);
                *times.entry((earlier, fault)).or_default() += 1;
                if earlier.is_none() {
                    *numbers_of_start_parts.entry(refused.reason.number()).or_default() += 1;
                }
            }
        }
    }
    println!("start parts, refused texts: {numbers_of_start_parts:?}, {times:?}, {tally:?}");
    assert_eq!(times.len(), 9 * 8, "{times:?}");
    assert!(times.values().all(|times| *times >= 50), "{times:?}");
    assert!((5..=8).all(|number| numbers_of_start_parts[&number] >= 100), "{numbers_of_start_parts:?}");
    assert!(tally.asked >= 100_000 && tally.accepted() == 0, "{tally:?}");
}

fn without_start_parts(written: &Written) -> Written {
    let without = |rule: &WrittenRule| WrittenRule { start: None, ..rule.clone() };
    Written { rules: written.rules.iter().map(without).collect(), ..written.clone() }
}

/// The library says the same where each rule that has no start part gets one that says nothing: `1`, or again what `init` says.
#[test]
fn start_parts_that_say_nothing() {
    let mut random = Random::new(seed_for("start parts that say nothing", 20_261_004));
    let mut start_parts = StartPartCounts::default();
    for _ in 0..4_000 {
        let written = small_model(&mut random);
        let sets = some_sets(&mut random, &written);
        let order = order(&mut random, written.rules.len());
        let log = states(&mut random, &written, 8);
        let said = Everything::of(&written.text(), &sets, &order, &log);
        for start in ["1", &written.init] {
            let text = with_start_part_everywhere(&written, start).text();
            let of_other = Everything::of(&text, &sets, &order, &log);
            assert_eq!(of_other, said, "{}; {}", show(&text), show(&written.text()));
        }
        start_parts.note(&written);
    }
    println!("start parts that say nothing: {start_parts:?}");
    assert!(start_parts.none >= 1_500 && start_parts.some >= 500, "{start_parts:?}");
}

/// A small one, since a call's time grows with 4^N.
fn small_model(random: &mut Random) -> Written {
    let (bits, rules) = (random.pick(&[1, 2, 2, 3, 3, 3, 4, 4, 5]), random.between(1, 8));
    model(random, bits, rules)
}

fn some_sets(random: &mut Random, written: &Written) -> [u16; 4] {
    let full_set = u16::MAX >> (16 - written.rules.len());
    [0, full_set, random_set(random) & full_set, random_set(random) & full_set]
}

/// Without start parts each set has the start states of `init`: the old meaning.
#[test]
fn without_start_parts_as_before() {
    let mut random = Random::new(seed_for("without start parts", 20_261_005));
    let mut tally = Tally::default();
    let (mut held, mut broken) = (0, 0);
    for turn in 0..2_000 {
        let written = without_start_parts(&small_model(&mut random));
        let text = written.text();
        let model = text::read(&text).expect("an accepted model");
        let start = (0..1 << model.bits).map(|state| model.init.value(state, 0)).collect();
        let before = Answers::of_system(TransitionSystem::of(&model).with_start_states(start));
        let sets = some_sets(&mut random, &written);
        let order = order(&mut random, written.rules.len());
        let log = states(&mut random, &written, 8);
        tally.accepted_text(&text, &before, &sets, &order, &log, Fill::ALL[turn % 3]);
        held += usize::from(!before.cores.is_empty());
        broken += usize::from(before.cores.is_empty());
    }
    println!("without start parts: {held} hold, {broken} broken, {tally:?}");
    assert!(held >= 500 && broken >= 500);
}

/// A set is judged, and reaches states, as it does without start parts where `init` says beside its own what the start parts of
/// the rules in the set say. By the library alone.
#[test]
fn the_start_parts_of_a_set_in_init() {
    let mut random = Random::new(seed_for("the start parts of a set in init", 20_261_006));
    let (mut compared, mut several) = (0, 0);
    for _ in 0..8_000 {
        let written = small_model(&mut random);
        for set in some_sets(&mut random, &written) {
            let in_set = (0..written.rules.len()).filter(|place| set >> place & 1 == 1);
            let start_parts = in_set.filter_map(|place| written.rules[place].start.clone());
            let all: Vec<String> = [written.init.clone()].into_iter().chain(start_parts).collect();
            let init = join('&', &all);
            if all.len() == 1 || init.len() > 64 {
                continue;
            }
            let other = Written { init, ..without_start_parts(&written) }.text();
            let text = written.text();
            let about = || format!("set {set}; {}; {}", show(&text), show(&other));
            assert_eq!(trace(&text, set), trace(&other, set), "{}", about());
            assert_eq!(reached(&text, set), reached(&other, set), "{}", about());
            compared += 1;
            several += usize::from(all.len() > 2);
        }
    }
    println!("the start parts of a set in init: {compared} sets, {several} with several start parts");
    assert!(compared >= 8_000 && several >= 4_000);
}

/// In a log, start parts are asked of the first state alone: what is broken beside that is what is broken without start parts. By
/// the library alone.
#[test]
fn start_parts_in_a_log() {
    let mut random = Random::new(seed_for("start parts in a log", 20_261_007));
    let (mut compared, mut at_start, mut by_start_part, mut by_both) = (0, 0, 0, 0);
    while compared < 5_000 {
        let (bits, rules) = (random.pick(&[1, 2, 2, 3, 3, 3, 4, 4, 5]), random.between(1, 8));
        let written = model_with_start_parts(&mut random, bits, rules);
        let length = random.between(1, 12);
        let log = states(&mut random, &written, length);
        let broken = |text: &[u8], log: &[u8]| calls::blame(text, log).map(|said| said.broken);
        let text = written.text();
        let Ok(in_first) = broken(&text, &log[..1]) else { continue };
        let in_steps = broken(&without_start_parts(&written).text(), &log).expect("the same `init`");
        let about = || format!("log {log:?}; {}", show(&text));
        assert_eq!(broken(&text, &log), Ok(in_first | in_steps), "{}", about());
        compared += 1;
        at_start += usize::from(in_first != 0);
        by_start_part += usize::from(in_first & !in_steps != 0);
        by_both += usize::from(in_first & in_steps != 0);
    }
    println!(
        "start parts in a log: {at_start} break one, {by_start_part} that alone, {by_both} the step part too"
    );
    assert!(at_start >= 1_500 && by_start_part >= 500 && by_both >= 1_000);
}
