//! The states that a set reaches: marks, pairs and lent bytes of the library against the plain search, on random models,
//! weak sets of the largest ones and every relation of four states. What the request says of the pairs is tried of each
//! answer, and the marks are held to the states that end a run and to the library's own verdict.

#![deny(warnings)]

use codremif_host::answer::{Reached, Reason, Refused, Verdict};
use codremif_host::calls;
use codremif_host::compare::{show, Asked, Tally};
use codremif_host::lent::Fill;
use codremif_host::plain::system::TransitionSystem;
use codremif_host::plain::text;
use codremif_host::random::damage::damaged;
use codremif_host::random::generator::seed_for;
use codremif_host::random::lists::random_set;
use codremif_host::random::models::{full_counter, model, model_of, KINDS};
use codremif_host::random::written::{join, later, literal, now, Written, WrittenRule};
use codremif_host::random::Random;

/// What came up, so that a test can demand that everything did.
#[derive(Debug, Default)]
struct Seen {
    tally: Tally,
    /// Accepted calls by the number of bits, the first is for one.
    by_bits: [usize; 7],
    no_rule: usize,
    one_rule: usize,
    few_rules: usize,
    full_set: usize,
    no_start: usize,
    all_start: usize,
    not_all_reached: usize,
    /// No state is added to the start states, though some state is not reached.
    none_added: usize,
    /// Every state is reached, and some were added: while the first state's pairs are tried, or later.
    all_by_the_first: usize,
    all_by_a_later: usize,
    /// Of these, the end comes before the last pair of a state.
    in_the_middle: usize,
    /// Another order of the marked states, by number, would have tried more or fewer pairs.
    order_tells: usize,
    most_pairs: usize,
    just_enough_lent: usize,
    more_lent: usize,
    /// Refused by 11, though a byte for each reached state is lent.
    enough_for_the_reached: usize,
    /// A set that the model lacks beside too few bytes.
    both_10_and_11: usize,
    held: usize,
    broken: usize,
}

fn about(asked: &Asked, set: impl Into<u32>) -> String {
    format!("set {}; {}", set.into(), show(&asked.text))
}

impl Seen {
    fn ask(&mut self, asked: &Asked, set: u32, length: usize, fill: Fill) -> Result<Reached, Refused> {
        self.tally.reached(&asked.text, Ok(&asked.system), set, length, fill)
    }

    /// A set of the model with enough bytes lent. Gives the marks.
    fn accepted(&mut self, asked: &Asked, set: u16, length: usize, fill: Fill) -> Vec<u8> {
        let system = &asked.system;
        let answer = self.ask(asked, u32::from(set), length, fill);
        let pairs = answer.unwrap_or_else(|refused| panic!("{refused}; {}", about(asked, set))).pairs;
        let marks = marks(asked, set);
        check_pairs(asked, set, &marks, pairs);
        self.note_set(system, set);
        self.note_pairs(system, set, &marks, pairs);
        self.just_enough_lent += usize::from(length == system.states);
        self.more_lent += usize::from(length > system.states);
        marks
    }

    fn note_set(&mut self, system: &TransitionSystem, set: u16) {
        self.by_bits[system.states.ilog2() as usize - 1] += 1;
        self.no_rule += usize::from(set == 0);
        self.one_rule += usize::from(set.count_ones() == 1);
        self.few_rules += usize::from((2..=3).contains(&set.count_ones()));
        self.full_set += usize::from(set == system.full_set());
    }

    fn note_pairs(&mut self, system: &TransitionSystem, set: u16, marks: &[u8], pairs: usize) {
        let (starts, reached) = (starts(system, set), count(marks));
        self.no_start += usize::from(starts == 0);
        self.all_start += usize::from(starts == system.states);
        self.not_all_reached += usize::from(reached < system.states);
        self.none_added += usize::from(starts > 0 && starts < system.states && reached == starts);
        if starts < reached && reached == system.states {
            self.all_by_the_first += usize::from(pairs <= system.states);
            self.all_by_a_later += usize::from(pairs > system.states);
            self.in_the_middle += usize::from(!pairs.is_multiple_of(system.states));
        }
        self.order_tells += usize::from(pairs_by_number(system, set) != pairs);
        self.most_pairs = self.most_pairs.max(pairs);
    }

    /// Too few bytes for a set of the model, whatever it reaches.
    fn too_few(&mut self, asked: &Asked, set: u16, marks: &[u8], length: usize, fill: Fill) {
        let answer = self.ask(asked, u32::from(set), length, fill);
        assert_eq!(answer, Err(Refused::new(Reason::TooFewBytes, 0)), "{}", about(asked, set));
        self.enough_for_the_reached += usize::from(length >= count(marks));
    }

    /// A set that the model lacks, whatever is lent.
    fn too_large(&mut self, asked: &Asked, set: u32, length: usize, fill: Fill) {
        let answer = self.ask(asked, set, length, fill);
        assert_eq!(answer, Err(Refused::new(Reason::NoSuchSet, 0)), "{}", about(asked, set));
        self.both_10_and_11 += usize::from(length < asked.system.states);
    }

    /// A set holds exactly if no marked state is bad, and each state of a trace is marked.
    fn judged(&mut self, asked: &Asked, set: u16, marks: &[u8]) {
        let mut trace = [0; 128];
        let bad = marks.iter().zip(&asked.system.bad).any(|(mark, bad)| *mark == 1 && *bad);
        match calls::judge(&asked.text, u32::from(set), &mut trace).expect("a set of the model") {
            Verdict::Holds => {
                assert!(!bad, "{}", about(asked, set));
                self.held += 1;
            }
            Verdict::Broken { length } => {
                let marked = trace[..length].iter().all(|state| marks[usize::from(*state)] == 1);
                assert!(bad && marked, "{}", about(asked, set));
                self.broken += 1;
            }
        }
    }
}

/// The library's marks, which have to be those of the states that end a run.
fn marks(asked: &Asked, set: u16) -> Vec<u8> {
    let mut marks = vec![99; asked.system.states];
    let answer = calls::reached(&asked.text, u32::from(set), &mut marks);
    assert!(answer.is_ok(), "{}", about(asked, set));
    assert_eq!(marks, ends_of_runs(&asked.system, set), "library left; {}", about(asked, set));
    marks
}

/// What the request says of how many pairs are tried.
fn check_pairs(asked: &Asked, set: u16, marks: &[u8], pairs: usize) {
    let states = asked.system.states;
    let (starts, reached) = (starts(&asked.system, set), count(marks));
    let about = || format!("{pairs} pairs, {starts} start states, {reached} reached; {}", about(asked, set));
    if reached < states {
        assert_eq!(pairs, states * reached, "{}", about());
    }
    assert!(pairs >= reached - starts, "{}", about());
    if starts == states {
        assert_eq!(pairs, 0, "{}", about());
    }
    if set == 0 {
        assert!(pairs <= states, "{}", about());
    }
    assert!(pairs <= 16_384, "{}", about());
}

fn starts(system: &TransitionSystem, set: u16) -> usize {
    system.start_states(set).iter().filter(|start| **start).count()
}

fn count(marks: &[u8]) -> usize {
    marks.iter().filter(|mark| **mark == 1).count()
}

/// The states that end some run: the start states and, second by second, whatever follows them, until no state is added.
fn ends_of_runs(system: &TransitionSystem, set: u16) -> Vec<u8> {
    let mut ends = system.start_states(set);
    loop {
        let follows = |state| (0..system.states).any(|now| ends[now] && system.is_step(set, now, state));
        let one_second_later: Vec<bool> =
            (0..system.states).map(|state| ends[state] || follows(state)).collect();
        if one_second_later == ends {
            return ends.into_iter().map(u8::from).collect();
        }
        ends = one_second_later;
    }
}

/// How many pairs would be tried if of the marked states the smallest came first, and not the one that was marked first.
fn pairs_by_number(system: &TransitionSystem, set: u16) -> usize {
    let mut marks = system.start_states(set);
    let mut tried = vec![false; system.states];
    let mut pairs = 0;
    while let Some(first) = (0..system.states).find(|state| marks[*state] && !tried[*state]) {
        for second in 0..system.states {
            if !marks.contains(&false) {
                return pairs;
            }
            pairs += 1;
            marks[second] |= system.is_step(set, first, second);
        }
        tried[first] = true;
    }
    pairs
}

/// Each model is asked for weak sets, for strong ones and with each fault; then its text is damaged.
#[test]
fn random_models() {
    let mut random = Random::new(seed_for("reached, random models", 20_260_801));
    let mut seen = Seen::default();
    for turn in 0..3_000 {
        let (bits, rules) = (random.pick(&[1, 2, 2, 3, 3, 3, 4, 4, 4, 5, 6, 7]), random.between(1, 16));
        let asked = Asked::of(&model(&mut random, bits, rules));
        for (place, set) in sets(&mut random, rules).into_iter().enumerate() {
            let fill = Fill::ALL[(turn + place) % 3];
            let length = asked.system.states + random.pick(&[0, 0, 1, 7, 200]);
            let marks = seen.accepted(&asked, set, length, fill);
            seen.judged(&asked, set, &marks);
            let fewer = [asked.system.states - 1, random.below(asked.system.states), 0][turn % 3];
            seen.too_few(&asked, set, &marks, fewer, fill);
        }
        let first = 1 << rules;
        let set = random.pick(&[first, first + 1, 2 * first, 65_536, 1 << 31, u32::MAX]);
        let length = random.below(2 * asked.system.states);
        seen.too_large(&asked, set, length, Fill::ALL[turn % 3]);
        ask_damaged(&mut random, &mut seen, &asked.text, Fill::ALL[turn % 3]);
    }
    println!("reached, random models: {seen:?}");
    assert!(seen.tally.asked >= 5_000 && seen.tally.accepted() >= 10_000, "{seen:?}");
    // Numbers 12 and 13 are for lists and orders.
    for reason in Reason::ALL.into_iter().filter(|reason| reason.number() <= 11) {
        assert!(seen.tally.given(reason) >= 20, "number {}; {seen:?}", reason.number());
    }
    assert!(seen.tally.given(Reason::TooFewBytes) >= 5_000, "{seen:?}");
    assert!(seen.enough_for_the_reached >= 1_000 && seen.both_10_and_11 >= 1_000, "{seen:?}");
    assert!(seen.by_bits.iter().all(|times| *times >= 500), "{seen:?}");
    assert!(seen.no_rule >= 3_000 && seen.one_rule >= 3_000 && seen.few_rules >= 2_000, "{seen:?}");
    assert!(seen.full_set >= 3_000 && seen.no_start >= 500 && seen.all_start >= 100, "{seen:?}");
    assert!(seen.not_all_reached >= 3_000 && seen.none_added >= 1_000, "{seen:?}");
    assert!(seen.all_by_the_first >= 3_000 && seen.all_by_a_later >= 1_000, "{seen:?}");
    assert!(seen.in_the_middle >= 500 && seen.order_tells >= 100, "{seen:?}");
    assert!(seen.just_enough_lent >= 3_000 && seen.more_lent >= 3_000, "{seen:?}");
    assert!(seen.held >= 3_000 && seen.broken >= 3_000, "{seen:?}");
}

/// No rule, one, two or three, all of them, and any.
fn sets(random: &mut Random, rules: usize) -> [u16; 5] {
    let full_set = u16::MAX >> (16 - rules);
    let one = 1 << random.below(rules);
    let few = one | 1 << random.below(rules) | 1 << random.below(rules);
    [0, one, few, full_set, random_set(random) & full_set]
}

/// Whatever the damage has made of the text, both sides are asked the same.
fn ask_damaged(random: &mut Random, seen: &mut Seen, text: &[u8], fill: Fill) {
    let text = damaged(random, text);
    let read = text::read(&text).map(|model| TransitionSystem::of(&model));
    let set = random.pick(&[0, 0, 1, 65_536, u32::MAX]);
    let length = random.pick(&[0, 1, 128, 130]);
    let _ = seen.tally.reached(&text, read.as_ref().map_err(|refused| *refused), set, length, fill);
}

/// Seven bits and 16 rules, two models of each kind: no rule, each rule alone, and all of them.
#[test]
fn weak_sets_of_the_largest_models() {
    let mut random = Random::new(seed_for("reached, weak sets", 20_260_802));
    let mut seen = Seen::default();
    for turn in 0..12 {
        let asked = Asked::of(&model_of(&mut random, KINDS[turn % KINDS.len()], 7, 16));
        let alone = (0..16).map(|rule| 1 << rule);
        for set in [0, u16::MAX].into_iter().chain(alone) {
            seen.accepted(&asked, set, 128, Fill::ALL[turn % 3]);
        }
    }
    println!("reached, weak sets: {seen:?}");
    assert_eq!(seen.tally.accepted(), 12 * 18, "{seen:?}");
    assert!(
        seen.all_by_the_first >= 12 && seen.all_by_a_later >= 12 && seen.not_all_reached >= 50,
        "{seen:?}"
    );
}

/// A counter tries the most pairs that there are: each state but the last with every state.
#[test]
fn counters_of_every_size() {
    let mut seen = Seen::default();
    for bits in 1..=7 {
        let asked = Asked::of(&full_counter(bits));
        let states = asked.system.states;
        for fill in Fill::ALL {
            seen.accepted(&asked, asked.system.full_set(), states, fill);
        }
        assert_eq!(seen.most_pairs, (states - 1) * states, "{bits} bits");
    }
}

/// Two bits and 16 rules, each of which forbids one pair of states: so each relation of four states has its set.
#[test]
fn every_relation_of_four_states() {
    let mut seen = Seen::default();
    for starts in [&[0][..], &[3], &[1, 2], &[2, 3]] {
        let asked = Asked::of(&forbidding_each_pair(starts));
        for set in 0..=u16::MAX {
            seen.accepted(&asked, set, 4 + usize::from(set % 2), Fill::ALL[usize::from(set) % 3]);
        }
    }
    println!("every relation of four states: {seen:?}");
    assert_eq!(seen.tally.accepted(), 4 * 65_536, "{seen:?}");
    assert!(seen.all_by_the_first >= 10_000 && seen.all_by_a_later >= 10_000, "{seen:?}");
    assert!(seen.in_the_middle >= 10_000 && seen.order_tells >= 1_000, "{seen:?}");
    assert!(seen.not_all_reached >= 10_000 && seen.none_added >= 1_000, "{seen:?}");
}

fn forbidding_each_pair(starts: &[usize]) -> Written {
    let state = |state: usize, letter: fn(usize) -> String| {
        join('&', &[literal(letter(0), state & 1 == 1), literal(letter(1), state >> 1 == 1)])
    };
    let init = join('|', &starts.iter().map(|start| state(*start, now)).collect::<Vec<_>>());
    let forbidding = |pair: usize| format!("!&{}{}", state(pair / 4, now), state(pair % 4, later));
    let rules = (0..16).map(|pair| WrittenRule::new(format!("r{pair}"), forbidding(pair))).collect();
    Written { bits: 2, init, properties: vec!["1".to_string()], rules }
}
