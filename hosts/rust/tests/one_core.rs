//! One core in the caller's order: the library against the plain search, on random models with orders and with bytes that are
//! none. What the request says of it is tried with the library's own lists: every order finds a core, and each core is found
//! by some order.

#![deny(warnings)]

use std::collections::{BTreeMap, BTreeSet};

use codremif_host::answer::{OneCore, Reason, Refused};
use codremif_host::calls;
use codremif_host::compare::{demand_each, show, Asked, Tally};
use codremif_host::handed::Guarded;
use codremif_host::lent::Fill;
use codremif_host::plain::one_core::order_for;
use codremif_host::plain::system::TransitionSystem;
use codremif_host::plain::text;
use codremif_host::random::damage::damaged;
use codremif_host::random::generator::seed_for;
use codremif_host::random::models::model;
use codremif_host::random::orders::{order, with_fault, Fault};
use codremif_host::random::properties::PropertyCounts;
use codremif_host::random::written::{join, later, literal, Written, WrittenRule};
use codremif_host::random::Random;

/// What came up, so that a test can demand that everything did.
#[derive(Debug, Default)]
struct Seen {
    tally: Tally,
    /// Accepted calls by the number of rules, the first is for one.
    by_rules: [usize; 16],
    properties: PropertyCounts,
    no_core: usize,
    found: usize,
    found_set_0: usize,
    /// The full set itself is the core that is found.
    nothing_dropped: usize,
    /// Found after some rule was kept and a later one dropped.
    dropped_after_kept: usize,
    faults: BTreeMap<Fault, usize>,
    /// Refused by 13, though the full set is broken and no order would find a core.
    fault_beside_no_core: usize,
    /// What number is given to a damaged text beside bytes that are no order for any model: 13 only if the text is accepted.
    beside_damaged: BTreeMap<u8, usize>,
    /// Models of which two orders have found different cores.
    order_tells: usize,
}

fn about(asked: &Asked, order: &[u8]) -> String {
    format!("order {order:?}; {}", show(&asked.text))
}

impl Seen {
    /// The core that an order finds; none if there is no core.
    fn accepted(&mut self, asked: &Asked, order: &[u8], fill: Fill) -> Option<u16> {
        let guarded = Guarded::new(order, fill);
        let answer = self.tally.one_core(&asked.text, Ok(&asked.system), &guarded, fill);
        let rules = asked.system.rules;
        self.by_rules[rules - 1] += 1;
        match answer.unwrap_or_else(|refused| panic!("{refused}; {}", about(asked, order))) {
            OneCore::NoCore { judgements } => {
                assert_eq!(judgements, 1, "{}", about(asked, order));
                self.no_core += 1;
                None
            }
            OneCore::Found { core, judgements } => {
                assert_eq!(judgements, rules + 1, "{}", about(asked, order));
                self.note_found(&asked.system, order, core);
                Some(core)
            }
        }
    }

    fn note_found(&mut self, system: &TransitionSystem, order: &[u8], core: u16) {
        let is_kept = |place: &u8| core >> place & 1 == 1;
        let mut from_first_kept = order.iter().skip_while(|place| !is_kept(place));
        self.found += 1;
        self.found_set_0 += usize::from(core == 0);
        self.nothing_dropped += usize::from(core == system.full_set());
        self.dropped_after_kept += usize::from(from_first_kept.any(|place| !is_kept(place)));
    }

    fn refused(&mut self, random: &mut Random, asked: &Asked, fault: Fault, fill: Fill) {
        let guarded = with_fault(random, asked.system.rules, fault, fill);
        let answer = self.tally.one_core(&asked.text, Ok(&asked.system), &guarded, fill);
        let not_an_order = Err(Refused::new(Reason::NotAnOrder, 0));
        assert_eq!(answer, not_an_order, "{fault:?}; {}", about(asked, guarded.bytes()));
        *self.faults.entry(fault).or_default() += 1;
        self.fault_beside_no_core += usize::from(!asked.system.holds(asked.system.full_set()));
    }

    /// Whatever the damage has made of the text, both sides are asked the same, with an order for the text as it was and with
    /// bytes that are no order for any.
    fn damaged(&mut self, random: &mut Random, text: &[u8], rules: usize, fill: Fill) {
        let text = damaged(random, text);
        let read = text::read(&text).map(|model| TransitionSystem::of(&model));
        let system = read.as_ref().map_err(|refused| *refused);
        let order = Guarded::new(&order(random, rules), fill);
        let _ = self.tally.one_core(&text, system, &order, fill);
        let none = random.pick(&[&[][..], &[0, 0], &[16], &[255; 3], &[0; 17]]);
        let answer = self.tally.one_core(&text, system, &Guarded::new(none, fill), fill);
        let number = answer.expect_err("bytes that are no order").reason.number();
        *self.beside_damaged.entry(number).or_default() += 1;
    }
}

/// Each model is asked with orders and with every fault; then its text is damaged.
#[test]
fn random_models() {
    let mut random = Random::new(seed_for("one core, random models", 20_260_901));
    let mut seen = Seen::default();
    for turn in 0..4_000 {
        let (bits, rules) = (random.pick(&[1, 2, 2, 3, 3, 3, 4, 4, 4, 5, 6, 7]), turn % 16 + 1);
        let written = model(&mut random, bits, rules);
        let asked = Asked::of(&written);
        let fill = Fill::ALL[turn % 3];
        let orders = orders(&mut random, rules);
        let found: BTreeSet<_> = orders.iter().map(|order| seen.accepted(&asked, order, fill)).collect();
        seen.order_tells += usize::from(found.len() > 1);
        for fault in Fault::ALL.into_iter().filter(|fault| fault.can_be(rules)) {
            seen.refused(&mut random, &asked, fault, fill);
        }
        seen.damaged(&mut random, &asked.text, rules, fill);
        seen.properties.note(written.properties.len());
    }
    println!("one core, random models: {seen:?}");
    demand_of_random_models(&seen);
}

/// The first rule first, the last rule first, and any.
fn orders(random: &mut Random, rules: usize) -> Vec<Vec<u8>> {
    let places = 0..rules as u8;
    let mut orders = vec![places.clone().collect(), places.rev().collect()];
    orders.extend((0..3).map(|_| order(random, rules)));
    orders
}

fn demand_of_random_models(seen: &Seen) {
    assert!(seen.tally.asked >= 40_000 && seen.tally.accepted() >= 20_000, "{seen:?}");
    assert!(seen.found >= 10_000 && seen.no_core >= 2_000, "{seen:?}");
    assert!(seen.found_set_0 >= 1_000 && seen.nothing_dropped >= 200, "{seen:?}");
    assert!(seen.dropped_after_kept >= 3_000 && seen.order_tells >= 500, "{seen:?}");
    assert!(seen.by_rules.iter().all(|times| *times >= 1_000), "{seen:?}");
    assert!(seen.properties.fewest() >= 500, "{seen:?}");
    demand_each(&seen.faults, Fault::ALL, 3_000);
    assert!(seen.fault_beside_no_core >= 3_000, "{seen:?}");
    // The numbers of a text come before that of an order.
    demand_each(&seen.beside_damaged, (1..=9).chain([13]), 20);
}

/// Where the full set holds, every order finds a core of the library's list, and all orders together find all of them.
#[test]
fn every_order_of_few_rules() {
    let mut random = Random::new(seed_for("every order", 20_260_902));
    let mut seen = Seen::default();
    let (mut lists, mut several) = (0, 0);
    for rules in 1..=6 {
        let orders = every_order(rules);
        for turn in 0..if rules == 6 { 60 } else { 400 } {
            let bits = random.pick(&[1, 2, 2, 3, 3, 3, 4]);
            let written = model(&mut random, bits, rules);
            let asked = Asked::of(&written);
            let cores = calls::listed(calls::cores, &asked.text).expect("an accepted model");
            let fill = Fill::ALL[turn % 3];
            let found: BTreeSet<u16> =
                orders.iter().filter_map(|order| seen.accepted(&asked, order, fill)).collect();
            let listed: BTreeSet<u16> = cores.iter().copied().collect();
            assert_eq!(found, listed, "found by the orders left, listed right; {}", show(&asked.text));
            lists += usize::from(!cores.is_empty());
            several += usize::from(cores.len() > 1);
            seen.properties.note(written.properties.len());
        }
    }
    println!("every order, {lists} models with a core, {several} with several: {seen:?}");
    assert!(lists >= 1_000 && several >= 200 && seen.found >= 50_000, "{lists}, {several}, {seen:?}");
    assert!(seen.properties.fewest() >= 300 && seen.no_core >= 5_000, "{seen:?}");
}

/// Every order of so many places: each place put at each place of the orders without it.
fn every_order(rules: usize) -> Vec<Vec<u8>> {
    let mut orders = vec![Vec::new()];
    for place in 0..rules as u8 {
        let with = |order: &Vec<u8>, at: usize| [&order[..at], &[place], &order[at..]].concat();
        orders = orders.iter().flat_map(|order| (0..=order.len()).map(move |at| with(order, at))).collect();
    }
    orders
}

/// Each core of the library's list is found by the order that has the rules outside it first, whatever the order of these and
/// of the rules in it is.
#[test]
fn each_core_by_its_order() {
    let mut random = Random::new(seed_for("each core by its order", 20_260_903));
    let (mut cores_found, mut most_rules, mut many_cores) = (0, 0, 0);
    for turn in 0..2_000 {
        let (bits, rules) = (random.pick(&[1, 2, 3, 3, 4, 4, 5]), turn % 16 + 1);
        let text = model(&mut random, bits, rules).text();
        let mut cores = calls::listed(calls::cores, &text).expect("an accepted model");
        many_cores += usize::from(cores.len() >= 10);
        random.shuffle(&mut cores);
        for core in cores.into_iter().take(20) {
            let mut order = order_for(core, rules);
            let expected = Ok(OneCore::Found { core, judgements: rules + 1 });
            for _ in 0..2 {
                assert_eq!(calls::one_core(&text, &order), expected, "order {order:?}; {}", show(&text));
                let (outside, inside) = order.split_at_mut(rules - core.count_ones() as usize);
                random.shuffle(outside);
                random.shuffle(inside);
            }
            cores_found += 1;
            most_rules += usize::from(rules == 16 && core != 0);
        }
    }
    println!(
        "each core by its order: {cores_found} cores, {most_rules} of 16 rules, {many_cores} long lists"
    );
    assert!(cores_found >= 5_000 && most_rules >= 300 && many_cores >= 100);
}

/// The rule that is first in the order is kept only if every core has it, so exactly if it is in MUST. What is found has all of
/// MUST and no irrelevant rule.
#[test]
fn beside_the_kinds_of_rules() {
    let mut random = Random::new(seed_for("one core beside the kinds", 20_260_904));
    let (mut asked, mut first_kept, mut last_kept) = (0, 0, 0);
    while asked < 10_000 {
        let (bits, rules) = (random.pick(&[1, 2, 3, 3, 4]), random.between(2, 16));
        let text = model(&mut random, bits, rules).text();
        let order = order(&mut random, rules);
        let must = calls::must(&text).expect("an accepted model");
        let irrelevant = calls::irrelevant(&text).expect("an accepted model");
        let OneCore::Found { core, .. } = calls::one_core(&text, &order).expect("an order") else { continue };
        let (first, last) = (1 << order[0], 1 << order[rules - 1]);
        let about = || format!("core {core}, MUST {must}, order {order:?}; {}", show(&text));
        assert_eq!((core & must, core & irrelevant), (must, 0), "{}", about());
        assert_eq!(core & first, must & first, "{}", about());
        asked += 1;
        first_kept += usize::from(core & first != 0);
        last_kept += usize::from(core & last != 0 && must & last == 0);
    }
    println!("one core beside the kinds: {first_kept} kept the first, {last_kept} the last outside MUST");
    assert!(first_kept >= 300 && last_kept >= 1_000);
}

/// Eight bad states, and two rules that keep the unit out of each: the dearer of the two is kept.
#[test]
fn the_dearer_of_two() {
    let mut random = Random::new(seed_for("the dearer of two", 20_260_905));
    let mut seen = Seen::default();
    let mut found = BTreeSet::new();
    let asked = &Asked::of(&eight_pairs());
    for turn in 0..5_000 {
        let order = order(&mut random, 16);
        let core = seen.accepted(asked, &order, Fill::ALL[turn % 3]).expect("a core");
        let later_of = |pair: u8| order.iter().rfind(|place| **place / 2 == pair).expect("each place once");
        let dearer = (0..8).fold(0, |set, pair| set | 1 << later_of(pair));
        assert_eq!(core, dearer, "found left; {}", about(asked, &order));
        found.insert(core);
    }
    assert_eq!(found.len(), 256, "each choice comes up");
}

/// Rules 2k and 2k + 1 forbid the k-th of the states that have `d`, which are the bad ones.
fn eight_pairs() -> Written {
    let state = |number: usize| {
        let bits: Vec<String> = (0..4).map(|bit| literal(later(bit), number >> bit & 1 == 1)).collect();
        join('&', &bits)
    };
    let forbidding = |rule: usize| format!("!{}", state(8 + rule / 2));
    let rules = (0..16).map(|rule| WrittenRule::new(format!("r{rule}"), forbidding(rule))).collect();
    Written { bits: 4, init: "!d".to_string(), properties: vec!["!d".to_string()], rules }
}
