//! Rules that nobody relies on: two proved facts, tried on random models with one to four properties, with start parts and
//! without. The library alone is asked, about a model and about the same model with rules left out or changed.

#![deny(warnings)]

use std::collections::BTreeMap;

use codremif_host::answer::Verdict;
use codremif_host::calls;
use codremif_host::compare::{demand_each, show};
use codremif_host::plain::expression::Place;
use codremif_host::random::generator::seed_for;
use codremif_host::random::models::model;
use codremif_host::random::properties::PropertyCounts;
use codremif_host::random::start_parts::StartPartCounts;
use codremif_host::random::written::{any_expression, Written, WrittenRule};
use codremif_host::random::Random;

/// Each fact is tried on so many models at least to which it applies and says something.
const APPLIED: usize = 5_000;

/// Where some rule is in a core, leaving out every irrelevant rule gives a model with the same cores by name; so it has the
/// same cuts, MUST and MAY, and no rule of it is irrelevant. The rules that stay keep their start parts.
#[test]
fn without_the_irrelevant_rules() {
    let mut random = Random::new(seed_for("without the irrelevant rules", 20_260_501));
    let mut seen = LeftOut::default();
    for _ in 0..20_000 {
        let written = random_model(&mut random);
        let before = Named::of(&written);
        seen.models += 1;
        if before.irrelevant.is_empty() || !before.has_a_rule_in_a_core() {
            continue;
        }
        seen.note(&before, &written);
        let text = written.text();
        let expected = Named { irrelevant: Vec::new(), ..before };
        let after = Named::of(&without(&written, calls::irrelevant(&text).expect("accepted before")));
        assert_eq!(after, expected, "left without the irrelevant rules, right with them; {}", show(&text));
    }
    println!("without the irrelevant rules: {seen:?}");
    assert!(seen.compared >= APPLIED, "{seen:?}");
    assert!(seen.several_left_out >= 1000 && seen.several_cores >= 1000, "{seen:?}");
    assert!(seen.all_kinds >= 300 && seen.many_cores >= 500, "{seen:?}");
    assert_eq!((seen.most_bits, seen.most_rules), (7, 16), "{seen:?}");
    assert!(seen.properties.fewest() >= 1000, "{seen:?}");
    assert!(seen.start_parts.fewest() >= 500 && seen.start_part_left_out >= 1000, "{seen:?}");
}

/// If the properties hold, they do so with any legal expression in place of the step part or the start part of one rule
/// outside MUST, and where this rule gets a start part that it had not, or loses its own. A rule of MUST shows that it need
/// not be so: with `1` for its step part and no start part some property is broken.
#[test]
fn another_expression_outside_must() {
    let mut random = Random::new(seed_for("another expression outside MUST", 20_260_502));
    let mut seen = Replaced::default();
    for _ in 0..20_000 {
        let written = random_model(&mut random);
        seen.models += 1;
        if !holds(&written) {
            seen.broken += 1;
            continue;
        }
        replace_outside_must(&mut random, &mut seen, &written);
        weaken_in_must(&mut random, &mut seen, &written);
    }
    println!("another expression outside MUST: {seen:?}");
    assert!(seen.in_may + seen.irrelevant_beside_core >= APPLIED, "{seen:?}");
    assert!(seen.in_may >= 2000 && seen.irrelevant_beside_core >= 1000, "{seen:?}");
    assert!(seen.in_must >= 1000, "{seen:?}");
    assert!(seen.shortest == 1 && seen.longest == 64, "{seen:?}");
    assert!(seen.properties.fewest() >= 1000, "{seen:?}");
    demand_each(&seen.parts, [Part::Step, Part::Start, Part::StartAdded, Part::StartTakenAway], 500);
}

/// Small ones mostly: a call's time grows with 4^N.
fn random_model(random: &mut Random) -> Written {
    let bits = random.pick(&[1, 2, 2, 2, 3, 3, 3, 3, 4, 4, 5]);
    if random.percent(2) {
        return model(random, 7, 16);
    }
    let rules = random.between(2, 12);
    model(random, bits, rules)
}

/// What the library says of a model, in names and in the order that it gives.
#[derive(Debug, PartialEq, Eq)]
struct Named {
    cores: Vec<Vec<String>>,
    cuts: Vec<Vec<String>>,
    must: Vec<String>,
    may: Vec<String>,
    irrelevant: Vec<String>,
}

impl Named {
    fn of(written: &Written) -> Named {
        let text = written.text();
        let names = |set| places(set, written).map(|place| written.rules[place].name.clone()).collect();
        let named = |sets: Vec<u16>| sets.into_iter().map(names).collect();
        Named {
            cores: named(calls::listed(calls::cores, &text).expect("an accepted model")),
            cuts: named(calls::listed(calls::cuts, &text).expect("an accepted model")),
            must: names(calls::must(&text).expect("an accepted model")),
            may: names(calls::may(&text).expect("an accepted model")),
            irrelevant: names(calls::irrelevant(&text).expect("an accepted model")),
        }
    }

    fn has_a_rule_in_a_core(&self) -> bool {
        self.cores.iter().any(|core| !core.is_empty())
    }
}

fn places(set: u16, written: &Written) -> impl Iterator<Item = usize> {
    (0..written.rules.len()).filter(move |place| set >> place & 1 == 1)
}

fn full_set(written: &Written) -> u16 {
    u16::MAX >> (16 - written.rules.len())
}

/// The other rules stay as they are and in their order.
fn without(written: &Written, set: u16) -> Written {
    let kept = places(full_set(written) & !set, written).map(|place| written.rules[place].clone());
    Written { rules: kept.collect(), ..written.clone() }
}

/// The other rules stay as they are.
fn with_rule(written: &Written, place: usize, rule: WrittenRule) -> Written {
    let mut changed = written.clone();
    changed.rules[place] = rule;
    changed
}

fn holds(written: &Written) -> bool {
    let verdict = calls::judge(&written.text(), u32::from(full_set(written)), &mut [0; 128]);
    verdict.expect("an accepted model") == Verdict::Holds
}

/// Which part of a rule is another one afterwards.
#[derive(Clone, Copy, Debug, PartialEq, Eq, PartialOrd, Ord)]
enum Part {
    Step,
    Start,
    StartAdded,
    StartTakenAway,
}

/// The rule with another expression than before, and which of its parts that is.
fn another_rule(random: &mut Random, bits: usize, rule: &WrittenRule) -> (Part, WrittenRule) {
    let mut other = rule.clone();
    let part = match &rule.start {
        _ if random.percent(40) => Part::Step,
        None => Part::StartAdded,
        Some(_) if random.percent(60) => Part::Start,
        Some(_) => Part::StartTakenAway,
    };
    while other == *rule {
        match part {
            Part::Step => other.step = any_expression(random, bits, Place::Step),
            Part::Start | Part::StartAdded => other.start = Some(any_expression(random, bits, Place::State)),
            Part::StartTakenAway => other.start = None,
        }
    }
    (part, other)
}

fn replace_outside_must(random: &mut Random, seen: &mut Replaced, written: &Written) {
    let text = written.text();
    let must = calls::must(&text).expect("accepted before");
    let outside: Vec<usize> = places(full_set(written) & !must, written).collect();
    if outside.is_empty() {
        seen.nothing_outside += 1;
        return;
    }
    let place = random.pick(&outside);
    let (part, other) = another_rule(random, written.bits, &written.rules[place]);
    seen.note(&text, must, place, part, &other);
    seen.properties.note(written.properties.len());
    let changed = with_rule(written, place, other);
    assert!(holds(&changed), "held with {:?} before; {}", written.rules[place], show(&changed.text()));
}

fn weaken_in_must(random: &mut Random, seen: &mut Replaced, written: &Written) {
    let must = calls::must(&written.text()).expect("accepted before");
    let inside: Vec<usize> = places(must, written).collect();
    if inside.is_empty() {
        return;
    }
    seen.in_must += 1;
    let place = random.pick(&inside);
    let says_nothing = WrittenRule::new(written.rules[place].name.clone(), "1".to_string());
    let changed = with_rule(written, place, says_nothing);
    assert!(!holds(&changed), "a rule of MUST gone, and it holds; {}", show(&changed.text()));
}

/// What came up, so that the test can demand that everything did.
#[derive(Debug, Default)]
struct LeftOut {
    models: usize,
    compared: usize,
    properties: PropertyCounts,
    start_parts: StartPartCounts,
    /// A rule that is left out has a start part.
    start_part_left_out: usize,
    several_left_out: usize,
    several_cores: usize,
    many_cores: usize,
    all_kinds: usize,
    most_bits: usize,
    most_rules: usize,
}

impl LeftOut {
    fn note(&mut self, named: &Named, written: &Written) {
        let is_left_out = |rule: &WrittenRule| named.irrelevant.contains(&rule.name);
        let left_out = written.rules.iter().filter(|rule| is_left_out(rule));
        self.compared += 1;
        self.properties.note(written.properties.len());
        self.start_parts.note(written);
        self.start_part_left_out += usize::from(left_out.into_iter().any(|rule| rule.start.is_some()));
        self.several_left_out += usize::from(named.irrelevant.len() >= 2);
        self.several_cores += usize::from(named.cores.len() >= 2);
        self.many_cores += usize::from(named.cores.len() >= 10);
        self.all_kinds += usize::from(!named.must.is_empty() && !named.may.is_empty());
        self.most_bits = self.most_bits.max(written.bits);
        self.most_rules = self.most_rules.max(written.rules.len());
    }
}

/// The same. Where set 0 holds, every rule is irrelevant and the fact says little: such models are counted apart.
#[derive(Debug, Default)]
struct Replaced {
    models: usize,
    properties: PropertyCounts,
    broken: usize,
    nothing_outside: usize,
    in_may: usize,
    irrelevant_beside_core: usize,
    empty_core: usize,
    in_must: usize,
    /// Where the rule was in MAY, or irrelevant beside a core.
    parts: BTreeMap<Part, usize>,
    shortest: usize,
    longest: usize,
}

impl Replaced {
    fn note(&mut self, text: &[u8], must: u16, place: usize, part: Part, other: &WrittenRule) {
        let may = calls::may(text).expect("accepted before");
        match (may >> place & 1 == 1, must | may) {
            (true, _) => self.in_may += 1,
            (false, 0) => self.empty_core += 1,
            (false, _) => self.irrelevant_beside_core += 1,
        }
        *self.parts.entry(part).or_default() += usize::from(must | may != 0);
        let length = match part {
            Part::Step => other.step.len(),
            _ => other.start.as_ref().map_or(1, String::len),
        };
        self.longest = self.longest.max(length);
        if self.shortest == 0 || length < self.shortest {
            self.shortest = length;
        }
    }
}
