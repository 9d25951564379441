//! Several properties together: proved facts about what is said of them jointly and by each alone, tried on random models. By
//! a property means: of the text that has this property line and no other. The library and the plain search are each held to
//! the facts by what they say themselves.

#![deny(warnings)]

use codremif_host::answer::Blame;
use codremif_host::calls;
use codremif_host::compare::show;
use codremif_host::everything::{self, reached, Everything};
use codremif_host::plain::answers::Answers;
use codremif_host::plain::sets::minimal;
use codremif_host::plain::trace::trace;
use codremif_host::random::generator::seed_for;
use codremif_host::random::lists::random_set;
use codremif_host::random::logs::states;
use codremif_host::random::models::{model, model_of, Kind};
use codremif_host::random::orders::order;
use codremif_host::random::properties::{with_several_properties, PropertyCounts};
use codremif_host::random::written::{join, Written};
use codremif_host::random::Random;

/// One of the two that answer for a text.
trait Side {
    fn of(text: &[u8]) -> Self;

    /// The trace of a set; none if it holds.
    fn trace(&self, set: u16) -> Option<Vec<u8>>;

    fn cores(&self) -> Vec<u16>;
}

struct Library {
    text: Vec<u8>,
}

impl Side for Library {
    fn of(text: &[u8]) -> Library {
        Library { text: text.to_vec() }
    }

    fn trace(&self, set: u16) -> Option<Vec<u8>> {
        everything::trace(&self.text, set)
    }

    fn cores(&self) -> Vec<u16> {
        calls::listed(calls::cores, &self.text).expect("an accepted model")
    }
}

impl Side for Answers {
    fn of(text: &[u8]) -> Answers {
        Answers::of(text).expect("an accepted model")
    }

    fn trace(&self, set: u16) -> Option<Vec<u8>> {
        trace(&self.system, set)
    }

    fn cores(&self) -> Vec<u16> {
        self.cores.clone()
    }
}

#[test]
fn jointly_and_by_each_by_the_library() {
    let mut random = Random::new(seed_for("jointly and by each, library", 20_260_701));
    let mut seen = Seen::default();
    for turn in 0..12_000 {
        let written = if turn % 100 == 0 { model(&mut random, 7, 16) } else { small_model(&mut random) };
        compare::<Library>(&mut random, &mut seen, &written);
    }
    println!("jointly and by each, library: {seen:?}");
    seen.demand(1500);
}

#[test]
fn jointly_and_by_each_by_the_plain_search() {
    let mut random = Random::new(seed_for("jointly and by each, plain search", 20_260_702));
    let mut seen = Seen::default();
    for _ in 0..8_000 {
        let written = small_model(&mut random);
        compare::<Answers>(&mut random, &mut seen, &written);
    }
    println!("jointly and by each, plain search: {seen:?}");
    seen.demand(1000);
}

/// A small one, since a call's time grows with 4^N. In some of them each property has rules of its own, so that a joint core
/// is made up of several.
fn small_model(random: &mut Random) -> Written {
    let (bits, rules) = (random.pick(&[1, 2, 2, 3, 3, 3, 4, 4, 5]), random.between(1, 8));
    if random.percent(75) {
        return model(random, bits, rules);
    }
    let mut written = model_of(random, Kind::Alternatives, bits, rules);
    let count = random.between(2, 4);
    with_several_properties(random, &mut written, count);
    written
}

fn full_set(written: &Written) -> u16 {
    u16::MAX >> (16 - written.rules.len())
}

/// Jointly a set holds exactly if it holds by each property. The joint trace is the first of those by each, shorter ones
/// first, and of those of one length the one with the smaller state where they first differ. The joint cores are the unions
/// of one core by each property that have no other such union as a proper part.
fn compare<S: Side>(random: &mut Random, seen: &mut Seen, written: &Written) {
    let text = written.text();
    let joint = S::of(&text);
    let by_each: Vec<S> = written.by_property().iter().map(|alone| S::of(&alone.text())).collect();
    seen.properties.note(by_each.len());
    let full_set = full_set(written);
    for set in [0, full_set, random_set(random) & full_set, random_set(random) & full_set] {
        let traces: Vec<Option<Vec<u8>>> = by_each.iter().map(|alone| alone.trace(set)).collect();
        let first = traces.iter().flatten().min_by_key(|run| (run.len(), run.to_vec())).cloned();
        let trace = joint.trace(set);
        let all_hold = traces.iter().all(Option::is_none);
        assert_eq!(trace.is_none(), all_hold, "verdict, joint left; set {set}; {}", show(&text));
        assert_eq!(trace, first, "trace, joint left; set {set}; {}", show(&text));
        seen.note_traces(&traces, &first);
    }
    let cores: Vec<Vec<u16>> = by_each.iter().map(S::cores).collect();
    let unions = unions(full_set, &cores);
    let expected = minimal(full_set, |set| unions[usize::from(set)]);
    assert_eq!(joint.cores(), expected, "cores, joint left, unions right; {}", show(&text));
    seen.note_cores(&cores, &unions, &expected);
}

/// Which sets are a union of one core from each list.
fn unions(full_set: u16, lists: &[Vec<u16>]) -> Vec<bool> {
    let mut unions = vec![false; usize::from(full_set) + 1];
    unions[0] = true;
    for list in lists {
        let mut more = vec![false; unions.len()];
        for (union, _) in unions.iter().enumerate().filter(|(_, is_union)| **is_union) {
            for core in list {
                more[union | usize::from(*core)] = true;
            }
        }
        unions = more;
    }
    unions
}

/// What came up, so that a test can demand that everything did.
#[derive(Debug, Default)]
struct Seen {
    properties: PropertyCounts,
    sets_held: usize,
    /// By one property and not by another.
    mixed_verdicts: usize,
    /// The joint trace is not that of the first property, though this is broken too.
    later_trace: usize,
    /// Of these, the joint trace is shorter, or as long with a smaller state.
    shorter_trace: usize,
    smaller_trace: usize,
    /// Two properties have cores, and not the same ones.
    unlike_cores: usize,
    /// A union is no core, since another is a proper part of it.
    union_above: usize,
    /// No joint core, though some property has one.
    no_union: usize,
    /// A joint core that no property has.
    new_core: usize,
    most_cores: usize,
}

impl Seen {
    fn note_traces(&mut self, traces: &[Option<Vec<u8>>], first: &Option<Vec<u8>>) {
        self.sets_held += usize::from(first.is_none());
        self.mixed_verdicts += usize::from(first.is_some() && traces.contains(&None));
        if let (Some(of_first), Some(first)) = (&traces[0], first) {
            self.later_trace += usize::from(of_first != first);
            self.shorter_trace += usize::from(of_first.len() > first.len());
            self.smaller_trace += usize::from(of_first.len() == first.len() && of_first != first);
        }
    }

    fn note_cores(&mut self, cores: &[Vec<u16>], unions: &[bool], joint: &[u16]) {
        let some: Vec<&Vec<u16>> = cores.iter().filter(|list| !list.is_empty()).collect();
        self.unlike_cores += usize::from(some.iter().any(|list| *list != some[0]));
        self.union_above += usize::from(unions.iter().filter(|is_union| **is_union).count() > joint.len());
        self.no_union += usize::from(joint.is_empty() && !some.is_empty());
        self.new_core += usize::from(joint.iter().any(|core| !cores.iter().any(|list| list.contains(core))));
        self.most_cores = self.most_cores.max(joint.len());
    }

    fn demand(&self, times: usize) {
        assert!(self.properties.fewest() >= times, "{self:?}");
        assert!(
            self.sets_held >= times && self.mixed_verdicts >= times && self.later_trace >= times,
            "{self:?}"
        );
        assert!(self.shorter_trace >= times / 2 && self.smaller_trace >= times / 2, "{self:?}");
        assert!(self.unlike_cores >= times && self.union_above >= times / 4, "{self:?}");
        assert!(
            self.no_union >= times / 4 && self.new_core >= times / 5 && self.most_cores >= 10,
            "{self:?}"
        );
    }
}

/// Which states are reached does not depend on the properties, and neither do the pairs that are tried.
#[test]
fn the_same_states_reached_by_each_property() {
    let mut random = Random::new(seed_for("reached by each property", 20_260_704));
    let mut properties = PropertyCounts::default();
    for _ in 0..5_000 {
        let written = small_model(&mut random);
        let set = random_set(&mut random) & full_set(&written);
        let joint = reached(&written.text(), set);
        for alone in written.by_property() {
            assert_eq!(reached(&alone.text(), set), joint, "set {set}; {}", show(&written.text()));
        }
        properties.note(written.properties.len());
    }
    println!("reached by each property: {properties:?}");
    assert!(properties.fewest() >= 500, "{properties:?}");
}

/// The rules that are broken in a log do not depend on the properties, and the first breach is the first of those by each.
#[test]
fn blame_by_each_property() {
    let mut random = Random::new(seed_for("blame by each property", 20_260_705));
    let mut properties = PropertyCounts::default();
    let (mut logs, mut breaches, mut by_another) = (0, 0, 0);
    while logs < 5_000 {
        let written = small_model(&mut random);
        let length = random.between(1, 20);
        let log = states(&mut random, &written, length);
        let Ok(joint) = calls::blame(&written.text(), &log) else { continue };
        let by_each: Vec<Blame> = (written.by_property().iter())
            .map(|alone| calls::blame(&alone.text(), &log).expect("the same rules and `init`"))
            .collect();
        let about = || format!("log {log:?}; {}", show(&written.text()));
        assert!(by_each.iter().all(|alone| alone.broken == joint.broken), "{by_each:?}; {}", about());
        let first = by_each.iter().map(|alone| alone.breach.place()).min().expect("a property");
        assert_eq!(joint.breach.place(), first, "joint left; {}", about());
        properties.note(written.properties.len());
        logs += 1;
        breaches += usize::from(first < length);
        by_another += usize::from(first < by_each[0].breach.place());
    }
    println!(
        "blame by each property: {breaches} breaches, {by_another} by another than the first, {properties:?}"
    );
    assert!(properties.fewest() >= 500 && breaches >= 2_000 && by_another >= 500, "{properties:?}");
}

/// The library says the same of other texts that mean the same: with one property that is the conjunction, with the
/// properties in another order, and with one of them again.
#[test]
fn the_same_in_other_words() {
    let mut random = Random::new(seed_for("the same in other words", 20_260_703));
    let (mut conjunctions, mut orders, mut repeats) = (0, 0, 0);
    while conjunctions + orders + repeats < 12_000 {
        let written = small_model(&mut random);
        let sets = [0, full_set(&written), random_set(&mut random) & full_set(&written)];
        let order = order(&mut random, written.rules.len());
        let log = states(&mut random, &written, 8);
        let said = Everything::of(&written.text(), &sets, &order, &log);
        for (count, properties) in [
            (&mut conjunctions, vec![join('&', &written.properties)]),
            (&mut orders, written.properties.iter().rev().cloned().collect()),
            (&mut repeats, [&written.properties[..], &written.properties[..1]].concat()),
        ] {
            let is_model = properties.len() <= 4 && properties.iter().all(|property| property.len() <= 64);
            if is_model && properties != written.properties {
                let other = written.with_properties(properties).text();
                let of_other = Everything::of(&other, &sets, &order, &log);
                assert_eq!(of_other, said, "{}; {}", show(&other), show(&written.text()));
                *count += 1;
            }
        }
    }
    println!("the same in other words: {conjunctions} conjunctions, {orders} orders, {repeats} repeats");
    assert!(conjunctions >= 2000 && orders >= 2000 && repeats >= 2000);
}
