//! Texts that are not models: the number and the line of the library against those of the plain reader, in all calls, and
//! no lent byte changed.

#![deny(warnings)]

use std::collections::BTreeMap;

use codremif_host::answer::{Reason, Refused};
use codremif_host::calls;
use codremif_host::compare::{show, Tally};
use codremif_host::lent::{Fill, Lent};
use codremif_host::plain::answers::Answers;
use codremif_host::plain::expression::{self, Place};
use codremif_host::plain::system::TransitionSystem;
use codremif_host::plain::text::{self, Model};
use codremif_host::random::damage::damaged;
use codremif_host::random::generator::seed_for;
use codremif_host::random::properties::PropertyCounts;
use codremif_host::random::{models, Random};

const TREMOR: &[u8] = b"vars=3\nrules=3\ninit=!c\nprop=>c&ab\nrule=ra:>CA\nrule=rb:>CB\nrule=vote:>C&AB\n";

/// Four properties, and two rules that keep them.
const FOUR: &[u8] =
    b"vars=3\nrules=2\ninit=!|a|bc\nprop=!a\nprop=!&bc\nprop=>ba\nprop=|!cb\nrule=one:!A\nrule=two:!|BC\n";

/// Three rules, two of them with a start part.
const STARTS: &[u8] =
    b"vars=2\nrules=3\ninit=1\nprop=!b\nrule=off:>Ba:&!a!b\nrule=low:=Aa:!a\nrule=keep:=B|ab\n";

/// How many texts were compared, and how many of them met each number (number 0: accepted).
#[derive(Debug, Default)]
struct Seen {
    texts: usize,
    by_number: [usize; 16],
    /// Number 9, by its line.
    bytes_follow: [usize; 26],
    faults: BTreeMap<Fault, usize>,
    /// The texts that were still accepted and compared in full.
    in_full: PropertyCounts,
    tally: Tally,
}

impl Seen {
    fn note(&mut self, refused: Refused) {
        self.by_number[usize::from(refused.reason.number())] += 1;
        if refused.reason == Reason::BytesFollow {
            self.bytes_follow[usize::from(refused.line)] += 1;
        }
    }

    fn times(&self, fault: Fault) -> usize {
        self.faults.get(&fault).copied().unwrap_or(0)
    }
}

/// What the refusal of a text has to do with its property lines and its start parts. The first line is 1.
#[derive(Clone, Copy, Debug, PartialEq, Eq, PartialOrd, Ord)]
enum Fault {
    /// Line 4 has another key.
    Missing,
    /// One stands where an earlier line is due.
    BeforeInit,
    /// The text ends in one.
    WithoutEnd { line: u8 },
    /// Its expression is refused by 5, 6, 7 or 8.
    Expression { line: u8, number: u8 },
    /// After four of them there is one more.
    Fifth,
    /// One stands after a rule line, where the next is due.
    BetweenRules,
    /// One stands after the last rule line.
    AfterTheRules,
    /// The start part of a rule is refused by 5, 6, 7 or 8.
    StartPart { number: u8 },
    /// The same by 6, and it has a `:`.
    ThirdColon,
    /// The step part of a rule is refused by 5, 6, 7 or 8, before its start part is looked at.
    BeforeStartPart { number: u8 },
}

impl Fault {
    fn of(text: &[u8], Refused { reason, line }: Refused) -> Option<Fault> {
        let lines: Vec<&[u8]> = text.split_inclusive(|byte| *byte == 10).take(usize::from(line)).collect();
        let refused = lines.get(usize::from(line) - 1)?;
        let ended = refused.ends_with(b"\n");
        if refused.starts_with(b"rule=") && (5..=8).contains(&reason.number()) {
            return Fault::of_parts(usize::from(text[5] - b'0'), refused, reason);
        }
        if !refused.starts_with(b"prop=") {
            return (reason == Reason::LineDue && line == 4 && ended).then_some(Fault::Missing);
        }
        match (reason, line) {
            (Reason::LineDue, 1..=3) => Some(Fault::BeforeInit),
            (Reason::LineDue, 4..=7) if !ended => Some(Fault::WithoutEnd { line }),
            (Reason::LineDue, _) if lines[usize::from(line) - 2].starts_with(b"rule=") => {
                Some(Fault::BetweenRules)
            }
            (Reason::LineDue, 8) => Some(Fault::Fifth),
            (Reason::BytesFollow, _) => Some(Fault::AfterTheRules),
            (_, 4..=7) => Some(Fault::Expression { line, number: reason.number() }),
            _ => panic!("a property line that is refused like no other: {reason:?}, {line}; {}", show(text)),
        }
    }

    /// Of a rule line that has a start part and is refused by 5, 6, 7 or 8.
    fn of_parts(bits: usize, line: &[u8], reason: Reason) -> Option<Fault> {
        let mut parts = line.splitn(3, |byte| *byte == b':').skip(1);
        let (step, start) = (parts.next()?, parts.next()?);
        let number = reason.number();
        Some(match expression::read(step, bits, Place::Step) {
            Err(_) => Fault::BeforeStartPart { number },
            Ok(_) if reason == Reason::Byte && start.contains(&b':') => Fault::ThirdColon,
            Ok(_) => Fault::StartPart { number },
        })
    }

    fn every() -> Vec<Fault> {
        use Fault::{AfterTheRules, BeforeInit, BetweenRules, Expression, Fifth, Missing, WithoutEnd};
        let mut faults = vec![Missing, BeforeInit, Fifth, BetweenRules, AfterTheRules];
        for line in 4..=7 {
            faults.push(WithoutEnd { line });
            faults.extend((5..=8).map(|number| Expression { line, number }));
        }
        faults.extend(Fault::every_of_a_start_part());
        faults
    }

    fn every_of_a_start_part() -> Vec<Fault> {
        let by = |number| [Fault::StartPart { number }, Fault::BeforeStartPart { number }];
        [Fault::ThirdColon].into_iter().chain((5..=8).flat_map(by)).collect()
    }
}

#[test]
fn randomly_damaged_texts() {
    let mut random = Random::new(seed_for("damaged texts", 20_260_201));
    let mut seen = Seen::default();
    while seen.texts < 80_000 {
        let (bits, rules) = (random.between(1, 7), random.pick(&[1, 2, 3, 4, 5, 6, 9, 12, 16]));
        let text = models::model(&mut random, bits, rules).text();
        for _ in 0..20 {
            compare_text(&mut seen, &damaged(&mut random, &text), &Fill::ALL);
        }
    }
    println!("damaged texts: {seen:?}");
    // Number 11 depends on the bytes that are lent, and 12 is not tried by a call that reads a text.
    let is_of_a_text = |reason: &Reason| !matches!(reason, Reason::TooFewBytes | Reason::OddList);
    for reason in Reason::ALL.into_iter().filter(is_of_a_text) {
        let times = seen.by_number[usize::from(reason.number())];
        assert!(times >= 100, "number {} came up {times} times only", reason.number());
    }
    assert!(seen.tally.given(Reason::TooFewBytes) >= 1000, "{seen:?}");
    // With one property and one rule it is line 6, with four and 16 rules line 24, and no line further.
    assert!(seen.bytes_follow[6..=24].iter().all(|times| *times >= 20), "{seen:?}");
    assert_eq!(seen.bytes_follow[6..=24].iter().sum::<usize>(), seen.by_number[9], "{seen:?}");
    for fault in Fault::every() {
        assert!(seen.times(fault) >= 20, "{fault:?} came up {} times only", seen.times(fault));
    }
    assert!(seen.in_full.fewest() >= 500, "{seen:?}");
}

/// The bytes that go on after the end are those of the whole text, so that a call that reads on is found out.
#[test]
fn cut_off_at_every_byte() {
    let mut random = Random::new(seed_for("cut off", 20_260_202));
    let mut seen = Seen::default();
    let mut properties = PropertyCounts::default();
    for turn in 0..150 {
        let (bits, rules) = (random.between(1, 7), turn % 16 + 1);
        let written = models::model(&mut random, bits, rules);
        properties.note(written.properties.len());
        let text = written.text();
        for end in 0..text.len() {
            let fill = Fill::ALL[(turn + end) % 3];
            compare_text(&mut seen, &text[..end], &[fill]);
        }
    }
    println!("cut off: {properties:?}, {seen:?}");
    assert!(properties.fewest() >= 20, "{properties:?}");
    assert!((4..=7).all(|line| seen.times(Fault::WithoutEnd { line }) >= 100), "{seen:?}");
    assert_eq!(seen.by_number[1], seen.texts, "a text cut off lacks a line or a line's end: {seen:?}");
}

#[test]
fn every_byte_of_tremor_changed_to_every_value() {
    every_byte_changed_to_every_value(TREMOR);
}

#[test]
fn every_byte_of_four_properties_changed_to_every_value() {
    let seen = every_byte_changed_to_every_value(FOUR);
    // Each of the four lines came to be refused by each number that an expression has.
    let refused = |line, number| seen.times(Fault::Expression { line, number });
    assert!((4..=7).all(|line| (5..=8).all(|number| refused(line, number) >= 1)), "{seen:?}");
}

#[test]
fn every_byte_of_start_parts_changed_to_every_value() {
    let seen = every_byte_changed_to_every_value(STARTS);
    for fault in Fault::every_of_a_start_part() {
        assert!(seen.times(fault) >= 1, "{fault:?} did not come up; {seen:?}");
    }
}

fn every_byte_changed_to_every_value(model: &[u8]) -> Seen {
    let mut seen = Seen::default();
    for place in 0..model.len() {
        for byte in 0..=255 {
            let mut text = model.to_vec();
            text[place] = byte;
            compare_text(&mut seen, &text, &[Fill::ALL[usize::from(byte) % 3]]);
        }
    }
    println!("one byte changed: {seen:?}; {}", show(model));
    assert!(seen.by_number[0] >= model.len(), "{seen:?}");
    seen
}

/// Far more lines and far longer lines than any model has.
#[test]
fn endless_texts() {
    let mut seen = Seen::default();
    for length in [3_000, 70_000, 1_000_000] {
        for byte in [0, b'\n', b'!', b'=', b':', b'a', 255] {
            for start in [
                &b""[..],
                b"vars=1",
                b"vars=1\nrules=",
                &TREMOR[..20],
                &TREMOR[..50],
                TREMOR,
                &FOUR[..41],
                FOUR,
                &STARTS[..39],
                &STARTS[..43],
                STARTS,
            ] {
                let mut text = start.to_vec();
                text.resize(length, byte);
                compare_text(&mut seen, &text, &[Fill::Varying]);
            }
        }
    }
    let properties = [&b"vars=1\nrules=1\ninit=1\n"[..], &b"prop=1\n".repeat(10_000)].concat();
    compare_text(&mut seen, &properties, &Fill::ALL);
    println!("endless texts: {seen:?}");
    assert_eq!((seen.by_number[0], seen.times(Fault::Fifth)), (0, 1));
}

fn compare_text(seen: &mut Seen, text: &[u8], fills: &[Fill]) {
    seen.texts += 1;
    match text::read(text) {
        Err(refused) => {
            seen.note(refused);
            if let Some(fault) = Fault::of(text, refused) {
                *seen.faults.entry(fault).or_default() += 1;
            }
            for fill in fills {
                seen.tally.refused_text(text, refused, *fill);
            }
        }
        Ok(model) => {
            seen.by_number[0] += 1;
            compare_accepted(seen, text, &model, fills);
        }
    }
}

/// A text still accepted after its damage. A set too large, or bytes that are no order or no log, tell at once that the library
/// accepts it too; where the model is small, everything else is compared as well.
fn compare_accepted(seen: &mut Seen, text: &[u8], model: &Model, fills: &[Fill]) {
    let too_large = Refused::new(Reason::NoSuchSet, 0);
    for fill in fills {
        let mut lent = Lent::new(5, *fill);
        let set = 1 << model.rules.len();
        assert_eq!(calls::judge(text, set, lent.bytes()), Err(too_large), "{}", show(text));
        assert_eq!(calls::reached(text, set, lent.bytes()), Err(too_large), "{}", show(text));
        assert!(lent.is_untouched(), "{}", show(text));
    }
    seen.note(too_large);
    let not_an_order = Refused::new(Reason::NotAnOrder, 0);
    for order in [&[][..], &[255], &[0; 17]] {
        assert_eq!(calls::one_core(text, order), Err(not_an_order), "{}", show(text));
    }
    seen.note(not_an_order);
    compare_refused_logs(seen, text, model);
    if model.bits <= 4 && model.rules.len() <= 6 {
        compare_in_full(seen, text, fills);
    }
}

/// By 14 for every model, and by 15 where some state does not meet `init`.
fn compare_refused_logs(seen: &mut Seen, text: &[u8], model: &Model) {
    let not_a_log = Refused::new(Reason::NotALog, 0);
    for log in [&[][..], &[255], &[0, 1 << model.bits]] {
        assert_eq!(calls::blame(text, log), Err(not_a_log), "log {log:?}; {}", show(text));
    }
    seen.note(not_a_log);
    if let Some(state) = (0..1 << model.bits).find(|state| !model.init.value(*state, 0)) {
        let init_unmet = Refused::new(Reason::InitUnmet, 0);
        assert_eq!(calls::blame(text, &[state as u8, 0]), Err(init_unmet), "state {state}; {}", show(text));
        seen.note(init_unmet);
    }
}

fn compare_in_full(seen: &mut Seen, text: &[u8], fills: &[Fill]) {
    let plain = Answers::of(text).expect("accepted before");
    let first_to_last: Vec<u8> = (0..plain.system.rules as u8).collect();
    let log = every_state(&plain.system);
    seen.in_full.note(plain.system.breaking.len());
    for fill in fills {
        let sets = [0, plain.system.full_set()];
        seen.tally.accepted_text(text, &plain, &sets, &first_to_last, &log, *fill);
    }
}

/// A log of every state by number, behind one that meets `init` if any does.
fn every_state(system: &TransitionSystem) -> Vec<u8> {
    let first = (0..system.states).find(|state| system.init[*state]).unwrap_or(0);
    [first].into_iter().chain(0..system.states).map(|state| state as u8).collect()
}
