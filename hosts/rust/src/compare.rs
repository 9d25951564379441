//! Asks the library and the plain search the same question, and panics where they differ.

use std::collections::BTreeMap;
use std::fmt::Debug;

use crate::answer::{Blame, OneCore, Reached, Reason, Refused, Said, Verdict};
use crate::calls;
use crate::handed::{Guarded, Handed};
use crate::lent::{Fill, Lent};
use crate::plain::answers::{self, Answers};
use crate::plain::blame::blame;
use crate::plain::lookup;
use crate::plain::one_core::one_core;
use crate::plain::system::TransitionSystem;
use crate::plain::text;
use crate::plain::trace::trace;
use crate::random::written::Written;

/// A text with what the plain search reads of it.
pub struct Asked {
    pub text: Vec<u8>,
    pub system: TransitionSystem,
}

impl Asked {
    pub fn of(written: &Written) -> Asked {
        let text = written.text();
        let system = TransitionSystem::of(&text::read(&text).expect("an accepted model"));
        Asked { text, system }
    }
}

/// Demands that each of these was counted so often at least.
pub fn demand_each<K: Ord + Debug>(
    counted: &BTreeMap<K, usize>,
    keys: impl IntoIterator<Item = K>,
    least: usize,
) {
    for key in keys {
        let times = counted.get(&key).copied().unwrap_or(0);
        assert!(times >= least, "{key:?} came up {times} times only; {counted:?}");
    }
}

/// How often the library was asked, and how often it gave each number (number 0: accepted).
#[derive(Clone, Debug, Default)]
pub struct Tally {
    pub asked: usize,
    by_number: BTreeMap<u8, usize>,
}

impl Tally {
    pub fn given(&self, reason: Reason) -> usize {
        self.by_number.get(&reason.number()).copied().unwrap_or(0)
    }

    pub fn accepted(&self) -> usize {
        self.by_number.get(&0).copied().unwrap_or(0)
    }

    fn count<T>(&mut self, answer: &Result<T, Refused>) {
        self.asked += 1;
        let number = answer.as_ref().map_or_else(|refused| refused.reason.number(), |_| 0);
        *self.by_number.entry(number).or_default() += 1;
    }

    /// One call with lent bytes, asked of both sides over equally filled memory: the answers must be alike, and so must
    /// every byte of the memory afterwards; a refused call must leave its memory untouched.
    fn ask<T: PartialEq + Debug + Copy>(
        &mut self,
        text: &[u8],
        length: usize,
        fill: Fill,
        library: impl FnOnce(&mut [u8]) -> Result<T, Refused>,
        plain: impl FnOnce(&mut [u8]) -> Result<T, Refused>,
    ) -> Result<T, Refused> {
        let (mut ours, mut theirs) = (Lent::new(length, fill), Lent::new(length, fill));
        let expected = plain(ours.bytes());
        let answered = library(theirs.bytes());
        let about = || format!("{length} bytes lent, {fill:?}; {}", show(text));
        assert_eq!(answered, expected, "library left, plain search right; {}", about());
        assert!(theirs == ours, "bytes {:?} differ; {}", theirs.differences(&ours), about());
        assert!(answered.is_ok() || theirs.is_untouched(), "refused, but changed; {}", about());
        self.count(&answered);
        answered
    }

    pub fn judge(
        &mut self,
        text: &[u8],
        plain: &Answers,
        set: u32,
        length: usize,
        fill: Fill,
    ) -> Result<Verdict, Refused> {
        self.ask(text, length, fill, |lent| calls::judge(text, set, lent), |lent| plain.judge(set, lent))
    }

    /// The text is given as the plain search reads it: its system, or why it is refused.
    pub fn reached(
        &mut self,
        text: &[u8],
        plain: Result<&TransitionSystem, Refused>,
        set: u32,
        length: usize,
        fill: Fill,
    ) -> Result<Reached, Refused> {
        let library = |lent: &mut [u8]| calls::reached(text, set, lent);
        self.ask(text, length, fill, library, |lent| answers::reached(plain?, set, lent))
    }

    pub fn cores(
        &mut self,
        text: &[u8],
        plain: &Answers,
        length: usize,
        fill: Fill,
    ) -> Result<usize, Refused> {
        self.ask(text, length, fill, |lent| calls::cores(text, lent), |lent| plain.list_cores(lent))
    }

    pub fn cuts(
        &mut self,
        text: &[u8],
        plain: &Answers,
        length: usize,
        fill: Fill,
    ) -> Result<usize, Refused> {
        self.ask(text, length, fill, |lent| calls::cuts(text, lent), |lent| plain.list_cuts(lent))
    }

    /// The calls that give a set: MUST, MAY and the irrelevant rules. They lend no bytes, so the answer is all that there
    /// is to compare.
    pub fn kinds(&mut self, text: &[u8], plain: &Answers) {
        self.ask_set("MUST", text, calls::must, Ok(plain.must));
        self.ask_set("MAY", text, calls::may, Ok(plain.may));
        self.ask_set("irrelevant", text, calls::irrelevant, Ok(plain.irrelevant));
    }

    fn ask_set(
        &mut self,
        name: &str,
        text: &[u8],
        library: fn(&[u8]) -> Result<u16, Refused>,
        expected: Result<u16, Refused>,
    ) {
        let answered = library(text);
        assert_eq!(answered, expected, "{name}, library left, plain search right; {}", show(text));
        self.count(&answered);
    }

    /// One core by an order: both sides must say the same, and no byte of the text, of the order or of their guards may
    /// change. The text is given as the plain search reads it, as in `reached`.
    pub fn one_core(
        &mut self,
        text: &[u8],
        plain: Result<&TransitionSystem, Refused>,
        order: &Guarded,
        fill: Fill,
    ) -> Result<OneCore, Refused> {
        let guarded = Guarded::new(text, fill);
        let answered = calls::one_core(guarded.bytes(), order.bytes());
        let about = || format!("order {}, {fill:?}; {}", show_list(order.bytes()), show(text));
        let expected = plain.and_then(|system| one_core(system, order.bytes()));
        assert_eq!(answered, expected, "library left, plain search right; {}", about());
        assert!(guarded.is_untouched() && order.is_untouched(), "a byte has changed; {}", about());
        self.count(&answered);
        answered
    }

    /// Blame from a log: both sides must say the same, and no byte of the text, of the log or of their guards may change. The
    /// text is given as the plain search reads it, as in `reached`.
    pub fn blame(
        &mut self,
        text: &[u8],
        plain: Result<&TransitionSystem, Refused>,
        log: &Guarded,
        fill: Fill,
    ) -> Result<Blame, Refused> {
        let guarded = Guarded::new(text, fill);
        let answered = calls::blame(guarded.bytes(), log.bytes());
        let about = || format!("log {}, {fill:?}; {}", show_list(log.bytes()), show(text));
        let expected = plain.and_then(|system| blame(system, log.bytes()));
        assert_eq!(answered, expected, "library left, plain search right; {}", about());
        assert!(guarded.is_untouched() && log.is_untouched(), "a byte has changed; {}", about());
        self.count(&answered);
        answered
    }

    /// A set that is looked up: both sides must say the same of it and give the same two bytes of the same list as the
    /// witness, and no byte of the lists or their guards may change.
    pub fn look_up(&mut self, set: u32, lists: &Handed) -> Result<Said, Refused> {
        let (cores, cuts) = (lists.cores(), lists.cuts());
        let answered = calls::suffices(set, cores, cuts);
        let witness = calls::witness(set, cores, cuts);
        let about = || format!("set {set}; cores {}; cuts {}", show_list(cores), show_list(cuts));
        let expected = lookup::suffices(set, cores, cuts);
        assert_eq!(answered, expected, "library left, plain search right; {}", about());
        let list = match answered {
            Ok(Said::CoreInside) => cores,
            Ok(Said::CutApart) => cuts,
            Ok(Said::Unlisted) | Err(_) => &[],
        };
        let place = place_in(list, lookup::witness(set, cores, cuts));
        assert_eq!(place_in(list, witness), place, "library left, plain search right; {}", about());
        assert_eq!(calls::witness_place(set, cores, cuts), place, "the byte place; {}", about());
        assert!(lists.is_untouched(), "a byte has changed; {}", about());
        self.count(&answered);
        answered
    }

    /// A text that the plain reader accepts, in all calls: these sets, the lists and the kinds of rules, each with just as many
    /// bytes lent as it needs, with more of them, and with one too few where it needs some; the order, first rule first and
    /// last rule first, and with a byte too many; and the log, without its last state, without any, and with one too large.
    pub fn accepted_text(
        &mut self,
        text: &[u8],
        plain: &Answers,
        sets: &[u16],
        order: &[u8],
        log: &[u8],
        fill: Fill,
    ) {
        let system = &plain.system;
        for set in sets {
            let states_of_trace = trace(system, *set).map_or(0, |run| run.len());
            for length in lengths_around(states_of_trace) {
                let _ = self.judge(text, plain, u32::from(*set), length, fill);
            }
            for length in lengths_around(system.states) {
                let _ = self.reached(text, Ok(system), u32::from(*set), length, fill);
            }
        }
        for length in lengths_around(2 * plain.cores.len()) {
            let _ = self.cores(text, plain, length, fill);
        }
        for length in lengths_around(2 * plain.cuts.len()) {
            let _ = self.cuts(text, plain, length, fill);
        }
        self.kinds(text, plain);
        let the_other_way: Vec<u8> = order.iter().rev().copied().collect();
        for order in [order, &the_other_way, &[order, &[0]].concat()] {
            let _ = self.one_core(text, Ok(system), &Guarded::new(order, fill), fill);
        }
        let too_large = [log, &[system.states as u8]].concat();
        for log in [log, &log[..log.len() - 1], &[], &too_large] {
            let _ = self.blame(text, Ok(system), &Guarded::new(log, fill), fill);
        }
    }

    /// A text that the plain reader refuses: all calls must refuse it alike. Those that are given a set are asked with set 0,
    /// with a set too large for any model and with no byte lent, because the text comes before 10 and 11; the one that is given
    /// an order with bytes that are one, and that are none for any model, because it comes before 13, too; and those that are
    /// given a log with states, with none and with one too large for any model, because it comes before 14 and 15.
    pub fn refused_text(&mut self, text: &[u8], expected: Refused, fill: Fill) {
        for (set, length) in [(0, 128), (0, 0), (u32::MAX, 0), (1 << 16, 16)] {
            let library = |lent: &mut [u8]| calls::judge(text, set, lent);
            let _ = self.ask(text, length, fill, library, |_| Err(expected));
            let _ = self.reached(text, Err(expected), set, length, fill);
        }
        for order in [&[][..], &[0], &[2, 0, 1], &[0, 0, 255]] {
            let _ = self.one_core(text, Err(expected), &Guarded::new(order, fill), fill);
        }
        for log in [&[][..], &[0], &[1, 0, 1], &[0, 128]] {
            let _ = self.blame(text, Err(expected), &Guarded::new(log, fill), fill);
        }
        for length in [0, 64] {
            let _ = self.ask(text, length, fill, |lent| calls::cores(text, lent), |_| Err(expected));
            let _ = self.ask(text, length, fill, |lent| calls::cuts(text, lent), |_| Err(expected));
        }
        self.ask_set("MUST", text, calls::must, Err(expected));
        self.ask_set("MAY", text, calls::may, Err(expected));
        self.ask_set("irrelevant", text, calls::irrelevant, Err(expected));
    }
}

/// Just enough, some more, and one too few if that can be.
fn lengths_around(needed: usize) -> impl Iterator<Item = usize> {
    [Some(needed), Some(needed + 3), needed.checked_sub(1)].into_iter().flatten()
}

/// Where a witness stands in the list that holds it; none if it has no bytes. Panics where it is no part of the list, or a
/// copy of one.
pub fn place_in(list: &[u8], witness: &[u8]) -> Option<usize> {
    if witness.is_empty() {
        return None;
    }
    let place = (witness.as_ptr() as usize).checked_sub(list.as_ptr() as usize);
    let inside = place.filter(|place| place + 2 <= list.len() && witness.len() == 2);
    assert!(inside.is_some(), "the witness {witness:?} is no part of the list {}", show_list(list));
    inside
}

/// The bytes of a list, an order or a log, no more than some of the first.
fn show_list(list: &[u8]) -> String {
    format!("{} bytes, {:?}", list.len(), &list[..list.len().min(100)])
}

/// A text as it can be pasted into a test.
pub fn show(text: &[u8]) -> String {
    format!("text b\"{}\"", text.escape_ascii())
}
