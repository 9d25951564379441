//! The calls of libcodremif.a.

use crate::answer::{Blame, Breach, OneCore, Reached, Reason, Refused, Said, Verdict};

/// The declarations as a C host has them.
mod declared {
    extern "C" {
        pub fn codremif_judge(
            text: *const u8,
            text_len: usize,
            set: u32,
            trace: *mut u8,
            trace_len: usize,
        ) -> u64;
        pub fn codremif_reached(
            text: *const u8,
            text_len: usize,
            set: u32,
            marks: *mut u8,
            marks_len: usize,
        ) -> u64;
        pub fn codremif_cores(text: *const u8, text_len: usize, sets: *mut u8, sets_len: usize) -> u64;
        pub fn codremif_cuts(text: *const u8, text_len: usize, sets: *mut u8, sets_len: usize) -> u64;
        pub fn codremif_must(text: *const u8, text_len: usize) -> u64;
        pub fn codremif_may(text: *const u8, text_len: usize) -> u64;
        pub fn codremif_irr(text: *const u8, text_len: usize) -> u64;
        pub fn codremif_one_core(text: *const u8, text_len: usize, order: *const u8, order_len: usize)
            -> u64;
        pub fn codremif_blame(text: *const u8, text_len: usize, log: *const u8, log_len: usize) -> u64;
        pub fn codremif_breach(text: *const u8, text_len: usize, log: *const u8, log_len: usize) -> u64;
        pub fn codremif_suffices(
            set: u32,
            cores: *const u8,
            cores_len: usize,
            cuts: *const u8,
            cuts_len: usize,
        ) -> u64;
        pub fn codremif_witness(
            set: u32,
            cores: *const u8,
            cores_len: usize,
            cuts: *const u8,
            cuts_len: usize,
        ) -> u64;
        pub fn codremif_version() -> u64;
    }
}

/// Judges `set`; a broken set's trace is written to the beginning of `trace`, one byte per state.
pub fn judge(text: &[u8], set: u32, trace: &mut [u8]) -> Result<Verdict, Refused> {
    // SAFETY: both slices are memory of the length given, and a `&mut` slice overlaps nothing else.
    let packed =
        unsafe { declared::codremif_judge(text.as_ptr(), text.len(), set, trace.as_mut_ptr(), trace.len()) };
    let accepted = uncounted(packed)?;
    if accepted.holds {
        assert_eq!(accepted.amount, 0, "a set that holds has a trace: {packed:#x}");
        return Ok(Verdict::Holds);
    }
    assert_ne!(accepted.amount, 0, "a broken set has no trace: {packed:#x}");
    Ok(Verdict::Broken { length: accepted.amount })
}

/// Marks the states that `set` reaches: one byte for each state by number at the beginning of `marks`, 1 for reached and 0
/// for not.
pub fn reached(text: &[u8], set: u32, marks: &mut [u8]) -> Result<Reached, Refused> {
    // SAFETY: as in `judge`.
    let packed = unsafe {
        declared::codremif_reached(text.as_ptr(), text.len(), set, marks.as_mut_ptr(), marks.len())
    };
    Ok(Reached { pairs: amount_alone(packed)? })
}

/// So many bytes are enough for the marks of every model: seven bits have 128 states.
pub const MARK_BYTES: usize = 128;

/// Writes the cores to the beginning of `sets`, two bytes each, and gives their number.
pub fn cores(text: &[u8], sets: &mut [u8]) -> Result<usize, Refused> {
    // SAFETY: as in `judge`.
    let packed =
        unsafe { declared::codremif_cores(text.as_ptr(), text.len(), sets.as_mut_ptr(), sets.len()) };
    amount_alone(packed)
}

/// Writes the cuts to the beginning of `sets`, two bytes each, and gives their number.
pub fn cuts(text: &[u8], sets: &mut [u8]) -> Result<usize, Refused> {
    // SAFETY: as in `judge`.
    let packed = unsafe { declared::codremif_cuts(text.as_ptr(), text.len(), sets.as_mut_ptr(), sets.len()) };
    amount_alone(packed)
}

/// So many bytes are enough for every list: of 16 rules, 12,870 sets at most have none that is a part of another.
pub const LIST_BYTES: usize = 2 * 12_870;

/// The sets of a list, `call` being `cores` or `cuts`, with enough bytes lent.
pub fn listed(
    call: fn(&[u8], &mut [u8]) -> Result<usize, Refused>,
    text: &[u8],
) -> Result<Vec<u16>, Refused> {
    let mut sets = vec![0; LIST_BYTES];
    let count = call(text, &mut sets)?;
    Ok(sets.chunks(2).take(count).map(|set| u16::from(set[0]) + 256 * u16::from(set[1])).collect())
}

/// Gives the set MUST.
pub fn must(text: &[u8]) -> Result<u16, Refused> {
    // SAFETY: as in `judge`.
    set_alone(unsafe { declared::codremif_must(text.as_ptr(), text.len()) })
}

/// Gives the set MAY: the rules in some core but not in MUST.
pub fn may(text: &[u8]) -> Result<u16, Refused> {
    // SAFETY: as in `judge`.
    set_alone(unsafe { declared::codremif_may(text.as_ptr(), text.len()) })
}

/// Gives the set of the irrelevant rules: those in no core, and so every rule where there is no core.
pub fn irrelevant(text: &[u8]) -> Result<u16, Refused> {
    // SAFETY: as in `judge`.
    set_alone(unsafe { declared::codremif_irr(text.as_ptr(), text.len()) })
}

/// Finds one core: where the full set holds, each rule in `order` is dropped when the remaining set still holds. `order` has
/// the place of each rule once, the dearest last; the first rule of the text has place 0. Neither slice is written to.
pub fn one_core(text: &[u8], order: &[u8]) -> Result<OneCore, Refused> {
    // SAFETY: both slices are memory of the length given, and it is only read.
    one_core_in(unsafe {
        declared::codremif_one_core(text.as_ptr(), text.len(), order.as_ptr(), order.len())
    })
}

/// Gives the rules that are broken anywhere in `log`, and where it breaks a property for the first time. `log` has a state for
/// each second, one byte each. Neither slice is written to. One call gives the rules and another the place, so both are made.
pub fn blame(text: &[u8], log: &[u8]) -> Result<Blame, Refused> {
    let (broken, place) = (broken_rules(text, log), breach_place(text, log));
    let said = blame_in(broken, place, log.len());
    said.unwrap_or_else(|| panic!("of {} states one call says {broken:?}, the other {place:?}", log.len()))
}

/// Gives the rules that are broken anywhere in `log`, as a set, and whether some state of it breaks a property.
pub fn broken_rules(text: &[u8], log: &[u8]) -> Result<(u16, bool), Refused> {
    // SAFETY: as in `one_core`.
    broken_in(unsafe { declared::codremif_blame(text.as_ptr(), text.len(), log.as_ptr(), log.len()) })
}

/// Gives the place of the first state of `log` that breaks a property, or the log's length if none does; none where
/// `broken_rules` is refused.
pub fn breach_place(text: &[u8], log: &[u8]) -> Option<usize> {
    // SAFETY: as in `one_core`.
    place_of(unsafe { declared::codremif_breach(text.as_ptr(), text.len(), log.as_ptr(), log.len()) })
}

/// Looks `set` up in two lists, two bytes for each set: says whether a listed core is inside it or else a listed cut is
/// apart from it. No text is read.
pub fn suffices(set: u32, cores: &[u8], cuts: &[u8]) -> Result<Said, Refused> {
    // SAFETY: as in `one_core`.
    said(unsafe { declared::codremif_suffices(set, cores.as_ptr(), cores.len(), cuts.as_ptr(), cuts.len()) })
}

/// Gives the byte place of the witness in the list that holds it; none where `set` is unlisted, and where `suffices` is
/// refused.
pub fn witness_place(set: u32, cores: &[u8], cuts: &[u8]) -> Option<usize> {
    // SAFETY: as in `suffices`.
    place_of(unsafe {
        declared::codremif_witness(set, cores.as_ptr(), cores.len(), cuts.as_ptr(), cuts.len())
    })
}

/// Gives the witness: the first listed core inside `set`, or else the first listed cut apart from it, as two bytes of the
/// list that holds it and no copy. No bytes where `set` is unlisted, and where `suffices` is refused. A byte place does
/// not tell which list it is of, so both calls are made.
pub fn witness<'lists>(set: u32, cores: &'lists [u8], cuts: &'lists [u8]) -> &'lists [u8] {
    let list = match suffices(set, cores, cuts) {
        Ok(Said::CoreInside) => Some(cores),
        Ok(Said::CutApart) => Some(cuts),
        Ok(Said::Unlisted) | Err(_) => None,
    };
    match (list, witness_place(set, cores, cuts)) {
        (Some(list), Some(place)) => &list[place..place + 2],
        (None, None) => &[],
        (_, place) => panic!("a witness at {place:?} of a list of {:?} bytes", list.map(<[u8]>::len)),
    }
}

/// Gives the library's version: major * 1,000,000 + minor * 1,000 + patch.
pub fn version() -> u64 {
    // SAFETY: it is handed nothing.
    unsafe { declared::codremif_version() }
}

/// The parts of an accepted call's answer.
#[derive(Debug, PartialEq, Eq)]
struct Accepted {
    amount: usize,
    holds: bool,
    judgements: usize,
}

/// Takes apart: the number, plus 256 times the line, plus 65,536 times the length, count, set or pairs, plus 2^40 for a
/// verdict that holds or a log without a breach, plus 2^41 times the judgements. It panics where a part is not 0 that
/// docs/FORMAT.md says is 0, so that no test can miss it; a number that it does not know is a refusal like the others.
fn unpack(packed: u64) -> Result<Accepted, Refused> {
    let number = (packed % 256) as u8;
    let line = (packed / 256 % 256) as u8;
    if number == 0 {
        assert_eq!(line, 0, "accepted, and yet a line: {packed:#x}");
        let amount = (packed / 65_536 % (1 << 24)) as usize;
        let holds = packed >> 40 & 1 == 1;
        return Ok(Accepted { amount, holds, judgements: (packed >> 41) as usize });
    }
    assert_eq!(packed / 65_536, 0, "refused, and yet an answer: {packed:#x}");
    Err(Refused::new(Reason::from_number(number), line))
}

/// For the calls that count no judgements.
fn uncounted(packed: u64) -> Result<Accepted, Refused> {
    let accepted = unpack(packed)?;
    assert_eq!(accepted.judgements, 0, "no answer of docs/FORMAT.md: {packed:#x}");
    Ok(accepted)
}

/// For the call that finds one core: where the full set is broken there is none, and the set is 0.
fn one_core_in(packed: u64) -> Result<OneCore, Refused> {
    let Accepted { amount, holds, judgements } = unpack(packed)?;
    let core = set_of(amount, packed);
    if holds {
        return Ok(OneCore::Found { core, judgements });
    }
    assert_eq!(core, 0, "no core, and yet a set: {packed:#x}");
    Ok(OneCore::NoCore { judgements })
}

/// For the call that gives the broken rules of a log: 2^40 says that no state of it breaks a property.
fn broken_in(packed: u64) -> Result<(u16, bool), Refused> {
    let accepted = uncounted(packed)?;
    Ok((set_of(accepted.amount, packed), !accepted.holds))
}

/// What both calls say of a log with so many states; none where they contradict each other. Both refuse it or neither does, and
/// the place is one of the log exactly where some state breaks a property.
fn blame_in(
    broken: Result<(u16, bool), Refused>,
    place: Option<usize>,
    length: usize,
) -> Option<Result<Blame, Refused>> {
    let (broken, breach) = match (broken, place) {
        (Err(refused), None) => return Some(Err(refused)),
        (Ok((broken, true)), Some(place)) if place < length => (broken, Breach::At(place)),
        (Ok((broken, false)), Some(place)) if place == length => (broken, Breach::Nowhere { length }),
        _ => return None,
    };
    Some(Ok(Blame { broken, breach }))
}

/// For the calls that give a place; 2^64 - 1 stands for none.
fn place_of(place: u64) -> Option<usize> {
    (place != u64::MAX).then(|| usize::try_from(place).expect("a place in memory"))
}

/// For the call that looks a set up.
fn said(packed: u64) -> Result<Said, Refused> {
    let accepted = uncounted(packed)?;
    Ok(said_in(&accepted).unwrap_or_else(|| panic!("no answer of docs/FORMAT.md: {packed:#x}")))
}

/// 1 with 2^40 is a core inside, 2 a cut apart, 0 unlisted, and there is nothing else.
fn said_in(accepted: &Accepted) -> Option<Said> {
    match (accepted.amount, accepted.holds) {
        (0, false) => Some(Said::Unlisted),
        (1, true) => Some(Said::CoreInside),
        (2, false) => Some(Said::CutApart),
        _ => None,
    }
}

/// For the calls that give no verdict.
fn amount_alone(packed: u64) -> Result<usize, Refused> {
    let accepted = uncounted(packed)?;
    assert!(!accepted.holds, "a verdict where none is due: {packed:#x}");
    Ok(accepted.amount)
}

/// For the calls that give a set.
fn set_alone(packed: u64) -> Result<u16, Refused> {
    Ok(set_of(amount_alone(packed)?, packed))
}

fn set_of(amount: usize, packed: u64) -> u16 {
    u16::try_from(amount).unwrap_or_else(|_| panic!("no set of 16 rules: {packed:#x}"))
}

#[cfg(test)]
mod tests {
    use super::*;

    #[test]
    fn every_number_but_0_is_a_refusal() {
        for number in 1..=255_u8 {
            let refused = unpack(u64::from(number) + 256 * 7).expect_err("a refusal");
            assert_eq!((refused.reason.number(), refused.line), (number, 7));
            assert_eq!(matches!(refused.reason, Reason::Other(_)), number > 15);
            assert!(refused.to_string().starts_with(&format!("refused by number {number}, line 7: ")));
        }
        assert_eq!(unpack(5 * 65_536), Ok(Accepted { amount: 5, holds: false, judgements: 0 }));
    }

    #[test]
    fn what_is_said_of_a_set() {
        assert_eq!(said(0), Ok(Said::Unlisted));
        assert_eq!(said(65_536 + (1 << 40)), Ok(Said::CoreInside));
        assert_eq!(said(131_072), Ok(Said::CutApart));
        assert_eq!(said(12), Err(Refused::new(Reason::OddList, 0)));
        for (amount, holds) in [(0, true), (1, false), (2, true), (3, false), (3, true)] {
            assert_eq!(said_in(&Accepted { amount, holds, judgements: 0 }), None);
        }
    }

    #[test]
    fn what_is_said_of_one_core() {
        let packed =
            |set: u64, holds: u64, judgements: u64| 65_536 * set + (holds << 40) + (judgements << 41);
        assert_eq!(one_core_in(packed(0, 0, 1)), Ok(OneCore::NoCore { judgements: 1 }));
        assert_eq!(one_core_in(packed(0, 1, 2)), Ok(OneCore::Found { core: 0, judgements: 2 }));
        let largest = OneCore::Found { core: 65_535, judgements: 17 };
        assert_eq!(one_core_in(packed(65_535, 1, 17)), Ok(largest));
        assert_eq!(one_core_in(13), Err(Refused::new(Reason::NotAnOrder, 0)));
        assert_eq!(one_core_in(9 + 256 * 8), Err(Refused::new(Reason::BytesFollow, 8)));
    }

    #[test]
    fn what_is_said_of_a_log() {
        assert_eq!(broken_in(65_536 * 6), Ok((6, true)));
        assert_eq!(broken_in(65_536 * 65_535 + (1 << 40)), Ok((65_535, false)));
        assert_eq!((broken_in(0), broken_in(1 << 40)), (Ok((0, true)), Ok((0, false))));
        assert_eq!(broken_in(14), Err(Refused::new(Reason::NotALog, 0)));
        assert_eq!(broken_in(15), Err(Refused::new(Reason::InitUnmet, 0)));
        assert_eq!((place_of(0), place_of(7), place_of(u64::MAX)), (Some(0), Some(7), None));
    }

    /// Of a log of three states.
    #[test]
    fn what_both_calls_say_of_a_log() {
        let refused = Err(Refused::new(Reason::NotALog, 0));
        let (at_2, nowhere) = (Breach::At(2), Breach::Nowhere { length: 3 });
        assert_eq!((at_2.place(), nowhere.place()), (2, 3));
        assert_eq!(blame_in(refused, None, 3), Some(Err(Refused::new(Reason::NotALog, 0))));
        assert_eq!(blame_in(Ok((6, true)), Some(2), 3), Some(Ok(Blame { broken: 6, breach: at_2 })));
        assert_eq!(blame_in(Ok((6, false)), Some(3), 3), Some(Ok(Blame { broken: 6, breach: nowhere })));
        for place in [Some(0), Some(3)] {
            assert_eq!(blame_in(refused, place, 3), None, "{place:?}");
        }
        for (breach, place) in [
            (true, None),
            (false, None),
            (true, Some(3)),
            (true, Some(4)),
            (false, Some(2)),
            (false, Some(4)),
        ] {
            assert_eq!(blame_in(Ok((6, breach)), place, 3), None, "{breach}, {place:?}");
        }
    }

    #[test]
    #[should_panic(expected = "no set of 16 rules")]
    fn a_seventeenth_rule_that_is_broken() {
        let _ = broken_in(65_536 * 65_536);
    }

    #[test]
    #[should_panic(expected = "no core, and yet a set")]
    fn a_set_where_there_is_no_core() {
        let _ = one_core_in(65_536 * 7 + (1 << 41));
    }

    #[test]
    #[should_panic(expected = "refused, and yet an answer")]
    fn judgements_of_a_refused_call() {
        let _ = one_core_in(13 + (1 << 41));
    }

    #[test]
    #[should_panic(expected = "no answer of docs/FORMAT.md")]
    fn judgements_of_a_call_that_counts_none() {
        let _ = set_alone(65_536 * 7 + (1 << 41));
    }
}
