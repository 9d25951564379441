//! Every example at the edges that the request lists, and examples of several properties, of reached states, of one core, of
//! start parts and of logs worked out by hand, asked of the library and of the plain search.

#![deny(warnings)]

use codremif_host::answer::{Blame, Breach, OneCore, Reached, Reason, Refused, Said, Verdict};
use codremif_host::compare::{place_in, show, Tally};
use codremif_host::handed::{Guarded, Handed};
use codremif_host::lent::Fill;
use codremif_host::plain::answers::{self, Answers};
use codremif_host::plain::blame::blame;
use codremif_host::plain::lookup;
use codremif_host::plain::one_core::{one_core, order_for};
use codremif_host::plain::trace::trace;
use codremif_host::{calls, plain};

const TREMOR: &str = "vars=3\nrules=3\ninit=!c\nprop=>c&ab\nrule=ra:>CA\nrule=rb:>CB\nrule=vote:>C&AB\n";
const LATCH: &str = "vars=2\nrules=2\ninit=&!a!b\nprop=!b\nrule=keep:=Aa\nrule=need:>Ba\n";

/// The traces of sets, none for those that hold.
fn expect_judged(text: &str, expected: &[(u16, Option<&[u8]>)]) {
    let plain = Answers::of(text.as_bytes()).expect("an accepted model");
    for (set, run) in expected {
        assert_eq!(
            trace(&plain.system, *set).as_deref(),
            *run,
            "plain search, set {set}; {}",
            show(text.as_bytes())
        );
        let mut lent = [99; 128];
        let verdict = calls::judge(text.as_bytes(), u32::from(*set), &mut lent);
        let length = run.map_or(0, <[u8]>::len);
        let wanted = if run.is_some() { Verdict::Broken { length } } else { Verdict::Holds };
        assert_eq!(verdict, Ok(wanted), "library, set {set}; {}", show(text.as_bytes()));
        assert_eq!(&lent[..length], run.unwrap_or(&[]), "library, set {set}; {}", show(text.as_bytes()));
        assert!(lent[length..].iter().all(|byte| *byte == 99));
    }
}

/// The marks of sets, one for each state by number, and how many pairs are tried for them.
fn expect_reached(text: &str, expected: &[(u32, &[u8], usize)]) {
    let text = text.as_bytes();
    let system = Answers::of(text).expect("an accepted model").system;
    for (set, marks, pairs) in expected {
        let (mut ours, mut theirs) = ([99; 130], [99; 130]);
        let answer = Ok(Reached { pairs: *pairs });
        assert_eq!(
            answers::reached(&system, *set, &mut ours),
            answer,
            "plain search, set {set}; {}",
            show(text)
        );
        assert_eq!(calls::reached(text, *set, &mut theirs), answer, "library, set {set}; {}", show(text));
        for (side, lent) in [("plain search", ours), ("library", theirs)] {
            assert_eq!(&lent[..marks.len()], *marks, "{side}, set {set}; {}", show(text));
            assert!(lent[marks.len()..].iter().all(|byte| *byte == 99), "{side}, set {set}; {}", show(text));
        }
    }
}

/// What an order leads to, by the plain search and by the library.
fn expect_one_core(text: &str, order: &[u8], expected: Result<OneCore, Refused>) {
    let text = text.as_bytes();
    let system = Answers::of(text).expect("an accepted model").system;
    let about = format!("order {order:?}; {}", show(text));
    assert_eq!(one_core(&system, order), expected, "plain search; {about}");
    for fill in Fill::ALL {
        let guarded = Guarded::new(order, fill);
        let answer = Tally::default().one_core(text, Ok(&system), &guarded, fill);
        assert_eq!(answer, expected, "library; {about}");
    }
}

/// Found after one judgement for the full set and one for each rule.
fn expect_found(text: &str, order: &[u8], core: u16) {
    expect_one_core(text, order, Ok(OneCore::Found { core, judgements: order.len() + 1 }));
}

/// After one judgement, whatever the order is.
fn expect_no_core(text: &str, order: &[u8]) {
    expect_one_core(text, order, Ok(OneCore::NoCore { judgements: 1 }));
}

fn expect_not_an_order(text: &str, bytes: &[u8]) {
    expect_one_core(text, bytes, Err(Refused::new(Reason::NotAnOrder, 0)));
}

/// What is said of a log, by the plain search and by the library.
fn expect_blame(text: &str, log: &[u8], expected: Result<Blame, Refused>) {
    let text = text.as_bytes();
    let system = Answers::of(text).expect("an accepted model").system;
    let about = format!("log {log:?}; {}", show(text));
    assert_eq!(blame(&system, log), expected, "plain search; {about}");
    for fill in Fill::ALL {
        let guarded = Guarded::new(log, fill);
        assert_eq!(Tally::default().blame(text, Ok(&system), &guarded, fill), expected, "library; {about}");
    }
}

/// These rules are broken, and the state at this place is the first that breaks a property.
fn expect_breach(text: &str, log: &[u8], broken: u16, place: usize) {
    expect_blame(text, log, Ok(Blame { broken, breach: Breach::At(place) }));
}

/// These rules are broken, and no state breaks a property.
fn expect_no_breach(text: &str, log: &[u8], broken: u16) {
    expect_blame(text, log, Ok(Blame { broken, breach: Breach::Nowhere { length: log.len() } }));
}

fn expect_log_refused(text: &str, log: &[u8], reason: Reason) {
    expect_blame(text, log, Err(Refused::new(reason, 0)));
}

/// MUST, MAY and the irrelevant rules, each a set.
struct Kinds(u16, u16, u16);

fn expect_lists(text: &str, cores: &[u16], cuts: &[u16], Kinds(must, may, irrelevant): Kinds) {
    let text = text.as_bytes();
    let plain = Answers::of(text).expect("an accepted model");
    assert_eq!((&plain.cores[..], &plain.cuts[..]), (cores, cuts), "plain search; {}", show(text));
    assert_eq!(
        (plain.must, plain.may, plain.irrelevant),
        (must, may, irrelevant),
        "plain search; {}",
        show(text)
    );
    assert_eq!(calls::listed(calls::cores, text), Ok(cores.to_vec()), "library's cores; {}", show(text));
    assert_eq!(calls::listed(calls::cuts, text), Ok(cuts.to_vec()), "library's cuts; {}", show(text));
    assert_eq!(calls::must(text), Ok(must), "library's MUST; {}", show(text));
    assert_eq!(calls::may(text), Ok(may), "library's MAY; {}", show(text));
    assert_eq!(calls::irrelevant(text), Ok(irrelevant), "library's irrelevant rules; {}", show(text));
}

fn expect_refused(text: &str, reason: Reason, line: u8) {
    let refused = Refused::new(reason, line);
    assert_eq!(plain::text::read(text.as_bytes()), Err(refused), "plain search; {}", show(text.as_bytes()));
    for fill in Fill::ALL {
        Tally::default().refused_text(text.as_bytes(), refused, fill);
    }
}

fn expect_accepted(text: &str) {
    let plain = Answers::of(text.as_bytes()).expect("an accepted model");
    Tally::default().kinds(text.as_bytes(), &plain);
}

/// What is said of a set, and the byte place of its witness in the list that holds it.
type LookedUp = (Said, Option<usize>);

const UNLISTED: LookedUp = (Said::Unlisted, None);

fn core_at(byte_place: usize) -> LookedUp {
    (Said::CoreInside, Some(byte_place))
}

fn cut_at(byte_place: usize) -> LookedUp {
    (Said::CutApart, Some(byte_place))
}

fn expect_looked_up(cores: &[u8], cuts: &[u8], expected: &[(u32, LookedUp)]) {
    for (set, (said, place)) in expected {
        let about = format!("set {set}, cores {cores:?}, cuts {cuts:?}");
        assert_eq!(lookup::suffices(*set, cores, cuts), Ok(*said), "plain search; {about}");
        let list = match said {
            Said::CoreInside => cores,
            Said::CutApart => cuts,
            Said::Unlisted => &[],
        };
        assert_eq!(place_in(list, lookup::witness(*set, cores, cuts)), *place, "plain search; {about}");
        assert_eq!(place_in(list, calls::witness(*set, cores, cuts)), *place, "library; {about}");
        assert_eq!(calls::witness_place(*set, cores, cuts), *place, "library; {about}");
        for fill in Fill::ALL {
            let lists = Handed::separate(cores, cuts, fill);
            assert_eq!(Tally::default().look_up(*set, &lists), Ok(*said), "library; {about}");
        }
    }
}

/// Refused by 12, with no witness, whatever set is looked up.
fn expect_odd(cores: &[u8], cuts: &[u8]) {
    let odd = Err(Refused::new(Reason::OddList, 0));
    for set in [0, 3, 4, 7, 8, 65_539, u32::MAX] {
        assert_eq!(lookup::suffices(set, cores, cuts), odd, "plain search, set {set}");
        for fill in Fill::ALL {
            assert_eq!(Tally::default().look_up(set, &Handed::separate(cores, cuts, fill)), odd, "set {set}");
        }
        assert!(calls::witness(set, cores, cuts).is_empty(), "set {set}");
        assert_eq!(calls::witness_place(set, cores, cuts), None, "set {set}");
    }
}

/// A text with one bit and one rule, which may have a start part behind a `:`.
fn one_bit(init: &str, prop: &str, rule: &str) -> String {
    format!("vars=1\nrules=1\ninit={init}\nprop={prop}\nrule=r:{rule}\n")
}

/// Tremor with one of its lines replaced.
fn tremor_with(place: usize, line: &str) -> String {
    let mut lines: Vec<&str> = TREMOR.lines().collect();
    lines[place] = line;
    lines.join("\n") + "\n"
}

#[test]
fn tremor() {
    expect_judged(
        TREMOR,
        &[(0, Some(&[0, 4])), (1, Some(&[0, 5])), (2, Some(&[0, 6])), (3, None), (4, None), (7, None)],
    );
    expect_lists(TREMOR, &[4, 3], &[5, 6], Kinds(0, 7, 0));
}

#[test]
fn tremor_set_and_lent_bytes() {
    let plain = Answers::of(TREMOR.as_bytes()).expect("an accepted model");
    let text = TREMOR.as_bytes();
    let mut tally = Tally::default();
    let too_large = Refused::new(Reason::NoSuchSet, 0);
    let too_short = Refused::new(Reason::TooFewBytes, 0);
    for fill in Fill::ALL {
        assert_eq!(tally.judge(text, &plain, 8, 128, fill), Err(too_large));
        assert_eq!(tally.judge(text, &plain, 8, 0, fill), Err(too_large));
        assert_eq!(tally.judge(text, &plain, 0, 1, fill), Err(too_short));
        assert_eq!(tally.cores(text, &plain, 4, fill), Ok(2));
        assert_eq!(tally.cores(text, &plain, 3, fill), Err(too_short));
    }
}

#[test]
fn tremor_with_one_rule() {
    let text = "vars=3\nrules=1\ninit=!c\nprop=>c&ab\nrule=ra:>CA\n";
    expect_judged(text, &[(1, Some(&[0, 5]))]);
    expect_lists(text, &[], &[0], Kinds(0, 0, 1));
}

#[test]
fn set_0_is_the_only_core() {
    expect_lists(&one_bit("1", "1", "1"), &[0], &[], Kinds(0, 0, 1));
    expect_lists(&one_bit("0", "0", "1"), &[0], &[], Kinds(0, 0, 1));
}

#[test]
fn a_bad_start_state() {
    expect_judged(&one_bit("1", "a", "1"), &[(0, Some(&[0])), (1, Some(&[0]))]);
}

#[test]
fn one_rule_once_and_twice() {
    expect_lists(&one_bit("!a", "!a", "=Aa"), &[1], &[1], Kinds(1, 0, 0));
    let twice = "vars=1\nrules=2\ninit=!a\nprop=!a\nrule=r:=Aa\nrule=s:=Aa\n";
    expect_lists(twice, &[1, 2], &[3], Kinds(0, 3, 0));
    let never = one_bit("!a", "!a", "0");
    expect_lists(&never, &[1], &[1], Kinds(1, 0, 0));
}

#[test]
fn two_steps_to_a_bad_state() {
    expect_judged(LATCH, &[(3, None), (2, Some(&[0, 1, 2])), (1, Some(&[0, 2])), (0, Some(&[0, 2]))]);
    expect_lists(LATCH, &[3], &[1, 2], Kinds(3, 0, 0));
}

/// Tremor starts in 0 to 3. Set 0 reaches the last state in the eighth pair of the first; the others never reach 4.
#[test]
fn tremor_reached() {
    expect_reached(
        TREMOR,
        &[
            (0, &[1; 8], 8),
            (1, &[1, 1, 1, 1, 0, 1, 0, 1], 6 * 8),
            (2, &[1, 1, 1, 1, 0, 0, 1, 1], 6 * 8),
            (3, &[1, 1, 1, 1, 0, 0, 0, 1], 5 * 8),
            (4, &[1, 1, 1, 1, 0, 0, 0, 1], 5 * 8),
            (7, &[1, 1, 1, 1, 0, 0, 0, 1], 5 * 8),
        ],
    );
    let system = Answers::of(TREMOR.as_bytes()).expect("an accepted model").system;
    let mut tally = Tally::default();
    for fill in Fill::ALL {
        let mut ask = |set, length| tally.reached(TREMOR.as_bytes(), Ok(&system), set, length, fill);
        assert_eq!(ask(7, 8), Ok(Reached { pairs: 40 }));
        assert_eq!(ask(7, 7), Err(Refused::new(Reason::TooFewBytes, 0)));
        assert_eq!(ask(7, 0), Err(Refused::new(Reason::TooFewBytes, 0)));
        assert_eq!(ask(8, 8), Err(Refused::new(Reason::NoSuchSet, 0)));
        assert_eq!(ask(8, 7), Err(Refused::new(Reason::NoSuchSet, 0)));
        assert_eq!(ask(u32::MAX, 0), Err(Refused::new(Reason::NoSuchSet, 0)));
    }
}

/// With rule `r` alone 2 is followed by 0, 0 by 1, and nothing by 3: 3 was marked before 0 and is tried before it.
#[test]
fn in_the_order_of_marking() {
    let hop = "vars=2\nrules=1\ninit=b\nprop=1\nrule=r:&!a&!B=b!A\n";
    expect_reached(hop, &[(1, &[1; 4], 4 + 4 + 2), (0, &[1; 4], 2)]);
    expect_reached(LATCH, &[(0, &[1; 4], 4), (1, &[1, 0, 1, 0], 8), (2, &[1; 4], 8), (3, &[1, 0, 0, 0], 4)]);
}

/// The start states need no pair; without one there is nothing to try, and yet each state has its mark.
#[test]
fn reached_without_a_pair() {
    expect_reached(&one_bit("1", "1", "0"), &[(0, &[1, 1], 0), (1, &[1, 1], 0)]);
    expect_reached(&one_bit("0", "1", "1"), &[(0, &[0, 0], 0), (1, &[0, 0], 0)]);
    expect_reached(&one_bit("!a", "1", "0"), &[(0, &[1, 1], 2), (1, &[1, 0], 2)]);
    expect_reached(&one_bit("a", "1", "!A"), &[(0, &[1, 1], 1), (1, &[1, 1], 1)]);
    let seven = "vars=7\nrules=1\ninit=!|a|b|c|d|e|fg\nprop=1\nrule=r:=Gg\n";
    let half: Vec<u8> = (0..128).map(|state| u8::from(state < 64)).collect();
    expect_reached(seven, &[(0, &[1; 128], 128), (1, &half, 64 * 128)]);
}

/// Tremor's cores are `vote` and `ra` with `rb`: `vote` is found unless it is the first in the order.
#[test]
fn tremor_in_every_order() {
    for (order, core) in
        [([0, 1, 2], 4), ([1, 0, 2], 4), ([0, 2, 1], 4), ([1, 2, 0], 4), ([2, 0, 1], 3), ([2, 1, 0], 3)]
    {
        expect_found(TREMOR, &order, core);
    }
    assert_eq!((order_for(4, 3), order_for(3, 3)), (vec![0, 1, 2], vec![2, 0, 1]));
    let only_ra = "vars=3\nrules=1\ninit=!c\nprop=>c&ab\nrule=ra:>CA\n";
    expect_no_core(only_ra, &[0]);
}

/// Set 0 is a core where no rule is needed, and stands for no core where the full set is broken.
#[test]
fn set_0_found_and_no_core() {
    expect_found(&one_bit("1", "1", "1"), &[0], 0);
    expect_found(&one_bit("0", "0", "1"), &[0], 0);
    expect_no_core(&one_bit("1", "a", "1"), &[0]);
    expect_no_core(&one_bit("!a", "!a", "1"), &[0]);
    let every_rule: Vec<u8> = (0..16).collect();
    let sixteen = |rule: &str| {
        let rules: String = (0..16).map(|place| format!("rule=r{place}:{rule}\n")).collect();
        format!("vars=1\nrules=16\ninit=!a\nprop=!a\n{rules}")
    };
    expect_no_core(&sixteen("1"), &every_rule);
    expect_found(&sixteen("!A"), &every_rule, 1 << 15);
    let last_first: Vec<u8> = (0..16).rev().collect();
    expect_found(&sixteen("!A"), &last_first, 1);
}

/// No rule can be dropped, one of two alike, and the rules that nobody relies on.
#[test]
fn rules_kept_and_dropped() {
    expect_found(&one_bit("!a", "!a", "=Aa"), &[0], 1);
    expect_found(LATCH, &[0, 1], 3);
    expect_found(LATCH, &[1, 0], 3);
    let twice = "vars=1\nrules=2\ninit=!a\nprop=!a\nrule=r:=Aa\nrule=s:=Aa\n";
    expect_found(twice, &[0, 1], 2);
    expect_found(twice, &[1, 0], 1);
    let battery = "vars=4\nrules=5\ninit=!c\nprop=>c&ab\nrule=motion:>CA\nrule=quiet:>!a!C\nrule=power:>CB\n\
                   rule=double:>C&aA\nrule=lamp:=DC\n";
    expect_found(battery, &[0, 1, 2, 3, 4], 12);
    expect_found(battery, &[4, 3, 2, 1, 0], 5);
    expect_found(battery, &[2, 3, 0, 4, 1], 5);
    expect_found(battery, &[2, 0, 3, 4, 1], 12);
    // For each of two properties alone one rule would do.
    expect_found(&two_bits(&["!a", "!b"], &["=Aa", "=Bb"]), &[0, 1], 3);
    expect_found(&two_bits(&["!a", "!b"], &["!A", "!B", "!|AB"]), &[2, 1, 0], 3);
}

/// Number 13 for too few places, too many, one twice, R and more, where the full set holds and where it is broken.
#[test]
fn bytes_that_are_no_order() {
    let tremor_broken = tremor_with(3, "prop=!c");
    for text in [TREMOR, &tremor_broken] {
        for bytes in [&[][..], &[0], &[0, 1], &[2, 1], &[0, 1, 2, 0], &[0, 1, 2, 3], &[0, 1, 2, 255]] {
            expect_not_an_order(text, bytes);
        }
        for bytes in [[0, 0, 2], [0, 1, 1], [2, 0, 2], [0, 0, 0], [1, 1, 1], [2, 2, 2]] {
            expect_not_an_order(text, &bytes);
        }
        for place in [3, 4, 16, 17, 32, 64, 128, 129, 255] {
            for bytes in [[place, 1, 2], [0, place, 2], [0, 1, place]] {
                expect_not_an_order(text, &bytes);
            }
        }
    }
    expect_no_core(&tremor_broken, &[0, 1, 2]);
    for bytes in [&[][..], &[1], &[255], &[0, 0], &[0, 1], &[1, 0]] {
        expect_not_an_order(&one_bit("1", "1", "1"), bytes);
    }
    let longer: Vec<u8> = [0, 1, 2].into_iter().chain([0; 65_536]).collect();
    for length in [17, 256, 259, 65_536, 65_539] {
        expect_not_an_order(TREMOR, &longer[..length]);
    }
}

/// The numbers of the text come first, 9 the last of them.
#[test]
fn a_refused_text_before_an_order() {
    let follow = TREMOR.to_string() + "\n";
    for order in [&[0, 1, 2][..], &[], &[0, 1], &[0, 0, 0], &[0, 1, 255], &[0, 1, 2, 3]] {
        let answer = |text: &str| calls::one_core(text.as_bytes(), order);
        assert_eq!(answer(&follow), Err(Refused::new(Reason::BytesFollow, 8)), "{order:?}");
        assert_eq!(answer(""), Err(Refused::new(Reason::LineDue, 1)), "{order:?}");
        assert_eq!(answer(&tremor_with(1, "rules=4")), Err(Refused::new(Reason::LineDue, 8)), "{order:?}");
        assert_eq!(
            answer(&tremor_with(6, "rule=rb:1")),
            Err(Refused::new(Reason::NameTwice, 7)),
            "{order:?}"
        );
    }
}

/// Station B comes to rest while the unit rings: `ra` is kept, `rb` and `vote` are not. They are a cut, and share `vote` with the
/// one core of Tremor and `rb` with the other.
#[test]
fn tremor_with_a_log() {
    expect_breach(TREMOR, &[0, 1, 3, 7, 5, 1], 6, 4);
    expect_breach(TREMOR, &[0, 1, 3, 7, 5], 6, 4);
    expect_no_breach(TREMOR, &[0, 1, 3, 7], 0);
    expect_breach(TREMOR, &[0, 6], 5, 1);
    expect_breach(TREMOR, &[0, 3, 4], 7, 2);
    // A rule that is broken after the breach is broken too.
    expect_breach(TREMOR, &[0, 5, 6, 3], 7, 1);
    expect_breach(TREMOR, &[0, 5, 5, 0], 6, 1);
    for log in [&[0][..], &[3], &[0, 0], &[0, 7], &[1, 2], &[2, 7, 7, 0], &[3, 3, 3, 3, 3]] {
        expect_no_breach(TREMOR, log, 0);
    }
}

/// `keep` is broken in the steps from 0 to 1 and from 1 to 2, though no bad state has come by the first; `need` from 0 to 2.
#[test]
fn rules_broken_before_and_without_a_breach() {
    expect_no_breach(LATCH, &[0, 1], 1);
    expect_no_breach(LATCH, &[0, 1, 0], 1);
    expect_no_breach(LATCH, &[0, 0], 0);
    expect_breach(LATCH, &[0, 1, 2], 1, 2);
    expect_breach(LATCH, &[0, 1, 3, 0], 1, 2);
    expect_breach(LATCH, &[0, 2], 2, 1);
    expect_breach(LATCH, &[0, 2, 2, 3], 3, 1);
    // A rule that no step meets, and none of which anything is asked in a log of one state.
    expect_no_breach(&one_bit("!a", "!a", "0"), &[0], 0);
    expect_no_breach(&one_bit("!a", "!a", "0"), &[0, 0], 1);
    expect_breach(&one_bit("!a", "!a", "0"), &[0, 1, 0], 1, 1);
}

/// What the full set allows breaks the property: there is no core, and the cut is set 0.
#[test]
fn a_breach_without_a_broken_rule() {
    let stale = "vars=4\nrules=2\ninit=&!a&!b&!c!d\nprop=>c&ab\nrule=mem:=Da\nrule=vote:>C&BD\n";
    expect_breach(stale, &[0, 1, 14], 0, 2);
    expect_breach(stale, &[0, 1, 14, 14], 1, 2);
    expect_breach(&one_bit("1", "a", "1"), &[0], 0, 0);
    expect_breach(&one_bit("1", "a", "1"), &[1, 1, 0], 0, 2);
    expect_no_breach(&one_bit("1", "a", "1"), &[1, 1], 0);
}

/// The first breach of any property.
#[test]
fn a_log_and_several_properties() {
    expect_breach(&two_bits(&["!a", "!b"], &["=Aa", "=Bb"]), &[0, 2], 2, 1);
    expect_breach(&two_bits(&["!a", "!b"], &["=Aa", "=Bb"]), &[0, 1, 2], 3, 1);
    expect_breach(&two_bits(&["!&ab", "!b"], &["=Aa", "=Bb"]), &[0, 1, 2, 3], 3, 2);
    expect_breach(&two_bits(&["1", "1", "1", "!&ab"], &["1", ">Ba"]), &[0, 1, 2, 3], 2, 3);
    expect_no_breach(&two_bits(&["1", "1", "1", "1"], &["0"]), &[0, 1, 2, 3], 1);
}

/// A start part is asked of the first state alone. There it is broken whatever its step part says.
#[test]
fn start_parts_and_logs() {
    expect_breach(POWER_UP, &[4], 8, 0);
    expect_breach(POWER_UP, &[5, 1], 8, 0);
    expect_breach(POWER_UP, &[5, 6], 8 + 5, 0);
    expect_breach(POWER_UP, &[0, 4], 7, 1);
    expect_breach(POWER_UP, &[7, 7, 5], 8 + 6, 2);
    expect_no_breach(POWER_UP, &[7], 8);
    expect_no_breach(POWER_UP, &[7, 3, 7], 8);
    expect_no_breach(POWER_UP, &[0, 7, 7], 0);
    let both_parts = one_bit("1", "!a", ">Aa:!a");
    expect_breach(&both_parts, &[1], 1, 0);
    expect_breach(&both_parts, &[1, 0], 1, 0);
    expect_breach(&both_parts, &[0, 1], 1, 1);
    expect_no_breach(&both_parts, &[0, 0], 0);
    // No state meets both start parts, and either is broken alone.
    let contradictory = "vars=1\nrules=2\ninit=1\nprop=0\nrule=r:1:a\nrule=s:1:!a\n";
    expect_breach(contradictory, &[0], 1, 0);
    expect_breach(contradictory, &[1, 0], 2, 0);
}

/// Number 14 for no state and for one of 2^N or more anywhere; 15 for a first state that does not meet `init`, and after 14.
#[test]
fn bytes_that_are_no_log() {
    for log in [&[][..], &[8], &[255], &[0, 8], &[8, 0], &[0, 16, 0], &[0, 1, 2, 3, 128], &[0, 5, 8]] {
        expect_log_refused(TREMOR, log, Reason::NotALog);
    }
    for log in [&[4, 8][..], &[7, 255], &[5, 0, 0, 9]] {
        expect_log_refused(TREMOR, log, Reason::NotALog);
    }
    for log in [&[4][..], &[5], &[6], &[7], &[7, 0], &[4, 4, 4], &[5, 6, 7, 0]] {
        expect_log_refused(TREMOR, log, Reason::InitUnmet);
    }
    // No state meets this `init`, so there is no log.
    for (log, reason) in
        [(&[0][..], Reason::InitUnmet), (&[1, 0], Reason::InitUnmet), (&[2], Reason::NotALog)]
    {
        expect_log_refused(&one_bit("0", "0", "1"), log, reason);
    }
    expect_log_refused(&one_bit("0", "0", "1"), &[], Reason::NotALog);
    // Of `init` a first state is asked, and no start part: that a rule breaks.
    expect_log_refused(&one_bit("!a", "1", "1:a"), &[1], Reason::InitUnmet);
    expect_no_breach(&one_bit("!a", "1", "1:a"), &[0], 1);
}

/// The largest state of seven bits, and each of sixteen rules.
#[test]
fn the_largest_states_and_sets_of_a_log() {
    let seven = "vars=7\nrules=1\ninit=1\nprop=!g\nrule=r:=Gg\n";
    expect_breach(seven, &[127], 0, 0);
    expect_breach(seven, &[63, 127, 127], 1, 1);
    expect_no_breach(seven, &[0, 63], 0);
    for log in [&[128][..], &[0, 128], &[127, 255], &[129, 127]] {
        expect_log_refused(seven, log, Reason::NotALog);
    }
    let sixteen = |rule: &str, last: &str| {
        let rules: String = (0..15).map(|place| format!("rule=r{place}:{rule}\n")).collect();
        format!("vars=1\nrules=16\ninit=!a\nprop=!a\n{rules}rule=r15:{last}\n")
    };
    expect_breach(&sixteen("!A", "!A"), &[0, 1], 65_535, 1);
    expect_breach(&sixteen("1", "!A"), &[0, 1], 1 << 15, 1);
    expect_breach(&sixteen("!A", "1"), &[0, 0, 1], 0x7FFF, 2);
    expect_no_breach(&sixteen("1:a", "1"), &[0], 0x7FFF);
}

/// The numbers of the text come first, 9 the last of them.
#[test]
fn a_refused_text_before_a_log() {
    let follow = TREMOR.to_string() + "\n";
    for log in [&[0, 7][..], &[], &[8], &[4], &[255, 255], &[0, 5]] {
        let answer = |text: &str| calls::blame(text.as_bytes(), log);
        assert_eq!(answer(&follow), Err(Refused::new(Reason::BytesFollow, 8)), "{log:?}");
        assert_eq!(answer(""), Err(Refused::new(Reason::LineDue, 1)), "{log:?}");
        assert_eq!(answer(&tremor_with(1, "rules=4")), Err(Refused::new(Reason::LineDue, 8)), "{log:?}");
        assert_eq!(answer(&tremor_with(6, "rule=rb:1")), Err(Refused::new(Reason::NameTwice, 7)), "{log:?}");
    }
}

/// Two bits that start as 0, with these properties and rules.
fn two_bits(properties: &[&str], rules: &[&str]) -> String {
    let mut text = format!("vars=2\nrules={}\ninit=&!a!b\n", rules.len());
    for property in properties {
        text += &format!("prop={property}\n");
    }
    for (place, rule) in rules.iter().enumerate() {
        text += &format!("rule=r{place}:{rule}\n");
    }
    text
}

/// The trace ends at the first breach of any property: a shorter one by a later property, and of two that are as short the
/// one with the smaller state, in whatever order the properties stand.
#[test]
fn the_first_breach_of_any_property() {
    let counter = ["=A!a", "=B!=ba"];
    for (property, trace) in [("!&ab", &[0, 1, 2, 3][..]), ("!b", &[0, 1, 2]), ("!a", &[0, 1])] {
        expect_judged(&two_bits(&[property], &counter), &[(3, Some(trace))]);
    }
    expect_judged(&two_bits(&["!&ab", "!b"], &counter), &[(3, Some(&[0, 1, 2]))]);
    expect_judged(&two_bits(&["!b", "!&ab"], &counter), &[(3, Some(&[0, 1, 2]))]);
    expect_judged(&two_bits(&["!&ab", "1", "!b", "!a"], &counter), &[(3, Some(&[0, 1]))]);
    expect_judged(&two_bits(&["!b", "!a"], &["1"]), &[(0, Some(&[0, 1])), (1, Some(&[0, 1]))]);
    expect_judged(&two_bits(&["!a", "!b"], &["1"]), &[(0, Some(&[0, 1])), (1, Some(&[0, 1]))]);
}

/// A set holds if it holds for each property: `r0` keeps the one, `r1` the other.
#[test]
fn a_set_that_holds_for_each_property() {
    let text = two_bits(&["!a", "!b"], &["=Aa", "=Bb"]);
    expect_judged(&text, &[(0, Some(&[0, 1])), (1, Some(&[0, 2])), (2, Some(&[0, 1])), (3, None)]);
    expect_lists(&two_bits(&["!a"], &["=Aa", "=Bb"]), &[1], &[1], Kinds(1, 0, 2));
    expect_lists(&two_bits(&["!b"], &["=Aa", "=Bb"]), &[2], &[2], Kinds(2, 0, 1));
    expect_lists(&text, &[3], &[1, 2], Kinds(3, 0, 0));
}

/// The cores of the one are 1 and 4, of the other 2 and 4. Of their unions 3, 4, 5 and 6 the last two have 4 as a proper part.
#[test]
fn a_union_with_another_as_a_proper_part() {
    let rules = ["!A", "!B", "!|AB"];
    expect_lists(&two_bits(&["!a"], &rules), &[1, 4], &[5], Kinds(0, 5, 2));
    expect_lists(&two_bits(&["!b"], &rules), &[2, 4], &[6], Kinds(0, 6, 1));
    expect_lists(&two_bits(&["!a", "!b"], &rules), &[4, 3], &[5, 6], Kinds(0, 7, 0));
}

/// Four that no rule is needed for, three of them beside one that no set keeps, and beside one that a rule keeps.
#[test]
fn four_properties_at_the_edges() {
    expect_lists(&two_bits(&["1", "1", "1", "1"], &["1"]), &[0], &[], Kinds(0, 0, 1));
    for place in 0..4 {
        let mut properties = ["1"; 4];
        properties[place] = "0";
        expect_judged(&two_bits(&properties, &["0"]), &[(0, Some(&[0])), (1, Some(&[0]))]);
        expect_lists(&two_bits(&properties, &["0"]), &[], &[0], Kinds(0, 0, 1));
        properties[place] = "!b";
        expect_judged(&two_bits(&properties, &["!B"]), &[(0, Some(&[0, 2])), (1, None)]);
        expect_lists(&two_bits(&properties, &["!B"]), &[1], &[1], Kinds(1, 0, 0));
    }
}

/// Texts with these lines between `init` and `rule=r:1`, and the line after it.
#[test]
fn refused_property_lines() {
    let with = |lines: &str, after: &str| format!("vars=1\nrules=1\ninit=1\n{lines}rule=r:1\n{after}");
    for count in 1..=4 {
        let before = "prop=a\n".repeat(usize::from(count) - 1);
        let line = count + 3;
        expect_accepted(&with(&(before.clone() + "prop=a\n"), ""));
        expect_refused(&format!("vars=1\nrules=1\ninit=1\n{before}prop=a"), Reason::LineDue, line);
        expect_refused(&with(&(before.clone() + "prop=\n"), ""), Reason::ExpressionLength, line);
        expect_refused(&with(&(before.clone() + "prop=h\n"), ""), Reason::Byte, line);
        expect_refused(&with(&(before.clone() + "prop=A\n"), ""), Reason::Letter, line);
        expect_refused(&with(&(before.clone() + "prop=b\n"), ""), Reason::Letter, line);
        expect_refused(&with(&(before.clone() + "prop=aa\n"), ""), Reason::NotOne, line);
        expect_refused(&with(&(before.clone() + "prop\n"), ""), Reason::LineDue, line);
        expect_refused(&with(&(before.clone() + "init=a\n"), ""), Reason::LineDue, line);
        expect_refused(&with(&(before.clone() + "prop=a\n"), "\n"), Reason::BytesFollow, line + 2);
        expect_refused(&with(&(before.clone() + "prop=a\n"), "prop=a\n"), Reason::BytesFollow, line + 2);
    }
    expect_refused(&with("", ""), Reason::LineDue, 4);
    for fifth in ["prop=a\n", "prop=\n", "prop=A\n", "prop=a"] {
        expect_refused(&with(&("prop=a\n".repeat(4) + fifth), ""), Reason::LineDue, 8);
    }
    expect_refused("vars=1\nrules=1\nprop=a\ninit=1\nrule=r:1\n", Reason::LineDue, 3);
    expect_refused("vars=1\nrules=2\ninit=1\nprop=a\nrule=r:1\nprop=a\nrule=s:1\n", Reason::LineDue, 6);
}

/// `motion` and `double` each see the station, `power` alone sees the battery, and nobody relies on `quiet` and `lamp`.
#[test]
fn rules_of_all_three_kinds() {
    let text = "vars=4\nrules=5\ninit=!c\nprop=>c&ab\nrule=motion:>CA\nrule=quiet:>!a!C\nrule=power:>CB\n\
                rule=double:>C&aA\nrule=lamp:=DC\n";
    expect_lists(text, &[5, 12], &[4, 9], Kinds(4, 9, 18));
}

#[test]
fn without_a_core_every_rule_is_irrelevant() {
    let stale = "vars=4\nrules=2\ninit=&!a&!b&!c!d\nprop=>c&ab\nrule=mem:=Da\nrule=vote:>C&BD\n";
    expect_lists(stale, &[], &[0], Kinds(0, 0, 3));
    let rules: String = (0..16).map(|rule| format!("rule=r{rule}:1\n")).collect();
    let sixteen = format!("vars=1\nrules=16\ninit=!a\nprop=!a\n{rules}");
    expect_lists(&sixteen, &[], &[0], Kinds(0, 0, 65_535));
}

/// Tremor that may start in any state, and a rule that it starts quiet, for which it has no step part.
const POWER_UP: &str = "vars=3\nrules=4\ninit=1\nprop=>c&ab\nrule=ra:>CA\nrule=rb:>CB\nrule=vote:>C&AB\n\
                        rule=quiet:1:!c\n";

/// Without `quiet` the unit rings at once, in state 4; with it each set is judged as in Tremor.
#[test]
fn a_rule_that_speaks_about_power_up() {
    expect_judged(
        POWER_UP,
        &[
            (0, Some(&[4])),
            (3, Some(&[4])),
            (7, Some(&[4])),
            (8, Some(&[0, 4])),
            (9, Some(&[0, 5])),
            (10, Some(&[0, 6])),
            (11, None),
            (12, None),
            (15, None),
        ],
    );
    expect_lists(POWER_UP, &[12, 11], &[8, 5, 6], Kinds(8, 7, 0));
    expect_reached(
        POWER_UP,
        &[
            (0, &[1; 8], 0),
            (7, &[1; 8], 0),
            (8, &[1; 8], 8),
            (9, &[1, 1, 1, 1, 0, 1, 0, 1], 6 * 8),
            (15, &[1, 1, 1, 1, 0, 0, 0, 1], 5 * 8),
        ],
    );
    expect_found(POWER_UP, &[0, 1, 2, 3], 12);
    expect_found(POWER_UP, &[3, 2, 0, 1], 11);
}

/// The same start part in `vote`: now `ra` and `rb` do not suffice, and nobody relies on them.
#[test]
fn a_start_part_and_a_step_part_in_one_rule() {
    let text = tremor_with(2, "init=1").replace("vote:>C&AB", "vote:>C&AB:!c");
    expect_judged(&text, &[(0, Some(&[4])), (3, Some(&[4])), (4, None), (7, None)]);
    expect_lists(&text, &[4], &[4], Kinds(4, 0, 3));
    expect_found(&text, &[2, 1, 0], 4);
}

/// One rule is relied on for its start part, the other for its step part.
#[test]
fn the_start_states_of_each_set() {
    let text = "vars=1\nrules=2\ninit=1\nprop=!a\nrule=on:1:!a\nrule=keep:>Aa\n";
    expect_judged(text, &[(0, Some(&[1])), (1, Some(&[0, 1])), (2, Some(&[1])), (3, None)]);
    expect_reached(text, &[(0, &[1, 1], 0), (1, &[1, 1], 2), (2, &[1, 1], 0), (3, &[1, 0], 2)]);
    expect_lists(text, &[3], &[1, 2], Kinds(3, 0, 0));
    expect_found(text, &[0, 1], 3);
    expect_judged(&one_bit("1", "!a", ">Aa:!a"), &[(0, Some(&[1])), (1, None)]);
    expect_lists(&one_bit("1", "!a", ">Aa:!a"), &[1], &[1], Kinds(1, 0, 0));
}

/// A start state meets `init` and the start parts of all the rules in the set.
#[test]
fn init_and_every_start_part() {
    let beside_init = "vars=2\nrules=1\ninit=!b\nprop=!b\nrule=r:=Bb:!a\n";
    expect_judged(beside_init, &[(0, Some(&[0, 2])), (1, None)]);
    expect_reached(beside_init, &[(0, &[1; 4], 4), (1, &[1, 1, 0, 0], 8)]);
    let two = "vars=2\nrules=2\ninit=1\nprop=0\nrule=r:0:!a\nrule=s:0:!b\n";
    expect_judged(two, &[(0, Some(&[0])), (1, Some(&[0])), (2, Some(&[0])), (3, Some(&[0]))]);
    let four =
        [(0, &[1, 1, 1, 1][..], 0), (1, &[1, 0, 1, 0], 8), (2, &[1, 1, 0, 0], 8), (3, &[1, 0, 0, 0], 4)];
    expect_reached(two, &four);
    // No rule alone keeps every state from being a start state.
    let contradictory = "vars=1\nrules=2\ninit=1\nprop=0\nrule=r:1:a\nrule=s:1:!a\n";
    expect_judged(contradictory, &[(0, Some(&[0])), (1, Some(&[1])), (2, Some(&[0])), (3, None)]);
    expect_reached(contradictory, &[(1, &[1, 1], 1), (2, &[1, 1], 2), (3, &[0, 0], 0)]);
    expect_lists(contradictory, &[3], &[1, 2], Kinds(3, 0, 0));
    expect_lists(&one_bit("1", "0", "1:0"), &[1], &[1], Kinds(1, 0, 0));
    expect_lists(&one_bit("0", "0", "1:0"), &[0], &[], Kinds(0, 0, 1));
    expect_lists(&one_bit("1", "a", "1:!a"), &[], &[0], Kinds(0, 0, 1));
}

/// A start part is asked of the first state of a run alone: later the counter comes to states that do not meet it.
#[test]
fn a_start_part_and_later_states() {
    let counter = "vars=2\nrules=2\ninit=1\nprop=!&ab\nrule=low:=A!a:&!a!b\nrule=high:=B!=ba\n";
    let expected = [(0, Some(&[3][..])), (1, Some(&[0, 3])), (2, Some(&[3])), (3, Some(&[0, 1, 2, 3]))];
    expect_judged(counter, &expected);
    expect_reached(
        counter,
        &[(0, &[1; 4], 0), (1, &[1; 4], 4 + 3), (2, &[1; 4], 0), (3, &[1; 4], 4 + 4 + 4)],
    );
    expect_lists(counter, &[], &[0], Kinds(0, 0, 3));
}

/// A missing start part counts as `1`.
#[test]
fn a_start_part_that_says_nothing() {
    for start in [":1", ":!c", ":|a!a", ":>00"] {
        let text = TREMOR.replace("CA\n", &format!("CA{start}\n")).replace("CB\n", &format!("CB{start}\n"));
        expect_judged(
            &text,
            &[(0, Some(&[0, 4])), (1, Some(&[0, 5])), (2, Some(&[0, 6])), (3, None), (4, None)],
        );
        expect_lists(&text, &[4, 3], &[5, 6], Kinds(0, 7, 0));
        expect_reached(&text, &[(0, &[1; 8], 8), (1, &[1, 1, 1, 1, 0, 1, 0, 1], 6 * 8)]);
        expect_found(&text, &[2, 0, 1], 3);
    }
}

/// By 5 to 8 after the step part has passed, whatever number either has.
#[test]
fn refused_start_parts() {
    let longest = "!".repeat(63) + "a";
    let refused = |rule: &str, reason| expect_refused(&one_bit("1", "1", rule), reason, 5);
    expect_accepted(&one_bit("1", "1", &format!("{longest}:{longest}")));
    refused("1:", Reason::ExpressionLength);
    refused(&format!("1:!{longest}"), Reason::ExpressionLength);
    refused(&format!("1:{longest}:"), Reason::ExpressionLength);
    for start in ["a:", "a:1", ":", ":a", "A:", "aa:", "h", " a", "a\r", "A2"] {
        refused(&format!("1:{start}"), Reason::Byte);
    }
    for start in ["A", "b", "B", "!A", "&aA", "AA", "bb", "g"] {
        refused(&format!("1:{start}"), Reason::Letter);
    }
    for start in ["aa", "&a", "!", "10", "=a"] {
        refused(&format!("1:{start}"), Reason::NotOne);
    }
    for start in ["", "A", "a:", "aa", "a", &format!("!{longest}")] {
        refused(&format!(":{start}"), Reason::ExpressionLength);
        refused(&format!("!{longest}:{start}"), Reason::ExpressionLength);
        refused(&format!("h:{start}"), Reason::Byte);
        refused(&format!("b:{start}"), Reason::Letter);
        refused(&format!("aa:{start}"), Reason::NotOne);
        refused(&format!("&A:{start}"), Reason::NotOne);
    }
}

/// What comes before the step part and after the start part.
#[test]
fn other_numbers_beside_a_start_part() {
    for start in ["", "A", "a:", "aa", "a"] {
        expect_refused(&tremor_with(5, &format!("rule=ra:1:{start}")), Reason::NameTwice, 6);
        expect_refused(&tremor_with(5, &format!("rule=:1:{start}")), Reason::Name, 6);
        expect_refused(&tremor_with(5, &format!("rule=ninebytes:1:{start}")), Reason::Name, 6);
        let without_end = one_bit("1", "1", &format!("1:{start}"));
        expect_refused(&without_end[..without_end.len() - 1], Reason::LineDue, 5);
    }
    expect_refused(&(one_bit("1", "1", "1:a") + "\n"), Reason::BytesFollow, 6);
    expect_refused(&tremor_with(3, "prop=>c&ab:1"), Reason::Byte, 4);
    expect_refused(&tremor_with(2, "init=!c:1"), Reason::Byte, 3);
}

/// Two counts, `init`, four properties and 16 rules at their longest.
#[test]
fn the_longest_text() {
    let longest = "!".repeat(63) + "a";
    let rule = |place: usize| format!("rule=rule{place:04}:{longest}:{longest}\n");
    let rules: String = (0..16).map(rule).collect();
    let states = format!("init={longest}\n{}", format!("prop={longest}\n").repeat(4));
    let text = format!("vars=7\nrules=16\n{states}{rules}");
    assert_eq!(text.len(), 2_670);
    expect_accepted(&text);
    expect_refused(&text.replace("rule0015:", "rule0015:!"), Reason::ExpressionLength, 23);
    expect_refused(&text.replace(":!!!", ":!!!!"), Reason::ExpressionLength, 8);
    let mut longer_start_part = text.clone();
    longer_start_part.insert(text.rfind(':').expect("a start part") + 1, '!');
    expect_refused(&longer_start_part, Reason::ExpressionLength, 23);
    expect_refused(&(text.clone() + "\n"), Reason::BytesFollow, 24);
    expect_refused(&text[..text.len() - 1], Reason::LineDue, 23);
}

#[test]
fn empty_text_and_counts() {
    expect_refused("", Reason::LineDue, 1);
    expect_refused(&tremor_with(0, "vars=8"), Reason::Count, 1);
    for line in ["rules=0", "rules=01", "rules=17"] {
        expect_refused(&tremor_with(1, line), Reason::Count, 2);
    }
    let rules: String = (0..16).map(|rule| format!("rule=r{rule}:=Aa\n")).collect();
    expect_accepted(&format!("vars=1\nrules=16\ninit=!a\nprop=!a\n{rules}"));
    expect_refused(&tremor_with(1, "rules=16"), Reason::LineDue, 8);
}

#[test]
fn expressions_and_names() {
    let longest = "!".repeat(63) + "a";
    expect_accepted(&one_bit(&longest, &longest, &longest));
    expect_refused(&one_bit("1", "1", &format!("!{longest}")), Reason::ExpressionLength, 5);
    expect_refused(&one_bit(&format!("!{longest}"), "1", "1"), Reason::ExpressionLength, 3);
    expect_refused(&one_bit("A", "1", "1"), Reason::Letter, 3);
    expect_refused(&one_bit("&a", "1", "1"), Reason::NotOne, 3);
    expect_refused(&one_bit("aa", "1", "1"), Reason::NotOne, 3);
    expect_refused(&tremor_with(4, "rule=ninebytes:1"), Reason::Name, 5);
    expect_accepted(&tremor_with(4, "rule=eightbyt:1"));
    expect_refused(&(TREMOR.to_string() + "\n"), Reason::BytesFollow, 8);
}

/// Tremor's lists as bytes: the cores 4 and 3, the cuts 5 and 6.
const TREMOR_CORES: &[u8] = &[4, 0, 3, 0];
const TREMOR_CUTS: &[u8] = &[5, 0, 6, 0];

#[test]
fn tremor_looked_up() {
    let mut lists = [[0; 4]; 2];
    assert_eq!(calls::cores(TREMOR.as_bytes(), &mut lists[0]), Ok(2));
    assert_eq!(calls::cuts(TREMOR.as_bytes(), &mut lists[1]), Ok(2));
    assert_eq!((&lists[0][..], &lists[1][..]), (TREMOR_CORES, TREMOR_CUTS));
    let each_set =
        [cut_at(0), cut_at(2), cut_at(0), core_at(2), core_at(0), core_at(0), core_at(0), core_at(0)];
    let expected: Vec<(u32, LookedUp)> = (0..).zip(each_set).collect();
    expect_looked_up(TREMOR_CORES, TREMOR_CUTS, &expected);
    for (set, (said, _)) in expected {
        let verdict = calls::judge(TREMOR.as_bytes(), set, &mut [0; 8]).expect("a set of the model");
        assert_eq!(verdict == Verdict::Holds, said == Said::CoreInside, "set {set}");
    }
}

#[test]
fn rules_that_tremor_lacks() {
    expect_looked_up(
        TREMOR_CORES,
        TREMOR_CUTS,
        &[
            (8, cut_at(0)),
            (9, cut_at(2)),
            (11, core_at(2)),
            (65_536, cut_at(0)),
            (65_536 + 3, core_at(2)),
            (65_536 + 1, cut_at(2)),
            (1 << 31, cut_at(0)),
            (u32::MAX - 4, core_at(2)),
            (u32::MAX - 7, cut_at(0)),
            (u32::MAX, core_at(0)),
        ],
    );
}

#[test]
fn tremor_with_its_lists_exchanged_or_in_another_order() {
    let exchanged =
        [cut_at(0), cut_at(0), cut_at(0), cut_at(0), cut_at(2), core_at(0), core_at(2), core_at(0)];
    expect_looked_up(TREMOR_CUTS, TREMOR_CORES, &(0..).zip(exchanged).collect::<Vec<_>>());
    let twice = &[3, 0, 4, 0, 4, 0, 3, 0];
    expect_looked_up(
        twice,
        &[6, 0, 5, 0],
        &[(7, core_at(0)), (4, core_at(2)), (0, cut_at(0)), (2, cut_at(2))],
    );
    // Both are the cores: a set is said to be apart from a core that it has no rule of.
    expect_looked_up(
        TREMOR_CORES,
        TREMOR_CORES,
        &[(0, cut_at(0)), (1, cut_at(0)), (4, core_at(0)), (3, core_at(2))],
    );
}

#[test]
fn unlisted_sets() {
    expect_looked_up(&[4, 0], TREMOR_CUTS, &[(3, UNLISTED), (7, core_at(0)), (1, cut_at(2))]);
    expect_looked_up(&[3, 0], TREMOR_CUTS, &[(4, UNLISTED), (5, UNLISTED), (3, core_at(0))]);
    expect_looked_up(TREMOR_CORES, &[5, 0], &[(1, UNLISTED), (2, cut_at(0)), (0, cut_at(0))]);
    expect_looked_up(TREMOR_CORES, &[], &[(0, UNLISTED), (1, UNLISTED), (3, core_at(2))]);
    expect_looked_up(&[], TREMOR_CUTS, &[(7, UNLISTED), (1, cut_at(2))]);
    expect_looked_up(&[], &[], &[(0, UNLISTED), (7, UNLISTED), (u32::MAX, UNLISTED)]);
}

/// Set 0 as a listed core is inside every set, and as a listed cut apart from every set; every rule in one set is neither.
#[test]
fn set_0_and_the_full_set_in_a_list() {
    for set in [0, 1, 65_535, 65_536, u32::MAX] {
        expect_looked_up(&[0, 0], &[0, 0], &[(set, core_at(0))]);
        expect_looked_up(&[], &[0, 0], &[(set, cut_at(0))]);
    }
    expect_looked_up(
        &[255, 255, 0, 0],
        &[],
        &[(65_534, core_at(2)), (65_535, core_at(0)), (u32::MAX, core_at(0))],
    );
    expect_looked_up(&[], &[255, 255, 0, 0], &[(1, cut_at(2)), (0, cut_at(0)), (65_536, cut_at(0))]);
    // The low byte comes first: this is rule 8 alone.
    expect_looked_up(
        &[0, 1],
        &[0, 1],
        &[(256, core_at(0)), (1, cut_at(0)), (255, cut_at(0)), (511, core_at(0))],
    );
}

/// Number 12 for each list and for both, whatever is in them.
#[test]
fn lists_of_odd_length() {
    for length in [1, 3] {
        expect_odd(&TREMOR_CORES[..length], TREMOR_CUTS);
        expect_odd(TREMOR_CORES, &TREMOR_CUTS[..length]);
        expect_odd(&TREMOR_CORES[..length], &TREMOR_CUTS[..length]);
        expect_odd(&TREMOR_CORES[..length], &[]);
        expect_odd(&[], &TREMOR_CUTS[..length]);
        expect_odd(&[0; 3][..length], &[0; 4]);
        expect_odd(&[0; 4], &[0; 3][..length]);
    }
}

/// The lists are only read, so that one memory may serve as both.
#[test]
fn lists_in_the_same_memory() {
    let bytes = [6, 0, 3, 0, 5, 0];
    for (cores, cuts, set, said) in [
        (0..6, 0..6, 7, core_at(0)),
        (0..6, 0..6, 2, cut_at(4)),
        (0..4, 2..6, 1, UNLISTED),
        (0..4, 2..6, 3, core_at(2)),
        (0..4, 2..6, 2, cut_at(2)),
        (0..4, 4..6, 2, cut_at(0)),
        // One byte later the bytes are the sets 768 and 1,280.
        (1..5, 0..6, 0x300, core_at(0)),
        (1..5, 0..6, 0x500, core_at(2)),
        (0..6, 1..5, 0x200, cut_at(2)),
    ] {
        expect_looked_up(&bytes[cores.clone()], &bytes[cuts.clone()], &[(set, said)]);
        let lists = Handed::within(&bytes, cores, cuts, Fill::Varying);
        assert_eq!(Tally::default().look_up(set, &lists), Ok(said.0), "set {set}");
    }
    let odd = Handed::within(&bytes, 0..6, 1..4, Fill::Zeros);
    assert_eq!(Tally::default().look_up(7, &odd), Err(Refused::new(Reason::OddList, 0)));
}
