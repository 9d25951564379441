//! Times the calls of the library next to the plain search, on fixed models.
//!
//! `bench [FOLDER]`: with a folder, its *.txt models come first. The generated models are the same in every run. Each
//! time is the median of several runs, and each answer of the library is compared with that of the plain search.

#![deny(warnings)]

use std::hint::black_box;
use std::path::Path;
use std::time::{Duration, Instant};

use codremif_host::answer::{Refused, Said};
use codremif_host::calls;
use codremif_host::compare::place_in;
use codremif_host::judgements;
use codremif_host::plain::answers::{judge, list_bytes, reached, write_list};
use codremif_host::plain::blame::blame;
use codremif_host::plain::lookup;
use codremif_host::plain::one_core::one_core;
use codremif_host::plain::sets::{irrelevant, may, must, Verdicts};
use codremif_host::plain::system::TransitionSystem;
use codremif_host::plain::text::{self, Model};
use codremif_host::random::logs;
use codremif_host::random::models::{full_counter, model_of, Kind};
use codremif_host::random::start_parts::{with_start_part_everywhere, with_start_parts};
use codremif_host::random::written::{join, later, now, pad, Written, WrittenRule};
use codremif_host::random::Random;

/// Runs go on until this time is spent, at least `FEWEST_RUNS` and at most `MOST_RUNS`.
const TIME_FOR_RUNS: Duration = Duration::from_millis(60);
const FEWEST_RUNS: usize = 3;
const MOST_RUNS: usize = 201;

fn main() {
    let folder = std::env::args().nth(1);
    let samples = folder.map_or_else(Vec::new, |folder| sample_models(Path::new(&folder)));
    if !samples.is_empty() {
        table("Sample models", samples.clone());
    }
    table(
        "Smallest models",
        (1..=4).flat_map(|bits| (1..=3).map(move |rules| growing(bits, rules))).collect(),
    );
    table("Largest models: 7 bits, 16 rules", largest_models());
    table("Growing N, 16 rules", (1..=7).map(|bits| growing(bits, 16)).collect());
    table("Growing R, 7 bits", (1..=16).map(|rules| growing(7, rules)).collect());
    table_of_weak_sets();
    table_of_one_core(samples.clone());
    table_of_blame(samples);
    table_of_long_logs();
    table_of_properties();
    table_of_start_parts();
    table_of_lookups();
    println!(
        "Times are medians in milliseconds; 'ratio' is the plain search's time divided by the library's."
    );
    println!("'judged' is how many sets a list call judges; the plain search judges all 2^R, and MUST takes R + 1 at most.");
    println!("The judge call is given the full set where no set is named. All answers of the two sides were alike.");
    println!("Of weak sets, 'in full' is 128 pairs for each reached state: so many are tried without the early end.");
    println!("Next to MUST, 'ratio' is the time of one core, or of a call on a log, divided by that of MUST; at most 1.1 is asked for.");
    println!("On a log of a million states, times are nanoseconds for each state beyond the first; at most 3 are asked for.");
    println!("Next to one property, 'ratio' is the time with four divided by the time with one; at most 1.2 is asked for.");
    println!("Next to none, 'ratio' is the time with start parts divided by the time without them.");
    println!(
        "Where a set is looked up, times are nanoseconds for each listed set passed over; at most 2 are stated."
    );
}

#[derive(Clone)]
struct Case {
    name: String,
    text: Vec<u8>,
}

fn sample_models(folder: &Path) -> Vec<Case> {
    let entries = std::fs::read_dir(folder).unwrap_or_else(|error| panic!("{}: {error}", folder.display()));
    let mut paths: Vec<_> = entries.map(|entry| entry.expect("a folder entry").path()).collect();
    paths.retain(|path| path.extension() == Some("txt".as_ref()));
    paths.sort();
    let mut cases = Vec::new();
    for path in paths {
        let name = path.file_stem().expect("a file name").to_string_lossy().into_owned();
        let text = std::fs::read(&path).expect("a readable model");
        match text::read(&text) {
            Ok(_) => cases.push(Case { name, text }),
            Err(refused) => println!("{name}: left out, {refused}"),
        }
    }
    cases
}

fn largest_models() -> Vec<Case> {
    let of = |name: &str, kind, seed| Case {
        name: name.to_string(),
        text: model_of(&mut Random::new(seed), kind, 7, 16).text(),
    };
    vec![
        of("clauses, few cores", Kind::Clauses, 2),
        of("clauses, more cores", Kind::Clauses, 13),
        of("wild", Kind::Wild, 1),
        of("alternatives, dozens", Kind::Alternatives, 12),
        of("alternatives, hundreds", Kind::Alternatives, 8),
        of("joint, many cuts", Kind::Joint, 16),
        of("dense, dozens", Kind::Dense, 6),
        of("dense, hundreds", Kind::Dense, 2),
        of("counter and others", Kind::Counter, 7),
        longest_text(),
        Case { name: "counter, trace of 128".to_string(), text: full_counter(7).text() },
    ]
}

/// A dense model whose expressions all have 64 bytes.
fn longest_text() -> Case {
    let random = &mut Random::new(8);
    let mut written = model_of(random, Kind::Dense, 7, 16);
    pad_rules(random, &mut written);
    written.init = pad(random, &written.init, 64);
    written.properties[0] = pad(random, &written.properties[0], 64);
    Case { name: "dense, 64-byte rules".to_string(), text: written.text() }
}

fn pad_rules(random: &mut Random, written: &mut Written) {
    for rule in &mut written.rules {
        rule.step = pad(random, &rule.step, 64);
    }
}

fn growing(bits: usize, rules: usize) -> Case {
    Case { name: format!("N {bits}, R {rules}"), text: growing_model(bits, rules).text() }
}

/// Bits that must stay 0, up to four of them, and rules that keep one of them as it is, in turn: the form is the same
/// for every N and R, so that only the size grows.
fn growing_model(bits: usize, rules: usize) -> Written {
    let kept = bits.min(rules).min(4);
    let none_set = format!("!{}", join('|', &(0..kept).map(now).collect::<Vec<_>>()));
    let keeper = |bit| format!(">{}{}", later(bit), now(bit));
    let rules_written =
        (0..rules).map(|rule| WrittenRule::new(format!("r{rule}"), keeper(rule % kept))).collect();
    Written { bits, init: none_set.clone(), properties: vec![none_set], rules: rules_written }
}

fn table(title: &str, cases: Vec<Case>) {
    println!("{title}");
    println!(
        "{:<22} {:>1} {:>2} {:>5} {:>5} {:>6} |{} |{} |{} |{} |{} |{}",
        "model",
        "N",
        "R",
        "cores",
        "cuts",
        "judged",
        heading("judge"),
        heading("cores"),
        heading("cuts"),
        heading("MUST"),
        heading("MAY"),
        heading("irr")
    );
    for case in cases {
        println!("{}", row(&case));
    }
    println!();
}

fn heading(call: &str) -> String {
    heading_next_to(call, "plain")
}

fn heading_next_to(call: &str, other: &str) -> String {
    format!(" {call:>9} {other:>9} {:>7}", "ratio")
}

fn row(case: &Case) -> String {
    let text = &case.text[..];
    let model = text::read(text).expect("an accepted model");
    let full_set = u16::MAX >> (16 - model.rules.len());
    let every_rule = u32::from(full_set);
    let judged = timed_with_bytes(
        |lent| calls::judge(text, every_rule, lent),
        |lent| judge(&TransitionSystem::of(&read(text)), every_rule, lent),
    );
    let cores =
        timed_with_bytes(|lent| calls::cores(text, lent), |lent| write_list(&verdicts(text).cores(), lent));
    let cuts =
        timed_with_bytes(|lent| calls::cuts(text, lent), |lent| write_list(&verdicts(text).cuts(), lent));
    let must = timed(|| calls::must(text), || Ok(must(&verdicts(text).cores())));
    let may = timed(|| calls::may(text), || Ok(may(&verdicts(text).cores())));
    let irr = timed(|| calls::irrelevant(text), || Ok(irrelevant(full_set, &verdicts(text).cores())));
    format!(
        "{:<22} {:>1} {:>2} {:>5} {:>5} {:>6} |{judged} |{cores} |{cuts} |{must} |{may} |{irr}",
        case.name,
        model.bits,
        model.rules.len(),
        cores.answer.expect("enough bytes lent"),
        cuts.answer.expect("enough bytes lent"),
        judgements::of_a_list(&verdicts(text), model.rules.len())
    )
}

fn verdicts(text: &[u8]) -> Verdicts {
    Verdicts::of(&TransitionSystem::of(&read(text)))
}

fn read(text: &[u8]) -> Model {
    text::read(text).expect("an accepted model")
}

/// Set 0 and sets of one rule, which often reach every state, and the full set for comparison.
const WEAK_SETS: [(&str, u32); 5] =
    [("set 0", 0), ("rule 0", 1), ("rule 5", 1 << 5), ("rule 15", 1 << 15), ("full set", 0xFFFF)];

fn table_of_weak_sets() {
    println!("Weak sets of the largest models: 7 bits, 16 rules");
    println!(
        "{:<22} {:<8} {:>6} {:>5} {:>7} |{} |{}",
        "model",
        "set",
        "states",
        "pairs",
        "in full",
        heading("judge"),
        heading("reached")
    );
    let models = ["clauses, more cores", "alternatives, hundreds", "joint, many cuts", "dense, hundreds"];
    for case in largest_models().into_iter().filter(|case| models.contains(&case.name.as_str())) {
        for (name, set) in WEAK_SETS {
            println!("{:<22} {name:<8} {}", case.name, row_of_a_set(&case.text, set));
        }
    }
    println!();
}

fn row_of_a_set(text: &[u8], set: u32) -> String {
    let judged = timed_with_bytes(
        |lent| calls::judge(text, set, lent),
        |lent| judge(&TransitionSystem::of(&read(text)), set, lent),
    );
    let marked = timed_with_bytes(
        |lent| calls::reached(text, set, lent),
        |lent| reached(&TransitionSystem::of(&read(text)), set, lent),
    );
    let mut marks = [0; calls::MARK_BYTES];
    let pairs = calls::reached(text, set, &mut marks).expect("a set of the model").pairs;
    let states = marks.iter().filter(|mark| **mark == 1).count();
    format!("{states:>6} {pairs:>5} {:>7} |{judged} |{marked}", 128 * states)
}

/// Sizes from the smallest model to the largest, where the form is the same.
const SIZES: [(usize, usize); 7] = [(1, 1), (2, 2), (3, 3), (4, 4), (7, 1), (7, 4), (7, 16)];

fn table_of_one_core(samples: Vec<Case>) {
    println!("One core next to MUST, with the first rule first in the order and with the last");
    println!(
        "{:<22} {:>1} {:>2} |{} |{} |{}",
        "model",
        "N",
        "R",
        heading("one core"),
        heading_next_to("first", "MUST"),
        heading_next_to("last", "MUST")
    );
    let by_size = SIZES.map(|(bits, rules)| growing(bits, rules));
    for case in samples.into_iter().chain(largest_models()).chain(by_size) {
        println!("{}", row_of_one_core(&case));
    }
    println!();
}

fn row_of_one_core(case: &Case) -> String {
    let text = &case.text[..];
    let model = read(text);
    let first: Vec<u8> = (0..model.rules.len() as u8).collect();
    let last: Vec<u8> = first.iter().rev().copied().collect();
    let timed =
        timed(|| calls::one_core(text, &first), || one_core(&TransitionSystem::of(&read(text)), &first));
    assert_eq!(
        calls::one_core(text, &last),
        one_core(&TransitionSystem::of(&model), &last),
        "library left, plain search right"
    );
    let next_to_must = |order: &[u8]| in_turns(|| calls::one_core(text, order), || calls::must(text));
    format!(
        "{:<22} {:>1} {:>2} |{timed} |{} |{}",
        case.name,
        model.bits,
        model.rules.len(),
        next_to_must(&first),
        next_to_must(&last)
    )
}

/// A minute of a station's log: any states, of which the first meets `init`. None if no state does.
fn minute(system: &TransitionSystem) -> Option<Vec<u8>> {
    logs::log(&mut Random::new(60), system, logs::Kind::Any, 60)
}

fn table_of_blame(samples: Vec<Case>) {
    println!("Blame from a log of 60 states, next to the plain search and next to MUST");
    println!(
        "{:<22} {:>1} {:>2} |{} |{} |{} |{}",
        "model",
        "N",
        "R",
        heading("blame"),
        heading("breach"),
        heading_next_to("blame", "MUST"),
        heading_next_to("breach", "MUST")
    );
    let by_size = SIZES.map(|(bits, rules)| growing(bits, rules));
    for case in samples.into_iter().chain(largest_models()).chain(by_size) {
        match minute(&TransitionSystem::of(&read(&case.text))) {
            Some(log) => println!("{}", row_of_blame(&case, &log)),
            None => println!("{}: left out, no state meets `init`", case.name),
        }
    }
    println!();
}

fn row_of_blame(case: &Case, log: &[u8]) -> String {
    let text = &case.text[..];
    let Model { bits, rules, .. } = read(text);
    let broken =
        timed(|| calls::broken_rules(text, log), || broken_rules(&TransitionSystem::of(&read(text)), log));
    let place =
        timed(|| calls::breach_place(text, log), || breach_place(&TransitionSystem::of(&read(text)), log));
    format!(
        "{:<22} {bits:>1} {:>2} |{broken} |{place} |{} |{}",
        case.name,
        rules.len(),
        in_turns(|| calls::broken_rules(text, log), || calls::must(text)),
        in_turns(|| calls::breach_place(text, log), || calls::must(text))
    )
}

/// What each of the two calls on a log gives, by the plain search.
fn broken_rules(system: &TransitionSystem, log: &[u8]) -> Result<(u16, bool), Refused> {
    blame(system, log).map(|said| (said.broken, said.breach.place() < log.len()))
}

fn breach_place(system: &TransitionSystem, log: &[u8]) -> Option<usize> {
    blame(system, log).ok().map(|said| said.breach.place())
}

/// A run of the full set, where it has one so long, and any states.
fn table_of_long_logs() {
    const STATES: usize = 1_000_000;
    println!("Blame from a log of a million states, beyond the time of a log of one");
    println!(
        "{:<22} {:>1} {:>2} {:<10} |{} |{}",
        "model",
        "N",
        "R",
        "log",
        heading("blame"),
        heading("breach")
    );
    let models = ["clauses, few cores", "alternatives, hundreds", "dense, hundreds", "counter, trace of 128"];
    let largest = largest_models().into_iter().filter(|case| models.contains(&case.name.as_str()));
    for case in SIZES.map(|(bits, rules)| growing(bits, rules)).into_iter().chain(largest) {
        let model = read(&case.text);
        let system = TransitionSystem::of(&model);
        for (name, kind) in [("a run", logs::Kind::Run), ("any states", logs::Kind::Any)] {
            let log = logs::log(&mut Random::new(1_000_000), &system, kind, STATES);
            if let Some(log) = log.filter(|log| log.len() == STATES) {
                let (bits, rules) = (model.bits, model.rules.len());
                let row = row_of_a_long_log(&case.text, &system, &log);
                println!("{:<22} {bits:>1} {rules:>2} {name:<10} {row}", case.name);
            }
        }
    }
    println!();
}

fn row_of_a_long_log(text: &[u8], system: &TransitionSystem, log: &[u8]) -> String {
    let broken = beyond_one_state(log, |log| calls::broken_rules(text, log), |log| broken_rules(system, log));
    let place = beyond_one_state(log, |log| calls::breach_place(text, log), |log| breach_place(system, log));
    let more = log.len() - 1;
    format!("|{} |{}", broken.for_each_of(more), place.for_each_of(more))
}

/// How much longer a log takes than its first state alone.
fn beyond_one_state<T: PartialEq + std::fmt::Debug>(
    log: &[u8],
    library: impl Fn(&[u8]) -> T,
    plain: impl Fn(&[u8]) -> T,
) -> Timed<T> {
    let all = timed(|| library(log), || plain(log));
    let one = timed(|| library(&log[..1]), || plain(&log[..1]));
    Timed {
        answer: all.answer,
        library: all.library.saturating_sub(one.library),
        plain: all.plain.saturating_sub(one.plain),
    }
}

/// The same model in two texts: with four properties, and with one property that is their conjunction.
struct Conjoined {
    name: String,
    written: Written,
    four: Vec<u8>,
    one: Vec<u8>,
}

impl Conjoined {
    fn of(name: &str, written: &Written, four: &[String]) -> Conjoined {
        assert_eq!(four.len(), 4, "{name}");
        Conjoined {
            name: name.to_string(),
            written: written.clone(),
            four: written.with_properties(four.to_vec()).text(),
            one: written.with_properties(vec![join('&', four)]).text(),
        }
    }

    /// Of the bits that the model's property wants to be 0 one in each property, and the others in the last; where they are
    /// fewer than four, some of them again.
    fn by_bit(name: &str, written: &Written) -> Conjoined {
        let letters: Vec<char> = written.properties[0].chars().filter(char::is_ascii_lowercase).collect();
        let each = (0..letters.len().max(4)).map(|place| format!("!{}", letters[place % letters.len()]));
        let mut four: Vec<String> = each.collect();
        let others = four.split_off(3);
        four.push(join('&', &others));
        Conjoined::of(name, written, &four)
    }
}

/// The smallest models, where three lines more to read tell most, and some of the largest.
fn conjoined_models() -> Vec<Conjoined> {
    let by_size =
        |(bits, rules)| Conjoined::by_bit(&format!("N {bits}, R {rules}"), &growing_model(bits, rules));
    let mut models: Vec<Conjoined> = SIZES.map(by_size).into();
    let alternatives = model_of(&mut Random::new(8), Kind::Alternatives, 7, 16);
    models.push(Conjoined::by_bit("alternatives, hundreds", &alternatives));
    // Together they say that `a` is 0, as the one property of these models does.
    let four = ["|!ab", "|!a!b", "|!ac", "|!a!c"].map(str::to_string);
    let mut dense = model_of(&mut Random::new(2), Kind::Dense, 7, 16);
    models.push(Conjoined::of("dense, hundreds", &dense, &four));
    pad_rules(&mut Random::new(2), &mut dense);
    models.push(Conjoined::of("dense, 64-byte rules", &dense, &four));
    models
}

fn table_of_properties() {
    println!("Four properties next to one that is their conjunction");
    let (cores, cuts) = (heading_next_to("cores", "one"), heading_next_to("cuts", "one"));
    println!("{:<22} {:>1} {:>2} |{cores} |{cuts}", "model", "N", "R");
    for model in conjoined_models() {
        let (cores, cuts) = (conjoined_list(&model, calls::cores), conjoined_list(&model, calls::cuts));
        let Conjoined { name, written, .. } = model;
        println!("{name:<22} {:>1} {:>2} |{cores} |{cuts}", written.bits, written.rules.len());
    }
    println!();
}

/// Both texts have the same list.
fn conjoined_list(model: &Conjoined, call: fn(&[u8], &mut [u8]) -> Result<usize, Refused>) -> NextTo {
    let (mut sets_of_four, mut sets_of_one) = (vec![0; calls::LIST_BYTES], vec![0; calls::LIST_BYTES]);
    let four = call(&model.four, &mut sets_of_four).expect("an accepted model");
    let one = call(&model.one, &mut sets_of_one).expect("an accepted model");
    assert_eq!(four, one, "{}: four properties left, one right", model.name);
    let times = in_turns(|| call(&model.four, &mut sets_of_four), || call(&model.one, &mut sets_of_one));
    assert_eq!(sets_of_four, sets_of_one, "{}: lent bytes, four properties left, one right", model.name);
    times
}

/// The same model in two texts: with start parts, and without them.
struct Started {
    name: String,
    with: Vec<u8>,
    without: Vec<u8>,
}

impl Started {
    /// Each rule gets a start part that says what `init` says, and `init` says nothing in the text that has them: so they are the
    /// same models for every set but set 0.
    fn in_place_of_init(name: &str, without: &Written) -> Started {
        let mut with = with_start_part_everywhere(without, &without.init);
        with.init = "1".to_string();
        Started { name: name.to_string(), with: with.text(), without: without.text() }
    }

    /// Random start parts.
    fn random(name: &str, without: &Written, seed: u64) -> Started {
        let mut with = without.clone();
        with_start_parts(&mut Random::new(seed), &mut with);
        Started { name: name.to_string(), with: with.text(), without: without.text() }
    }

    fn next_to_none<T>(&self, call: impl Fn(&[u8], &mut [u8]) -> T) -> NextTo {
        let (mut lent, mut other_lent) = (vec![0; calls::LIST_BYTES], vec![0; calls::LIST_BYTES]);
        in_turns(|| call(&self.with, &mut lent), || call(&self.without, &mut other_lent))
    }
}

/// By size, and of the largest ones some of each kind.
fn started_models() -> Vec<Started> {
    let by_size = |(bits, rules)| {
        Started::in_place_of_init(&format!("N {bits}, R {rules}"), &growing_model(bits, rules))
    };
    let mut models: Vec<Started> = SIZES.map(by_size).into();
    for (name, kind, seed) in [
        ("clauses, more cores", Kind::Clauses, 13),
        ("alternatives, hundreds", Kind::Alternatives, 8),
        ("joint, many cuts", Kind::Joint, 16),
        ("dense, hundreds", Kind::Dense, 2),
    ] {
        let written = model_of(&mut Random::new(seed), kind, 7, 16);
        models.push(Started::random(name, &written, seed));
    }
    models
}

fn table_of_start_parts() {
    println!("Start parts, next to the plain search and next to the same model without them");
    let next_to_none = |call| heading_next_to(call, "none");
    println!(
        "{:<22} {:>1} {:>2} {:>5} {:>5} |{} |{} |{} |{} |{} |{}",
        "model",
        "N",
        "R",
        "cores",
        "cuts",
        heading("judge"),
        heading("cores"),
        heading("cuts"),
        next_to_none("judge"),
        next_to_none("cores"),
        next_to_none("cuts")
    );
    for model in started_models() {
        println!("{}", row_of_start_parts(&model));
    }
    println!();
}

fn row_of_start_parts(model: &Started) -> String {
    let text = &model.with[..];
    let Model { bits, rules, .. } = read(text);
    let full_set = u32::from(u16::MAX >> (16 - rules.len()));
    let judged = timed_with_bytes(
        |lent| calls::judge(text, full_set, lent),
        |lent| judge(&TransitionSystem::of(&read(text)), full_set, lent),
    );
    let cores =
        timed_with_bytes(|lent| calls::cores(text, lent), |lent| write_list(&verdicts(text).cores(), lent));
    let cuts =
        timed_with_bytes(|lent| calls::cuts(text, lent), |lent| write_list(&verdicts(text).cuts(), lent));
    format!(
        "{:<22} {bits:>1} {:>2} {:>5} {:>5} |{judged} |{cores} |{cuts} |{} |{} |{}",
        model.name,
        rules.len(),
        cores.answer.expect("enough bytes lent"),
        cuts.answer.expect("enough bytes lent"),
        model.next_to_none(|text, lent| calls::judge(text, full_set, lent)),
        model.next_to_none(calls::cores),
        model.next_to_none(calls::cuts)
    )
}

/// Lists of which every set is passed over, as long as any model's.
struct PassedOver {
    name: &'static str,
    set: u32,
    cores: Vec<u8>,
    cuts: Vec<u8>,
}

/// The sets of eight of 16 rules: none is inside a set of seven rules, and none is apart from a set of nine. With rule 0 in
/// each of them, none is apart from a set that has it.
fn passed_over() -> Vec<PassedOver> {
    const SEVEN: u32 = 0x007F;
    const NINE: u32 = 0x01FF;
    let eights: Vec<u16> = (0..=u16::MAX).filter(|set| set.count_ones() == 8).collect();
    let with_rule_0: Vec<u16> = eights.iter().map(|set| set | 1).collect();
    let (cores, cuts, cuts_with_rule_0) =
        (list_bytes(&eights), list_bytes(&eights), list_bytes(&with_rule_0));
    vec![
        PassedOver { name: "the core list", set: SEVEN, cores: cores.clone(), cuts: Vec::new() },
        PassedOver { name: "the cut list", set: NINE, cores: Vec::new(), cuts },
        PassedOver { name: "both lists", set: SEVEN, cores, cuts: cuts_with_rule_0 },
    ]
}

fn table_of_lookups() {
    println!("Looking a set up in lists of 12,870 sets, nothing found");
    println!("{:<22} {:>18} |{} |{}", "passed over", "sets", heading("suffices"), heading("witness"));
    for PassedOver { name, set, cores, cuts } in passed_over() {
        let sets = (cores.len() + cuts.len()) / 2;
        // Without the black box the plain search of all runs could be made once.
        let suffices =
            timed(|| calls::suffices(set, &cores, &cuts), || lookup::suffices(black_box(set), &cores, &cuts));
        let place = timed(
            || calls::witness_place(set, &cores, &cuts),
            || place_in(&[], lookup::witness(black_box(set), &cores, &cuts)),
        );
        assert_eq!((suffices.answer, place.answer), (Ok(Said::Unlisted), None), "{name}");
        println!("{name:<22} {sets:>18} |{} |{}", suffices.for_each_of(sets), place.for_each_of(sets));
    }
    println!();
}

/// One answer and how long each side took for it.
struct Timed<T> {
    answer: T,
    library: Duration,
    plain: Duration,
}

impl<T> Timed<T> {
    /// The nanoseconds for each of so many sets or states, and the ratio.
    fn for_each_of(&self, count: usize) -> String {
        let nanoseconds = |time: Duration| time.as_secs_f64() * 1e9 / count as f64;
        let (library, plain) = (nanoseconds(self.library), nanoseconds(self.plain));
        format!(" {library:>9.3} {plain:>9.3} {:>7.2}", plain / library)
    }
}

impl<T> std::fmt::Display for Timed<T> {
    fn fmt(&self, out: &mut std::fmt::Formatter) -> std::fmt::Result {
        let milliseconds = |time: Duration| time.as_secs_f64() * 1000.0;
        let (library, plain) = (milliseconds(self.library), milliseconds(self.plain));
        write!(out, " {library:>9.4} {plain:>9.4} {:>7.2}", plain / library)
    }
}

fn timed<T: PartialEq + std::fmt::Debug>(library: impl FnMut() -> T, plain: impl FnMut() -> T) -> Timed<T> {
    let (answer, library) = median(library);
    let (expected, plain) = median(plain);
    assert_eq!(answer, expected, "library left, plain search right");
    Timed { answer, library, plain }
}

/// The same with lent bytes, which must be alike afterwards.
fn timed_with_bytes<T: PartialEq + std::fmt::Debug>(
    mut library: impl FnMut(&mut [u8]) -> T,
    mut plain: impl FnMut(&mut [u8]) -> T,
) -> Timed<T> {
    let (mut theirs, mut ours) = (vec![0; calls::LIST_BYTES], vec![0; calls::LIST_BYTES]);
    let timed = timed(|| library(&mut theirs), || plain(&mut ours));
    assert_eq!(theirs, ours, "lent bytes, library left, plain search right");
    timed
}

/// The answer, and the median time of the runs.
fn median<T>(mut run: impl FnMut() -> T) -> (T, Duration) {
    let begun = Instant::now();
    let mut times = Vec::new();
    loop {
        let start = Instant::now();
        let answer = run();
        times.push(start.elapsed());
        let enough = times.len() >= FEWEST_RUNS && begun.elapsed() >= TIME_FOR_RUNS;
        if enough || times.len() == MOST_RUNS {
            return (answer, middle(times));
        }
    }
}

fn middle(mut times: Vec<Duration>) -> Duration {
    times.sort();
    times[times.len() / 2]
}

/// How long a call takes, and another one that it is held to.
struct NextTo {
    call: Duration,
    other: Duration,
}

impl std::fmt::Display for NextTo {
    fn fmt(&self, out: &mut std::fmt::Formatter) -> std::fmt::Result {
        let milliseconds = |time: Duration| time.as_secs_f64() * 1000.0;
        let (call, other) = (milliseconds(self.call), milliseconds(self.other));
        write!(out, " {call:>9.4} {other:>9.4} {:>7.2}", call / other)
    }
}

/// The median times of two calls, made in turns so that both meet the same machine. Calls that take little are made several
/// times on end, so that looking at the clock does not count.
fn in_turns<T, U>(mut call: impl FnMut() -> T, mut other: impl FnMut() -> U) -> NextTo {
    const ON_END: Duration = Duration::from_micros(50);
    let start = Instant::now();
    black_box((call(), other()));
    let calls = (2 * ON_END.as_nanos() / start.elapsed().as_nanos().max(1)).max(1) as u32;
    let begun = Instant::now();
    let (mut times, mut times_of_other) = (Vec::new(), Vec::new());
    while times.len() < MOST_RUNS && begun.elapsed() < 4 * TIME_FOR_RUNS {
        times.push(time_of_each(calls, &mut call));
        times_of_other.push(time_of_each(calls, &mut other));
    }
    NextTo { call: middle(times), other: middle(times_of_other) }
}

fn time_of_each<T>(calls: u32, mut run: impl FnMut() -> T) -> Duration {
    let start = Instant::now();
    for _ in 0..calls {
        black_box(run());
    }
    start.elapsed() / calls
}
