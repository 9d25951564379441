//! Blame from a log: the library against the plain search, on random models with logs of every kind and with bytes that are
//! refused in place of one. What the request says of a log in which a property broke is tried with the library's own lists and
//! judgements: the broken rules share a rule with every core and contain a cut.

#![deny(warnings)]

use std::collections::BTreeMap;
use std::path::{Path, PathBuf};

use codremif_host::answer::{Blame, Breach, Refused, Said};
use codremif_host::calls;
use codremif_host::compare::{demand_each, show, Asked, Tally};
use codremif_host::everything::trace;
use codremif_host::handed::Guarded;
use codremif_host::lent::Fill;
use codremif_host::plain::answers::list_bytes;
use codremif_host::plain::blame::blame;
use codremif_host::plain::report::names;
use codremif_host::plain::system::TransitionSystem;
use codremif_host::plain::text;
use codremif_host::random::damage::damaged;
use codremif_host::random::generator::seed_for;
use codremif_host::random::lists::random_set;
use codremif_host::random::logs::{log, states, with_fault, Fault, Kind};
use codremif_host::random::models::model;
use codremif_host::random::properties::PropertyCounts;
use codremif_host::random::start_parts::StartPartCounts;
use codremif_host::random::Random;

/// What came up, so that a test can demand that everything did.
#[derive(Debug, Default)]
struct Seen {
    tally: Tally,
    /// Accepted calls by the number of rules, the first is for one, and by the number of bits.
    by_rules: [usize; 16],
    by_bits: [usize; 7],
    kinds: BTreeMap<Kind, usize>,
    properties: PropertyCounts,
    start_parts: StartPartCounts,
    /// Logs of one state, of two, and of 100 and more.
    one_state: usize,
    two_states: usize,
    many_states: usize,
    breach: usize,
    no_breach: usize,
    /// The first bad state is the first of the log; the last of several; neither.
    breach_first: usize,
    breach_last: usize,
    breach_between: usize,
    /// The first bad state meets the first property.
    breach_by_another: usize,
    /// A bad state comes after the first one.
    bad_again: usize,
    /// Some rules are broken after the breach only.
    broken_after: usize,
    /// Some rules are broken, though there is no breach.
    broken_without_breach: usize,
    /// A breach, though no rule is broken; neither of them; every one of several rules is broken.
    none_broken: usize,
    nothing_wrong: usize,
    all_broken: usize,
    /// Some rule is broken by its start part only; by its step part only, though it has a start part; by both.
    by_start_part: usize,
    by_step_part: usize,
    by_both_parts: usize,
    /// The last rule of sixteen is broken.
    last_of_sixteen: usize,
    faults: BTreeMap<Fault, usize>,
    /// What number is given to a damaged text beside bytes that are a log for none: 14 only if the text is accepted.
    beside_damaged: BTreeMap<u8, usize>,
    /// Models that no log can be for, since no state meets `init`.
    no_log: usize,
}

fn about(asked: &Asked, log: &[u8]) -> String {
    format!("{} states, {:?}; {}", log.len(), &log[..log.len().min(100)], show(&asked.text))
}

impl Seen {
    /// What is said of a log. Where a property breaks in it, the log up to there is asked too, with the rest beside it in memory.
    fn accepted(&mut self, asked: &Asked, log: &[u8], fill: Fill) -> Blame {
        let said = self.ask(asked, log, 0..log.len(), fill);
        self.note(&asked.system, log, said);
        if let Breach::At(place) = said.breach {
            let until_breach = self.ask(asked, log, 0..place + 1, fill);
            self.note(&asked.system, &log[..=place], until_breach);
            assert_eq!(until_breach.breach, said.breach, "{}", about(asked, log));
            self.broken_after += usize::from(until_breach.broken != said.broken);
        }
        said
    }

    fn ask(&mut self, asked: &Asked, log: &[u8], part: std::ops::Range<usize>, fill: Fill) -> Blame {
        let guarded = Guarded::within(log, part, fill);
        let answer = self.tally.blame(&asked.text, Ok(&asked.system), &guarded, fill);
        answer.unwrap_or_else(|refused| panic!("{refused}; {}", about(asked, guarded.bytes())))
    }

    fn note(&mut self, system: &TransitionSystem, log: &[u8], Blame { broken, breach }: Blame) {
        let is_bad = |state: &&u8| system.bad[usize::from(**state)];
        self.by_rules[system.rules - 1] += 1;
        self.by_bits[system.states.ilog2() as usize - 1] += 1;
        self.one_state += usize::from(log.len() == 1);
        self.two_states += usize::from(log.len() == 2);
        self.many_states += usize::from(log.len() >= 100);
        self.bad_again += usize::from(log.iter().filter(is_bad).count() > 1);
        self.all_broken += usize::from(system.rules > 1 && broken == system.full_set());
        self.last_of_sixteen += usize::from(broken >> 15 == 1);
        self.note_parts(system, log, broken);
        match breach {
            Breach::Nowhere { .. } => {
                self.no_breach += 1;
                self.nothing_wrong += usize::from(broken == 0);
                self.broken_without_breach += usize::from(broken != 0);
            }
            Breach::At(place) => {
                self.breach += 1;
                self.none_broken += usize::from(broken == 0);
                self.breach_first += usize::from(place == 0);
                self.breach_last += usize::from(place > 0 && place + 1 == log.len());
                self.breach_between += usize::from(place > 0 && place + 1 < log.len());
                self.breach_by_another += usize::from(!system.breaking[0][usize::from(log[place])]);
            }
        }
    }

    /// By which of its parts a rule is broken.
    fn note_parts(&mut self, system: &TransitionSystem, log: &[u8], broken: u16) {
        let first = usize::from(log[0]);
        let is_step =
            |rule: u16, pair: &[u8]| system.is_step(rule, usize::from(pair[0]), usize::from(pair[1]));
        let has_start_part =
            |rule: u16| (0..system.states).any(|state| !system.meets_start_parts(rule, state));
        let (mut by_start_part, mut by_step_part, mut by_both_parts) = (false, false, false);
        for rule in (0..system.rules).map(|place| 1 << place).filter(|rule| broken & rule != 0) {
            let start_fails = !system.meets_start_parts(rule, first);
            let step_fails = log.windows(2).any(|pair| !is_step(rule, pair));
            by_start_part |= start_fails && !step_fails;
            by_step_part |= !start_fails && has_start_part(rule);
            by_both_parts |= start_fails && step_fails;
        }
        self.by_start_part += usize::from(by_start_part);
        self.by_step_part += usize::from(by_step_part);
        self.by_both_parts += usize::from(by_both_parts);
    }

    fn refused(&mut self, random: &mut Random, asked: &Asked, fault: Fault, fill: Fill) {
        let guarded = with_fault(random, &asked.system, fault, fill);
        let answer = self.tally.blame(&asked.text, Ok(&asked.system), &guarded, fill);
        let refused = Err(Refused::new(fault.reason(), 0));
        assert_eq!(answer, refused, "{fault:?}; {}", about(asked, guarded.bytes()));
        *self.faults.entry(fault).or_default() += 1;
    }

    /// Whatever the damage has made of the text, both sides are asked the same, with a log for the text as it was and with bytes
    /// that are a log for none.
    fn damaged(&mut self, random: &mut Random, text: &[u8], log: &[u8], fill: Fill) {
        let text = damaged(random, text);
        let read = text::read(&text).map(|model| TransitionSystem::of(&model));
        let system = read.as_ref().map_err(|refused| *refused);
        let _ = self.tally.blame(&text, system, &Guarded::new(log, fill), fill);
        let none = random.pick(&[&[][..], &[128], &[255; 3], &[0, 0, 200], &[0, 128, 0]]);
        let answer = self.tally.blame(&text, system, &Guarded::new(none, fill), fill);
        let number = answer.expect_err("bytes that are no log").reason.number();
        *self.beside_damaged.entry(number).or_default() += 1;
    }
}

const LENGTHS: [usize; 13] = [1, 1, 2, 2, 3, 3, 4, 5, 8, 13, 20, 60, 300];

/// Each model is asked with logs of every kind and with every fault; then its text is damaged.
#[test]
fn random_models() {
    let mut random = Random::new(seed_for("blame, random models", 20_261_101));
    let mut seen = Seen::default();
    for turn in 0..4_000 {
        let (bits, rules) = (random.pick(&[1, 2, 2, 3, 3, 3, 4, 4, 4, 5, 6, 7]), turn % 16 + 1);
        let written = model(&mut random, bits, rules);
        let asked = Asked::of(&written);
        let fill = Fill::ALL[turn % 3];
        for kind in Kind::ALL {
            let length = random.pick(&LENGTHS);
            let Some(log) = log(&mut random, &asked.system, kind, length) else { continue };
            seen.accepted(&asked, &log, fill);
            *seen.kinds.entry(kind).or_default() += 1;
        }
        for fault in Fault::ALL.into_iter().filter(|fault| fault.can_be(&asked.system)) {
            seen.refused(&mut random, &asked, fault, fill);
        }
        let length = random.pick(&LENGTHS);
        let any_states = states(&mut random, &written, length);
        seen.damaged(&mut random, &asked.text, &any_states, fill);
        seen.properties.note(written.properties.len());
        seen.start_parts.note(&written);
        seen.no_log += usize::from(!asked.system.init.contains(&true));
    }
    println!("blame, random models: {seen:?}");
    demand_of_random_models(&seen);
}

fn demand_of_random_models(seen: &Seen) {
    assert!(seen.tally.asked >= 50_000 && seen.tally.accepted() >= 20_000, "{seen:?}");
    assert!(seen.breach >= 12_000 && seen.no_breach >= 6_000, "{seen:?}");
    assert!(seen.breach_first >= 5_000 && seen.breach_last >= 3_000, "{seen:?}");
    assert!(seen.breach_between >= 2_000 && seen.breach_by_another >= 4_000, "{seen:?}");
    assert!(seen.bad_again >= 3_000 && seen.broken_after >= 2_000, "{seen:?}");
    assert!(seen.broken_without_breach >= 1_500 && seen.nothing_wrong >= 4_000, "{seen:?}");
    assert!(seen.none_broken >= 3_000 && seen.all_broken >= 1_500, "{seen:?}");
    assert!(seen.by_start_part >= 3_000 && seen.by_step_part >= 2_000, "{seen:?}");
    assert!(seen.by_both_parts >= 1_000 && seen.last_of_sixteen >= 200, "{seen:?}");
    assert!(seen.one_state >= 5_000 && seen.two_states >= 3_000 && seen.many_states >= 600, "{seen:?}");
    assert!(seen.by_rules.iter().all(|times| *times >= 1_000), "{seen:?}");
    assert!(seen.by_bits.iter().all(|times| *times >= 1_000), "{seen:?}");
    assert!(seen.properties.fewest() >= 500 && seen.start_parts.fewest() >= 500, "{seen:?}");
    assert!(Kind::ALL.iter().all(|kind| seen.kinds[kind] >= 2_000), "{seen:?}");
    demand_each(&seen.faults, Fault::ALL, 3_000);
    assert!(seen.no_log >= 100, "{seen:?}");
    // The numbers of a text come before that of a log.
    demand_each(&seen.beside_damaged, (1..=9).chain([14]), 20);
}

/// Every log of few states, with the first byte that is no state among them, on models of one and two bits.
#[test]
fn every_log_of_few_states() {
    let mut random = Random::new(seed_for("every log", 20_261_102));
    let mut tally = Tally::default();
    for (bits, longest, models) in [(1, 5, 200), (2, 4, 100)] {
        let logs = every_log((1 << bits) + 1, longest);
        for turn in 0..models {
            let asked = Asked::of(&model(&mut random, bits, turn % 16 + 1));
            let fill = Fill::ALL[turn % 3];
            for log in &logs {
                let _ = tally.blame(&asked.text, Ok(&asked.system), &Guarded::new(log, fill), fill);
            }
        }
    }
    println!("every log: {tally:?}");
    assert!(tally.asked >= 100_000 && tally.accepted() >= 20_000, "{tally:?}");
}

/// All that have at most so many bytes, each less than `bound`.
fn every_log(bound: u8, longest: usize) -> Vec<Vec<u8>> {
    let mut logs = vec![Vec::new()];
    let mut shorter = 0;
    for _ in 0..longest {
        let with_one_more =
            |log: &Vec<u8>| (0..bound).map(|state| [&log[..], &[state]].concat()).collect::<Vec<_>>();
        let longer: Vec<Vec<u8>> = logs[shorter..].iter().flat_map(with_one_more).collect();
        shorter = logs.len();
        logs.extend(longer);
    }
    logs
}

/// What came up of logs in which a property broke, held to the library's own lists and judgements.
#[derive(Debug, Default)]
struct Held {
    breaches: usize,
    /// The broken rules are a cut; contain several.
    cut: usize,
    several_cuts: usize,
    /// There are several cores; there is none, since the full set is broken.
    several_cores: usize,
    no_core: usize,
    /// No rule is broken, so that the full set is.
    none_broken: usize,
    /// Rules are broken, though the full set is broken without that.
    broken_beside_no_core: usize,
    /// The trace without the broken rules is as long as the log up to the breach; is shorter.
    trace_as_long: usize,
    trace_shorter: usize,
    /// Fewer rules are broken up to the breach than in the whole log, and they contain a cut already.
    fewer_until_breach: usize,
}

/// The two lists of a model, as the library gives them.
struct Lists {
    cores: Vec<u16>,
    cuts: Vec<u16>,
    full_set: u16,
}

impl Lists {
    fn of(text: &[u8], rules: usize) -> Lists {
        Lists {
            cores: calls::listed(calls::cores, text).expect("an accepted model"),
            cuts: calls::listed(calls::cuts, text).expect("an accepted model"),
            full_set: u16::MAX >> (16 - rules),
        }
    }
}

impl Held {
    /// A property breaks at this place of the log. The broken rules share a rule with every core, and some cut is a part of them:
    /// without them the rest is broken, by a trace that is no longer than the log up to there. If no rule is broken, the rest is
    /// the full set.
    fn hold(&mut self, text: &[u8], log: &[u8], lists: &Lists, broken: u16, place: usize) {
        let about = || format!("broken {broken}, breach at {place}, log {log:?}; {}", show(text));
        let unlike = lists.cores.iter().find(|core| **core & broken == 0);
        assert_eq!(unlike, None, "a core without a broken rule; {}", about());
        let inside = lists.cuts.iter().filter(|cut| **cut & broken == **cut).count();
        assert_ne!(inside, 0, "no cut is a part of the broken rules; {}", about());
        let rest = lists.full_set & !broken;
        let run = trace(text, rest).unwrap_or_else(|| panic!("the rest holds; {}", about()));
        assert!(run.len() <= place + 1, "the trace {run:?} is longer; {}", about());
        let (cores, cuts) = (list_bytes(&lists.cores), list_bytes(&lists.cuts));
        let said = calls::suffices(u32::from(rest), &cores, &cuts);
        assert_eq!(said, Ok(Said::CutApart), "the rest looked up; {}", about());
        self.breaches += 1;
        self.cut += usize::from(broken != 0 && lists.cuts.contains(&broken));
        self.several_cuts += usize::from(inside > 1);
        self.several_cores += usize::from(lists.cores.len() > 1);
        self.no_core += usize::from(lists.cores.is_empty());
        self.none_broken += usize::from(broken == 0);
        self.broken_beside_no_core += usize::from(lists.cores.is_empty() && broken != 0);
        self.trace_as_long += usize::from(run.len() == place + 1);
        self.trace_shorter += usize::from(run.len() < place + 1);
    }

    /// The same log up to its breach says as much.
    fn hold_until_breach(&mut self, text: &[u8], log: &[u8], lists: &Lists, said: Blame, place: usize) {
        let until_breach = calls::blame(text, &log[..=place]).expect("a part of a log");
        assert_eq!(until_breach.breach, said.breach, "log {log:?}; {}", show(text));
        assert_eq!(until_breach.broken & !said.broken, 0, "log {log:?}; {}", show(text));
        self.hold(text, &log[..=place], lists, until_breach.broken, place);
        self.fewer_until_breach += usize::from(until_breach.broken != said.broken);
    }
}

/// By the library alone: its blame next to its own lists, judgements and lookups.
#[test]
fn held_to_the_lists() {
    let mut random = Random::new(seed_for("blame and the lists", 20_261_103));
    let mut held = Held::default();
    for turn in 0..8_000 {
        let (bits, rules) = (random.pick(&[1, 2, 2, 3, 3, 3, 4, 4, 5]), turn % 16 + 1);
        let Asked { text, system } = Asked::of(&model(&mut random, bits, rules));
        let lists = Lists::of(&text, rules);
        for kind in Kind::ALL {
            let length = random.pick(&LENGTHS);
            let Some(log) = log(&mut random, &system, kind, length) else { continue };
            let said = calls::blame(&text, &log).expect("a log");
            if let Breach::At(place) = said.breach {
                held.hold(&text, &log, &lists, said.broken, place);
                held.hold_until_breach(&text, &log, &lists, said, place);
            }
        }
    }
    println!("blame and the lists: {held:?}");
    assert!(held.breaches >= 25_000 && held.cut >= 5_000 && held.several_cuts >= 2_500, "{held:?}");
    assert!(held.several_cores >= 8_000 && held.no_core >= 10_000, "{held:?}");
    assert!(held.none_broken >= 8_000 && held.broken_beside_no_core >= 3_000, "{held:?}");
    assert!(held.trace_as_long >= 15_000 && held.trace_shorter >= 5_000, "{held:?}");
    assert!(held.fewer_until_breach >= 3_500, "{held:?}");
}

/// The trace of a broken set, as a log, breaks a property in its last state, and no rule of the set. Where the set is all rules
/// but those of a cut, it breaks each rule of the cut. By the library alone.
#[test]
fn traces_as_logs() {
    let mut random = Random::new(seed_for("traces as logs", 20_261_104));
    let (mut traces, mut whole_cuts, mut longest) = (0, 0, 0);
    for turn in 0..3_000 {
        let (bits, rules) = (random.pick(&[1, 2, 3, 3, 4, 4, 5]), turn % 16 + 1);
        let text = model(&mut random, bits, rules).text();
        let lists = Lists::of(&text, rules);
        let mut cuts = lists.cuts.clone();
        random.shuffle(&mut cuts);
        cuts.truncate(5);
        let without_cuts = cuts.iter().map(|cut| lists.full_set & !cut);
        let any_set = random_set(&mut random) & lists.full_set;
        for set in without_cuts.chain([any_set]) {
            let Some(run) = trace(&text, set) else { continue };
            let Blame { broken, breach } = calls::blame(&text, &run).expect("a run");
            let about = || format!("set {set}, trace {run:?}; {}", show(&text));
            assert_eq!(breach, Breach::At(run.len() - 1), "{}", about());
            assert_eq!(broken & set, 0, "{}", about());
            // The broken rules contain a cut, and no cut is a part of another.
            let cut = lists.full_set & !set;
            let is_cut = lists.cuts.contains(&cut);
            assert!(!is_cut || broken == cut, "broken {broken}, cut {cut}; {}", about());
            traces += 1;
            whole_cuts += usize::from(is_cut && cut != 0);
            longest = longest.max(run.len());
        }
    }
    println!("traces as logs: {traces} traces, {whole_cuts} of a set without a cut, the longest {longest}");
    assert!(traces >= 4_000 && whole_cuts >= 2_000 && longest >= 10);
}

/// With each state more, the broken rules stay broken, and the first breach stays where it is. By the library alone.
#[test]
fn from_state_to_state() {
    let mut random = Random::new(seed_for("from state to state", 20_261_105));
    let (mut logs, mut parts, mut more_broken, mut breaches) = (0, 0, 0, 0);
    for turn in 0..2_000 {
        let (bits, rules) = (random.between(1, 7), turn % 16 + 1);
        let written = model(&mut random, bits, rules);
        let text = written.text();
        let log = states(&mut random, &written, 12);
        let Ok(whole) = calls::blame(&text, &log) else { continue };
        let mut before = 0;
        for length in 1..=log.len() {
            let said = calls::blame(&text, &log[..length]).expect("a part of a log");
            let about = || format!("{length} states of {log:?}; {}", show(&text));
            assert_eq!(said.broken & before, before, "{}", about());
            assert_eq!(said.breach.place(), whole.breach.place().min(length), "{}", about());
            more_broken += usize::from(length > 1 && said.broken != before);
            before = said.broken;
            parts += 1;
        }
        assert_eq!(before, whole.broken);
        logs += 1;
        breaches += usize::from(whole.breach.place() < log.len());
    }
    println!(
        "from state to state: {logs} logs, {breaches} with a breach, {parts} parts, {more_broken} break more"
    );
    assert!(logs >= 1_500 && breaches >= 1_000 && more_broken >= 2_000);
}

/// A log of a million states is a run of the full set, so that nothing is wrong with it. Then one state of it is changed.
#[test]
fn a_million_states() {
    const STATES: usize = 1_000_000;
    let mut random = Random::new(seed_for("a million states", 20_261_106));
    let mut seen = Seen::default();
    let mut models = 0;
    while models < 8 {
        let (bits, rules) = ([1, 3, 5, 7][models % 4], [3, 16, 8][models % 3]);
        let asked = Asked::of(&model(&mut random, bits, rules));
        let system = &asked.system;
        if !system.holds(system.full_set()) || !system.bad.contains(&true) {
            continue;
        }
        let run = log(&mut random, system, Kind::Run, STATES).filter(|run| run.len() == STATES);
        let Some(run) = run else { continue };
        let fill = Fill::ALL[models % 3];
        let nothing_wrong = Blame { broken: 0, breach: Breach::Nowhere { length: STATES } };
        assert_eq!(seen.accepted(&asked, &run, fill), nothing_wrong, "{}", show(&asked.text));
        let any_place = random.between(1, STATES - 2);
        for place in [65_535, 65_536, any_place, STATES - 1] {
            seen.with_bad_state(&asked, &run, place, fill);
            seen.with_beyond(&asked, &run, place, fill);
        }
        let any_states = log(&mut random, system, Kind::Any, STATES).expect("a start state of the run");
        seen.accepted(&asked, &any_states, fill);
        models += 1;
    }
    println!("a million states: {seen:?}");
    assert!(seen.many_states >= 7 * models && seen.nothing_wrong == models, "{seen:?}");
    assert!(seen.breach_between >= 3 * models && seen.breach_last >= 4 * models, "{seen:?}");
    assert!(seen.broken_after >= 1, "{seen:?}");
}

impl Seen {
    /// The first bad state is put in at this place: the breach is there.
    fn with_bad_state(&mut self, asked: &Asked, run: &[u8], place: usize, fill: Fill) {
        let mut log = run.to_vec();
        log[place] = asked.system.bad.iter().position(|is_bad| *is_bad).expect("a bad state") as u8;
        let said = self.accepted(asked, &log, fill);
        assert_eq!(said.breach, Breach::At(place), "{}", show(&asked.text));
        assert_ne!(said.broken, 0, "{}", show(&asked.text));
    }

    /// A byte that is no state is put in at this place: the log is refused.
    fn with_beyond(&mut self, asked: &Asked, run: &[u8], place: usize, fill: Fill) {
        let mut log = run.to_vec();
        log[place] = asked.system.states as u8;
        let answer = self.tally.blame(&asked.text, Ok(&asked.system), &Guarded::new(&log, fill), fill);
        assert_eq!(answer, Err(Refused::new(Fault::BeyondLast.reason(), 0)), "{}", show(&asked.text));
    }
}

fn sample(name: &str, extension: &str) -> Vec<u8> {
    let path = models_folder().join(format!("{name}.{extension}"));
    std::fs::read(&path).unwrap_or_else(|error| panic!("{}: {error}", path.display()))
}

fn models_folder() -> PathBuf {
    Path::new(env!("CARGO_MANIFEST_DIR")).join("../../models")
}

/// The files of the folder with this extension, without it.
fn names_in_models(extension: &str) -> Vec<String> {
    let entries = std::fs::read_dir(models_folder()).expect("the folder models");
    let paths = entries.map(|entry| entry.expect("a folder entry").path());
    let of_extension = paths.filter(|path| path.extension() == Some(extension.as_ref()));
    let mut names: Vec<String> = of_extension
        .map(|path| path.file_stem().expect("a file name").to_string_lossy().into_owned())
        .collect();
    names.sort();
    names
}

/// Each models/NAME.log is a log for models/NAME.txt, and models/NAME.blame has what is printed of it.
#[test]
fn sample_logs() {
    let samples = names_in_models("log");
    assert_eq!(samples, names_in_models("blame"), "each log has its blame");
    assert!(samples.len() >= 2, "{samples:?}");
    for name in samples {
        let text = sample(&name, "txt");
        let lines = String::from_utf8(sample(&name, "log")).expect("a log");
        let log: Vec<u8> = lines.lines().map(|line| line.parse().expect("a state")).collect();
        let model = text::read(&text).expect("an accepted model");
        let said = calls::blame(&text, &log);
        assert_eq!(said, blame(&TransitionSystem::of(&model), &log), "{name}: library left");
        let Blame { broken, breach } = said.expect("an accepted log");
        let printed = format!("blamed={}\nbreach={}\n", names(&model, broken), breach.place());
        println!("sample logs: {name}, {} states, {printed:?}", log.len());
        assert_eq!(printed.as_bytes(), sample(&name, "blame"), "{name}: printed left");
        assert!(breach.place() < log.len(), "{name} is there for its breach");
    }
}
