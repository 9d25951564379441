//! The report program against the sample reports and against the plain report, every byte of what it prints.

#![deny(warnings)]

use std::path::{Path, PathBuf};
use std::time::Duration;

use codremif_host::answer::{Reason, Refused};
use codremif_host::compare::show;
use codremif_host::plain::report::report;
use codremif_host::plain::text;
use codremif_host::program::Program;
use codremif_host::random::damage::damaged;
use codremif_host::random::generator::seed_for;
use codremif_host::random::models::Kind;
use codremif_host::random::properties::{with_several_properties, PropertyCounts};
use codremif_host::random::start_parts::{with_start_parts, StartPartCounts};
use codremif_host::random::{models, Random};

const TREMOR: &[u8] = b"vars=3\nrules=3\ninit=!c\nprop=>c&ab\nrule=ra:>CA\nrule=rb:>CB\nrule=vote:>C&AB\n";

/// Tremor's whole report as docs/FORMAT.md prints it.
const TREMOR_REPORT: &[u8] = b"\
verdict=holds\n\
must=-\n\
may=ra,rb,vote\n\
irr=-\n\
cores=2\n\
core=vote\n\
core=ra,rb\n\
cuts=2\n\
cut=ra,vote\n\
cut=rb,vote\n";

#[test]
fn tremor_as_the_format_prints_it() {
    assert_alike("plain report", &report(TREMOR), TREMOR_REPORT, TREMOR);
    assert_alike("report program", &Program::found().report(TREMOR), TREMOR_REPORT, TREMOR);
}

/// Tremor that may start in any state, and a rule that it starts quiet: it is in every core for its start part.
#[test]
fn a_rule_that_speaks_about_power_up() {
    let text =
        b"vars=3\nrules=4\ninit=1\nprop=>c&ab\nrule=ra:>CA\nrule=rb:>CB\nrule=vote:>C&AB\nrule=quiet:1:!c\n";
    let expected = b"\
verdict=holds\n\
must=quiet\n\
may=ra,rb,vote\n\
irr=-\n\
cores=2\n\
core=vote,quiet\n\
core=ra,rb,quiet\n\
cuts=3\n\
cut=quiet\n\
cut=ra,vote\n\
cut=rb,vote\n";
    assert_alike("plain report", &report(text), expected, text);
    assert_alike("report program", &Program::found().report(text), expected, text);
}

/// Each models/NAME.txt has its report in models/NAME.report.
#[test]
fn sample_models() {
    let program = Program::found();
    let names = names_in_models("txt");
    assert_eq!(names, names_in_models("report"), "each model has a report and each report a model");
    assert!(names.len() >= 19, "{names:?}");
    for name in &names {
        let (text, expected) = (sample(name, "txt"), sample(name, "report"));
        println!("sample models: {name}, {} bytes, report of {} bytes", text.len(), expected.len());
        assert_alike("plain report", &report(&text), &expected, &text);
        assert_alike("report program", &program.report(&text), &expected, &text);
        let from_file = program.report_on_file(&path_of(name, "txt"));
        assert_alike("report program on a file", &from_file, &expected, &text);
    }
}

/// The models that are there for the kinds of their rules keep them.
#[test]
fn kinds_in_sample_models() {
    for (name, kinds) in [
        ("battery", &b"must=power\nmay=motion,double\nirr=quiet,lamp\ncores=2\n"[..]),
        ("stale_vote", b"must=-\nmay=-\nirr=mem,vote\ncores=0\n"),
        ("no_start", b"must=-\nmay=-\nirr=gate\ncores=1\ncore=-\n"),
    ] {
        let report = sample(name, "report");
        assert!(report.windows(kinds.len()).any(|window| window == kinds), "{name}");
    }
}

/// The models that are there for their properties keep what they show.
#[test]
fn properties_of_sample_models() {
    for (name, start) in [
        ("quiet_release", &b"verdict=holds\nverdict=holds\nmust=mem1\n"[..]),
        ("late_release", b"verdict=holds\nverdict=broken\nstate=0\nstate=7\nstate=15\nstate=31\nmust=-\n"),
        (
            "review",
            b"verdict=holds\nverdict=broken\nstate=0\nstate=7\nstate=40\nstate=23\n\
              verdict=holds\nverdict=broken\nstate=0\nstate=7\nmust=-\n",
        ),
    ] {
        assert!(sample(name, "report").starts_with(start), "{name}");
    }
    // The one property of `largest` is the conjunction of the four: only the verdicts are more.
    let four = [&b"verdict=holds\n".repeat(3)[..], &sample("largest", "report")].concat();
    assert_alike(
        "report on largest_four",
        &sample("largest_four", "report"),
        &four,
        &sample("largest_four", "txt"),
    );
}

/// The models that are there for their size keep it.
#[test]
fn sizes_of_sample_models() {
    for (name, length) in [("largest", 1420), ("largest_four", 1630), ("largest_starts", 2670)] {
        assert_eq!(sample(name, "txt").len(), length, "{name}");
        assert!(sample(name, "txt").starts_with(b"vars=7\nrules=16\n"), "{name}");
        assert!(count_lines(name, b"core=") >= 2, "{name}");
    }
    assert!(count_lines("many_cores", b"core=") >= 24);
    assert_eq!(count_lines("long_trace", b"state="), 128);
}

/// As long as no other legal text: `largest_four` with a start part of 64 bytes in each rule, which says again what `init` says
/// and so changes nothing.
fn longest() -> Vec<u8> {
    let text = String::from_utf8(sample("largest_four", "txt")).expect("letters, digits and signs");
    let init = text.lines().find_map(|line| line.strip_prefix("init=")).expect("a line that each text has");
    let with_start_part = |line: &str| match line.starts_with("rule=") {
        true => format!("{line}:{init}\n"),
        false => format!("{line}\n"),
    };
    text.lines().map(with_start_part).collect::<String>().into_bytes()
}

#[test]
fn the_longest_text() {
    let (text, expected) = (longest(), sample("largest_four", "report"));
    assert_eq!(text.len(), 2670);
    assert_alike("plain report", &report(&text), &expected, &text);
    assert_alike("report program", &Program::found().report(&text), &expected, &text);
}

/// Every N with every R once, and many small ones.
#[test]
fn random_models() {
    let mut random = Random::new(seed_for("reports on random models", 20_260_301));
    let mut seen = Seen::new();
    let mut start_parts = StartPartCounts::default();
    let every_size = (1..=16).flat_map(|rules| (1..=7).map(move |bits| (bits, rules)));
    let small = (0..600).map(|turn| (turn % 5 + 1, turn / 5 % 6 + 1));
    for (bits, rules) in every_size.chain(small) {
        let written = models::model(&mut random, bits, rules);
        start_parts.note(&written);
        seen.compare(&written.text());
    }
    println!("reports on random models: {start_parts:?}, {seen:?}");
    assert!(start_parts.fewest() >= 100, "{start_parts:?}");
    assert_eq!(seen.accepted, 712);
    assert!(seen.holds >= 100 && seen.broken >= 100, "{seen:?}");
    assert!(seen.no_core >= 50 && seen.empty_core >= 50 && seen.many_cores >= 10, "{seen:?}");
    assert!(seen.must >= 50 && seen.may >= 100 && seen.irrelevant >= 100, "{seen:?}");
    assert!(seen.longest_trace >= 16, "{seen:?}");
    assert!(seen.properties.fewest() >= 100 && seen.first_holds_alone >= 50, "{seen:?}");
    assert!(seen.mixed_verdicts >= 100 && seen.unlike_traces >= 50, "{seen:?}");
}

/// Cores or cuts by the hundred.
#[test]
fn long_reports() {
    let mut random = Random::new(seed_for("long reports", 20_260_303));
    let mut seen = Seen::new();
    for turn in 0..30 {
        let kind = [Kind::Alternatives, Kind::Joint, Kind::Dense][turn % 3];
        let (bits, rules) = ([3, 5, 6, 5, 4][turn % 5], 16 - turn % 2);
        let mut written = models::model_of(&mut random, kind, bits, rules);
        with_several_properties(&mut random, &mut written, turn / 3 % 4 + 1);
        if turn % 5 == 4 {
            with_start_parts(&mut random, &mut written);
        }
        seen.compare(&written.text());
    }
    // Five bits that must stay 0, kept by 4, 3, 3, 3 and 3 rules: 324 cores of 5 rules with names of 8 bytes.
    let mut most = b"vars=5\nrules=16\ninit=!|a|b|c|de\nprop=!|a|b|c|de\n".to_vec();
    for rule in 0..16_u8 {
        let (later, now) = (char::from(b'A' + rule % 5), char::from(b'a' + rule % 5));
        most.extend(format!("rule=keeper{rule:02}:>{later}{now}\n").bytes());
    }
    seen.compare(&most);
    println!("long reports: {seen:?}");
    assert!(seen.properties.fewest() >= 6, "{seen:?}");
    assert!(seen.many_cores >= 10, "{seen:?}");
    assert!(seen.longest_report >= 16_000, "{seen:?}");
}

/// A counter comes to its last state, the bad one, after every other: as many states as four traces can have.
#[test]
fn four_traces_of_128_states() {
    let mut written = models::full_counter(7);
    written.properties = vec![written.properties[0].clone(); 4];
    let trace: String = (0..128).map(|state| format!("state={state}\n")).collect();
    let verdicts = format!("verdict=broken\n{trace}").repeat(4);
    let expected = verdicts + "must=-\nmay=-\nirr=a,b,c,d,e,f,g\ncores=0\ncuts=1\ncut=-\n";
    let text = written.text();
    assert_alike("plain report", &report(&text), expected.as_bytes(), &text);
    assert_alike("report program", &Program::found().report(&text), expected.as_bytes(), &text);
}

/// The program prints pages of 65,536 bytes. models/pages has models whose reports have several: one page too few, twice
/// or in another order would differ. Two of the reports end where a page ends.
#[test]
fn reports_of_several_pages() {
    let program = Program::found();
    for (name, length) in
        [("bases", 405_609), ("eight_pages", 515_884), ("one_full_page", 65_536), ("two_full_pages", 131_072)]
    {
        let text = sample(&format!("pages/{name}"), "txt");
        let expected = report(&text);
        assert_eq!(expected.len(), length, "{name}");
        // The reports are long: only the number of the first line that differs is shown.
        let printed = program.report(&text);
        let first = printed.split(|byte| *byte == 10).zip(expected.split(|byte| *byte == 10));
        let first = first.take_while(|(one, two)| one == two).count() + 1;
        assert!(printed == expected, "{name}: {} bytes, differs in line {first}", printed.len());
        println!("reports of several pages: {name}, {length} bytes");
    }
}

#[test]
fn randomly_damaged_texts() {
    let mut random = Random::new(seed_for("reports on damaged texts", 20_260_302));
    let mut seen = Seen::new();
    while seen.refused() < 1500 {
        let (bits, rules) = (random.between(1, 7), random.pick(&[1, 2, 3, 4, 5, 6, 16, 16, 16]));
        let model = models::model(&mut random, bits, rules).text();
        let text = damaged(&mut random, &model);
        // A large model that is still accepted takes its time and is no damaged text.
        if rules < 16 || text::read(&text).is_err() {
            seen.compare(&text);
        }
    }
    println!("reports on damaged texts: {seen:?}");
    for number in 1..=9 {
        assert!(seen.by_number[number] >= 10, "number {number} came up too seldom: {seen:?}");
    }
    assert_eq!(seen.last_line, 24, "{seen:?}");
    assert!(seen.properties.fewest() >= 5, "{seen:?}");
}

/// The first 4,096 bytes are judged alone: a line that ends in the last of them ends, and one byte later it does not.
#[test]
fn lines_that_end_near_byte_4096() {
    let mut seen = Seen::new();
    let lines_before = [
        (&b""[..], &b"vars="[..], Reason::Count),
        (b"vars=3\n", b"rules=", Reason::Count),
        (b"vars=3\nrules=3\n", b"init=", Reason::ExpressionLength),
        (b"vars=3\nrules=3\ninit=!c\n", b"prop=", Reason::ExpressionLength),
        (b"vars=3\nrules=3\ninit=!c\nprop=1\n", b"prop=", Reason::ExpressionLength),
        (b"vars=3\nrules=3\ninit=!c\nprop=1\nprop=1\nprop=1\n", b"prop=", Reason::ExpressionLength),
        (b"vars=3\nrules=3\ninit=!c\nprop=1\nprop=1\nprop=1\nprop=1\n", b"prop=", Reason::LineDue),
        (&TREMOR[..34], b"rule=", Reason::Name),
        (&TREMOR[..46], b"rule=rb:", Reason::ExpressionLength),
        (&TREMOR[..46], b"rule=rb:1:", Reason::ExpressionLength),
        (&TREMOR[..58], b"rule=ra:", Reason::NameTwice),
        (&TREMOR[..58], b"rule=ra:1:", Reason::NameTwice),
    ];
    for (before, key, reason) in lines_before {
        let line = before.split(|byte| *byte == 10).count() as u8;
        for (length, number) in [
            (4095, reason),
            (4096, reason),
            (4097, Reason::LineDue),
            (4098, Reason::LineDue),
            (9000, Reason::LineDue),
        ] {
            let mut text = [before, key].concat();
            text.resize(length - 1, b'1');
            text.push(10);
            text.extend(TREMOR);
            seen.refused_with(&text, Refused::new(number, line));
        }
    }
    println!("lines that end near byte 4096: {seen:?}");
}

/// More bytes after a legal model are refused with 9, however many they are.
#[test]
fn bytes_after_a_model() {
    let mut seen = Seen::new();
    for (model, line) in [
        (TREMOR, 8),
        (&sample("quiet_release", "txt"), 14),
        (&sample("largest", "txt"), 21),
        (&sample("largest_four", "txt"), 24),
        (&longest(), 24),
    ] {
        for more in [&b"\n"[..], b"\0", b"r", b"rule=more:1\n", b"\r", b"\xff", model] {
            seen.refused_with(&[model, more].concat(), Refused::new(Reason::BytesFollow, line));
        }
        for length in [4000, 4095, 4096, 4097, 4096 + model.len(), 70_000, 1_000_000] {
            for byte in [0, b'\n', b'a'] {
                let mut text = model.to_vec();
                text.resize(length, byte);
                seen.refused_with(&text, Refused::new(Reason::BytesFollow, line));
            }
        }
    }
    println!("bytes after a model: {seen:?}");
}

/// The program needs no end of its input to come to its own.
#[test]
fn inputs_without_end() {
    let program = Program::found();
    for (start, byte, expected) in [
        (TREMOR, b'\n', &b"refused=9\nline=8\n"[..]),
        (TREMOR, 0, b"refused=9\nline=8\n"),
        (b"vars=3\n", b'r', b"refused=1\nline=2\n"),
        (b"", 0, b"refused=1\nline=1\n"),
    ] {
        let printed = program.report_without_end(start, byte);
        assert_alike("report program", &printed, expected, start);
    }
}

#[test]
fn empty_input() {
    let program = Program::found();
    let expected = b"refused=1\nline=1\n";
    assert_alike("plain report", &report(b""), expected, b"");
    assert_alike("report program", &program.report(b""), expected, b"");
    assert_alike("report program", &program.report_on_file(Path::new("/dev/null")), expected, b"");
}

/// Byte 0 ends nothing: it is a byte like any other that no model has.
#[test]
fn byte_0() {
    let mut seen = Seen::new();
    seen.refused_with(b"\0", Refused::new(Reason::LineDue, 1));
    seen.refused_with(&[0; 5000], Refused::new(Reason::LineDue, 1));
    seen.refused_with(&[b"\0", TREMOR].concat(), Refused::new(Reason::LineDue, 1));
    seen.refused_with(&[TREMOR, b"\0"].concat(), Refused::new(Reason::BytesFollow, 8));
    for place in 0..TREMOR.len() {
        let mut text = TREMOR.to_vec();
        text[place] = 0;
        seen.compare(&text);
        text = TREMOR.to_vec();
        text.insert(place, 0);
        seen.compare(&text);
    }
    println!("byte 0: {seen:?}");
    assert_eq!(seen.accepted, 0);
}

/// A pipe gives what is there, and that may be less than the whole input.
#[test]
fn inputs_in_pieces() {
    let program = Program::found();
    let pause = Duration::from_millis(1);
    let bytes: Vec<&[u8]> = TREMOR.chunks(1).collect();
    assert_alike("report program", &program.report_in_pieces(&bytes, pause), TREMOR_REPORT, TREMOR);
    for (name, length) in
        [("largest", 100), ("largest", 1419), ("largest_four", 1629), ("review", 7), ("refused", 60)]
    {
        let (text, expected) = (sample(name, "txt"), sample(name, "report"));
        let pieces: Vec<&[u8]> = text.chunks(length).collect();
        let printed = program.report_in_pieces(&pieces, 10 * pause);
        assert_alike("report program", &printed, &expected, &text);
    }
    let longest = longest();
    for length in [500, 2047, 2048, 2669] {
        let pieces: Vec<&[u8]> = longest.chunks(length).collect();
        let printed = program.report_in_pieces(&pieces, 10 * pause);
        assert_alike("report program", &printed, &sample("largest_four", "report"), &longest);
    }
    let long = [&longest[..], &[b'\n'; 2000]].concat();
    let pieces: Vec<&[u8]> = long.chunks(300).collect();
    let printed = program.report_in_pieces(&pieces, pause);
    assert_alike("report program", &printed, b"refused=9\nline=24\n", &long);
}

/// What came up, so that a test can demand that everything did.
struct Seen {
    program: Program,
    accepted: usize,
    by_number: [usize; 12],
    last_line: usize,
    properties: PropertyCounts,
    /// By every property, and by some property not.
    holds: usize,
    broken: usize,
    /// By one property and not by another; by the first, and not by all.
    mixed_verdicts: usize,
    first_holds_alone: usize,
    /// Two properties are broken, each by a run of its own.
    unlike_traces: usize,
    must: usize,
    may: usize,
    irrelevant: usize,
    no_core: usize,
    empty_core: usize,
    many_cores: usize,
    longest_trace: usize,
    longest_report: usize,
}

impl Seen {
    fn new() -> Seen {
        Seen {
            program: Program::found(),
            accepted: 0,
            by_number: [0; 12],
            last_line: 0,
            properties: PropertyCounts::default(),
            holds: 0,
            broken: 0,
            mixed_verdicts: 0,
            first_holds_alone: 0,
            unlike_traces: 0,
            must: 0,
            may: 0,
            irrelevant: 0,
            no_core: 0,
            empty_core: 0,
            many_cores: 0,
            longest_trace: 0,
            longest_report: 0,
        }
    }

    fn refused(&self) -> usize {
        self.by_number.iter().sum()
    }

    fn compare(&mut self, input: &[u8]) {
        let expected = report(input);
        assert_alike("report program", &self.program.report(input), &expected, input);
        self.note(&String::from_utf8(expected).expect("letters, digits and signs"));
    }

    /// Both reports on an input that is refused in this way.
    fn refused_with(&mut self, input: &[u8], refused: Refused) {
        let expected = format!("refused={}\nline={}\n", refused.reason.number(), refused.line);
        assert_alike("plain report", &report(input), expected.as_bytes(), input);
        self.compare(input);
    }

    fn note(&mut self, report: &str) {
        let after = |key| report.lines().find_map(|line| line.strip_prefix(key));
        let number = |key| after(key).map(|digits: &str| digits.parse::<usize>().expect("a number"));
        if let Some(refused) = number("refused=") {
            self.by_number[refused] += 1;
            self.last_line = self.last_line.max(number("line=").expect("a line"));
            return;
        }
        self.accepted += 1;
        self.note_verdicts(report);
        let has_rules = |key| usize::from(after(key).expect("a set") != "-");
        self.must += has_rules("must=");
        self.may += has_rules("may=");
        self.irrelevant += has_rules("irr=");
        self.no_core += usize::from(number("cores=") == Some(0));
        self.empty_core += usize::from(after("core=") == Some("-"));
        self.many_cores += usize::from(number("cores=") >= Some(10));
        self.longest_report = self.longest_report.max(report.len());
    }

    fn note_verdicts(&mut self, report: &str) {
        let (verdicts, _) = report.split_once("must=").expect("a line after the verdicts");
        let traces: Vec<&str> = verdicts.split("verdict=").skip(1).collect();
        let held = traces.iter().filter(|trace| **trace == "holds\n").count();
        let mut broken: Vec<&str> = traces.iter().copied().filter(|trace| *trace != "holds\n").collect();
        let longest = broken.iter().map(|trace| trace.lines().count() - 1).max().unwrap_or(0);
        self.longest_trace = self.longest_trace.max(longest);
        self.properties.note(traces.len());
        self.holds += usize::from(broken.is_empty());
        self.broken += usize::from(!broken.is_empty());
        self.mixed_verdicts += usize::from(held > 0 && !broken.is_empty());
        self.first_holds_alone += usize::from(traces[0] == "holds\n" && !broken.is_empty());
        broken.sort();
        broken.dedup();
        self.unlike_traces += usize::from(broken.len() >= 2);
    }
}

impl std::fmt::Debug for Seen {
    fn fmt(&self, out: &mut std::fmt::Formatter) -> std::fmt::Result {
        let Seen { accepted, by_number, last_line, holds, broken, must, may, irrelevant, .. } = self;
        write!(
            out,
            "{accepted} accepted ({holds} hold, {broken} broken, {must} with MUST rules, {may} with MAY, "
        )?;
        write!(out, "{irrelevant} with irrelevant, ")?;
        let Seen { properties, mixed_verdicts, first_holds_alone, unlike_traces, .. } = self;
        write!(
            out,
            "{properties:?}, {mixed_verdicts} with both verdicts, {first_holds_alone} broken though "
        )?;
        write!(out, "the first holds, {unlike_traces} with two traces, ")?;
        let Seen { no_core, empty_core, many_cores, longest_trace, longest_report, .. } = self;
        write!(
            out,
            "{no_core} without core, {empty_core} with the empty core, {many_cores} with 10 cores or more, "
        )?;
        write!(out, "longest trace {longest_trace}, longest report {longest_report} bytes); ")?;
        write!(
            out,
            "{} refused, numbers 1 to 9: {:?}, last line {last_line}",
            self.refused(),
            &by_number[1..=9]
        )
    }
}

fn assert_alike(by: &str, printed: &[u8], expected: &[u8], input: &[u8]) {
    let line = printed.split(|byte| *byte == 10).zip(expected.split(|byte| *byte == 10));
    let first = line.take_while(|(one, two)| one == two).count() + 1;
    assert!(
        printed == expected,
        "the {by} differs in line {first}\nprinted  b\"{}\"\nexpected b\"{}\"\n{}",
        printed.escape_ascii(),
        expected.escape_ascii(),
        show(&input[..input.len().min(5000)])
    );
}

fn models_folder() -> PathBuf {
    Path::new(env!("CARGO_MANIFEST_DIR")).join("../../models")
}

fn path_of(name: &str, extension: &str) -> PathBuf {
    models_folder().join(format!("{name}.{extension}"))
}

fn sample(name: &str, extension: &str) -> Vec<u8> {
    let path = path_of(name, extension);
    std::fs::read(&path).unwrap_or_else(|error| panic!("{}: {error}", path.display()))
}

/// The files of the folder with this extension, without it.
fn names_in_models(extension: &str) -> Vec<String> {
    let entries = std::fs::read_dir(models_folder()).expect("the folder models");
    let mut paths: Vec<PathBuf> = entries.map(|entry| entry.expect("a folder entry").path()).collect();
    paths.retain(|path| path.extension() == Some(extension.as_ref()));
    let mut names: Vec<String> = paths
        .iter()
        .map(|path| path.file_stem().expect("a file name").to_string_lossy().into_owned())
        .collect();
    names.sort();
    names
}

fn count_lines(name: &str, key: &[u8]) -> usize {
    sample(name, "report").split(|byte| *byte == 10).filter(|line| line.starts_with(key)).count()
}
