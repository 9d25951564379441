//! Sets that are looked up in lists: what the library says and its witness against the plain search, in lists of any content
//! and in the lists of models, where the library's own judgement has to agree.

#![deny(warnings)]

use codremif_host::answer::{Reason, Refused, Said, Verdict};
use codremif_host::calls;
use codremif_host::compare::{place_in, show, Tally};
use codremif_host::handed::Handed;
use codremif_host::lent::Fill;
use codremif_host::plain::answers::list_bytes;
use codremif_host::random::generator::seed_for;
use codremif_host::random::lists::{question, random_set, Sharing};
use codremif_host::random::models::model;
use codremif_host::random::properties::PropertyCounts;
use codremif_host::random::Random;

/// What came up, so that a test can demand that everything did.
#[derive(Debug, Default)]
struct Seen {
    core_inside: usize,
    cut_apart: usize,
    unlisted: usize,
    odd_cores: usize,
    odd_cuts: usize,
    both_odd: usize,
    rules_from_16_on: usize,
    empty_list: usize,
    two_empty_lists: usize,
    adjacent: usize,
    overlapping: usize,
    same_memory: usize,
    deep_core: usize,
    deep_cut: usize,
    deepest: usize,
    longest: usize,
    tally: Tally,
}

impl Seen {
    fn look_up(&mut self, set: u32, lists: &Handed) -> Result<Said, Refused> {
        let (cores, cuts) = (lists.cores(), lists.cuts());
        let answer = self.tally.look_up(set, lists);
        let place = |list| place_in(list, calls::witness(set, cores, cuts)).expect("a witness");
        match answer {
            Ok(Said::CoreInside) => {
                self.core_inside += 1;
                self.note_place(place(cores), |seen| &mut seen.deep_core);
            }
            Ok(Said::CutApart) => {
                self.cut_apart += 1;
                self.note_place(place(cuts), |seen| &mut seen.deep_cut);
            }
            Ok(Said::Unlisted) => self.unlisted += 1,
            Err(refused) => {
                assert_eq!(refused, Refused::new(Reason::OddList, 0));
                let (odd_cores, odd_cuts) = (cores.len() % 2 == 1, cuts.len() % 2 == 1);
                self.odd_cores += usize::from(odd_cores && !odd_cuts);
                self.odd_cuts += usize::from(odd_cuts && !odd_cores);
                self.both_odd += usize::from(odd_cores && odd_cuts);
            }
        }
        self.rules_from_16_on += usize::from(set >= 1 << 16);
        self.empty_list += usize::from(cores.is_empty() || cuts.is_empty());
        self.two_empty_lists += usize::from(cores.is_empty() && cuts.is_empty());
        self.longest = self.longest.max(cores.len()).max(cuts.len());
        answer
    }

    fn note_place(&mut self, place: usize, deep: fn(&mut Seen) -> &mut usize) {
        *deep(self) += usize::from(place >= 200);
        self.deepest = self.deepest.max(place);
    }

    fn note_sharing(&mut self, sharing: Sharing) {
        self.adjacent += usize::from(sharing == Sharing::Adjacent);
        self.overlapping += usize::from(sharing == Sharing::Overlapping);
        self.same_memory += usize::from(sharing == Sharing::Same);
    }
}

/// Any lists: short, long and empty ones, of odd length, in any order, with repeats, in shared memory; any set of 32 rules.
#[test]
fn lists_of_any_content() {
    let mut random = Random::new(seed_for("lists of any content", 20_260_601));
    let mut seen = Seen::default();
    for turn in 0..40_000 {
        let question = question(&mut random, Fill::ALL[turn % 3]);
        let _ = seen.look_up(question.set, &question.lists);
        seen.note_sharing(question.sharing);
    }
    println!("lists of any content: {seen:?}");
    assert_eq!(seen.tally.asked, 40_000);
    assert!(seen.core_inside >= 5000 && seen.cut_apart >= 5000 && seen.unlisted >= 5000, "{seen:?}");
    assert!(seen.odd_cores >= 1000 && seen.odd_cuts >= 1000 && seen.both_odd >= 300, "{seen:?}");
    assert!(seen.deep_core >= 100 && seen.deep_cut >= 100 && seen.deepest >= 10_000, "{seen:?}");
    assert!(seen.adjacent >= 3000 && seen.overlapping >= 3000 && seen.same_memory >= 3000, "{seen:?}");
    assert!(seen.empty_list >= 3000 && seen.two_empty_lists >= 300, "{seen:?}");
    assert!(seen.rules_from_16_on >= 8000 && seen.longest >= 80_000, "{seen:?}");
}

/// The lists of a model and its sets: unlisted never occurs, and what is said agrees with judging the set. Rules that the
/// model lacks make no difference.
#[test]
fn lists_of_models() {
    let mut random = Random::new(seed_for("lists of models", 20_260_602));
    let mut seen = Seen::default();
    let mut properties = PropertyCounts::default();
    let (mut models, mut many_cores, mut many_cuts) = (0, 0, 0);
    while models < 4_000 {
        let own = Own::of(&mut random);
        let lists = Handed::separate(&list_bytes(&own.cores), &list_bytes(&own.cuts), Fill::ALL[models % 3]);
        for set in own.sets(&mut random) {
            let said = if own.holds(set) { Said::CoreInside } else { Said::CutApart };
            let lacking = random.bits() as u32 & !u32::from(own.full_set);
            assert_eq!(seen.look_up(u32::from(set), &lists), Ok(said), "set {set}; {}", show(&own.text));
            assert_eq!(seen.look_up(u32::from(set) | lacking, &lists), Ok(said), "{}", show(&own.text));
        }
        models += 1;
        properties.note(own.properties);
        many_cores += usize::from(own.cores.len() >= 10);
        many_cuts += usize::from(own.cuts.len() >= 10);
    }
    println!("lists of {models} models, {many_cores} with many cores, {many_cuts} with many cuts: {seen:?}");
    println!("lists of models: {properties:?}");
    assert!(properties.fewest() >= 800, "{properties:?}");
    assert!(seen.core_inside >= 20_000 && seen.cut_apart >= 20_000, "{seen:?}");
    assert_eq!(seen.core_inside + seen.cut_apart, seen.tally.asked, "{seen:?}");
    assert!(many_cores >= 200 && many_cuts >= 20, "{many_cores}, {many_cuts}");
    assert!(seen.empty_list >= 5000 && seen.rules_from_16_on >= 20_000, "{seen:?}");
}

/// Without one core, that core itself is unlisted: no other core is inside it, and it shares a rule with every cut. Without
/// one cut, the set of all rules but its own is unlisted. What is still said of other sets is true.
#[test]
fn lists_with_one_set_left_out() {
    let mut random = Random::new(seed_for("lists with one set left out", 20_260_603));
    let mut seen = Seen::default();
    let (mut without_core, mut without_cut) = (0, 0);
    for _ in 0..4_000 {
        let own = Own::of(&mut random);
        let (mut cores, mut cuts) = (own.cores.clone(), own.cuts.clone());
        let unlisted = if !cores.is_empty() && (cuts.is_empty() || random.percent(50)) {
            without_core += 1;
            cores.remove(random.below(own.cores.len()))
        } else {
            without_cut += 1;
            own.full_set & !cuts.remove(random.below(own.cuts.len()))
        };
        let lists = Handed::separate(&list_bytes(&cores), &list_bytes(&cuts), Fill::Zeros);
        let about = || format!("set {unlisted}; {}", show(&own.text));
        assert_eq!(seen.look_up(u32::from(unlisted), &lists), Ok(Said::Unlisted), "{}", about());
        for set in own.sets(&mut random) {
            match seen.look_up(u32::from(set), &lists).expect("lists of even length") {
                Said::Unlisted => {}
                said => assert_eq!(said == Said::CoreInside, own.holds(set), "{}", about()),
            }
        }
    }
    println!("lists with one set left out, {without_core} cores, {without_cut} cuts: {seen:?}");
    assert!(without_core >= 1000 && without_cut >= 1000, "{without_core}, {without_cut}");
    assert!(seen.core_inside >= 5000 && seen.cut_apart >= 5000 && seen.unlisted >= 5000, "{seen:?}");
}

/// Every pair of lists with at most two sets of three rules, and each such set. The rules stand in both bytes of a set.
#[test]
fn every_pair_of_short_lists() {
    let sets: Vec<u16> = (0..8).map(|set| (set & 1) | (set >> 1 & 1) << 8 | (set >> 2 & 1) << 15).collect();
    let mut short_lists = vec![Vec::new()];
    for one in &sets {
        short_lists.push(vec![*one]);
        short_lists.extend(sets.iter().map(|two| vec![*one, *two]));
    }
    let mut seen = Seen::default();
    for cores in &short_lists {
        for cuts in &short_lists {
            let lists = Handed::separate(&list_bytes(cores), &list_bytes(cuts), Fill::Zeros);
            for set in &sets {
                let _ = seen.look_up(u32::from(*set), &lists);
            }
        }
    }
    println!("every pair of short lists: {seen:?}");
    assert_eq!(seen.tally.asked, 73 * 73 * 8);
    assert!(seen.core_inside >= 5000 && seen.cut_apart >= 5000 && seen.unlisted >= 1000, "{seen:?}");
}

/// A list far longer than any model's, with the one witness at places that 16 bits do and do not count.
#[test]
fn a_list_of_200_000_sets() {
    const SETS: usize = 200_000;
    let mut seen = Seen::default();
    for place in [0, 12_869, 12_870, 32_767, 32_768, 65_535, 65_536, SETS - 1] {
        // Each has rule 9, and the witness has rule 4 alone.
        let list: Vec<u16> =
            (0..SETS).map(|at| if at == place { 16 } else { (at % 512) as u16 | 512 }).collect();
        let bytes = list_bytes(&list);
        for (cores, cuts, set, said) in
            [(&bytes[..], &[][..], 16, Said::CoreInside), (&[], &bytes, !16, Said::CutApart)]
        {
            let lists = Handed::separate(cores, cuts, Fill::Zeros);
            assert_eq!(seen.look_up(set, &lists), Ok(said), "place {place}");
            let witness = calls::witness(set, lists.cores(), lists.cuts());
            let list = if cuts.is_empty() { lists.cores() } else { lists.cuts() };
            assert_eq!((witness, place_in(list, witness)), (&[16, 0][..], Some(2 * place)));
        }
    }
    let lists = Handed::separate(&vec![255; 2 * SETS], &vec![255; 2 * SETS], Fill::Zeros);
    assert_eq!(seen.look_up(1, &lists), Ok(Said::Unlisted));
    println!("a list of 200,000 sets: {seen:?}");
    assert_eq!((seen.core_inside, seen.cut_apart, seen.unlisted), (8, 8, 1), "{seen:?}");
}

/// A random model with the lists that the library gives of it.
struct Own {
    text: Vec<u8>,
    properties: usize,
    full_set: u16,
    cores: Vec<u16>,
    cuts: Vec<u16>,
}

impl Own {
    /// Small ones mostly: a call's time grows with 4^N.
    fn of(random: &mut Random) -> Own {
        let (bits, rules) = match random.below(50) {
            0 => (7, 16),
            _ => (random.pick(&[1, 2, 2, 3, 3, 3, 4]), random.between(1, 12)),
        };
        let written = model(random, bits, rules);
        let text = written.text();
        let cores = calls::listed(calls::cores, &text).expect("an accepted model");
        let cuts = calls::listed(calls::cuts, &text).expect("an accepted model");
        Own { text, properties: written.properties.len(), full_set: u16::MAX >> (16 - rules), cores, cuts }
    }

    fn holds(&self, set: u16) -> bool {
        let verdict = calls::judge(&self.text, u32::from(set), &mut [0; 128]);
        verdict.expect("an accepted model") == Verdict::Holds
    }

    /// Set 0, the full set, sets on both sides of the border between broken and holding, and some others.
    fn sets(&self, random: &mut Random) -> Vec<u16> {
        let mut sets = vec![0, self.full_set];
        for list in [&self.cores, &self.cuts] {
            for _ in 0..list.len().min(2) {
                let set = random.pick(list);
                sets.extend([set, set & set.wrapping_sub(1), self.full_set & !set]);
            }
        }
        sets.extend((0..4).map(|_| random_set(random) & self.full_set));
        sets
    }
}
