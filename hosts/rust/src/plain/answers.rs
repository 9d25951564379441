//! The calls that read a text, answered by the plain search.

use super::reached::collect;
use super::sets::{self, Verdicts};
use super::system::TransitionSystem;
use super::text::{self, Model};
use super::trace::trace;
use crate::answer::{Reached, Reason, Refused, Verdict};

/// An accepted model with everything that can be asked of it.
pub struct Answers {
    pub system: TransitionSystem,
    pub verdicts: Verdicts,
    pub cores: Vec<u16>,
    pub cuts: Vec<u16>,
    pub must: u16,
    pub may: u16,
    pub irrelevant: u16,
}

impl Answers {
    pub fn of(text: &[u8]) -> Result<Answers, Refused> {
        Ok(Answers::of_model(&text::read(text)?))
    }

    pub fn of_model(model: &Model) -> Answers {
        Answers::of_system(TransitionSystem::of(model))
    }

    pub fn of_system(system: TransitionSystem) -> Answers {
        let verdicts = Verdicts::of(&system);
        let cores = verdicts.cores();
        let cuts = verdicts.cuts();
        let (must, may) = (sets::must(&cores), sets::may(&cores));
        let irrelevant = sets::irrelevant(system.full_set(), &cores);
        Answers { system, verdicts, cores, cuts, must, may, irrelevant }
    }

    pub fn judge(&self, set: u32, lent: &mut [u8]) -> Result<Verdict, Refused> {
        judge(&self.system, set, lent)
    }

    pub fn list_cores(&self, lent: &mut [u8]) -> Result<usize, Refused> {
        write_list(&self.cores, lent)
    }

    pub fn list_cuts(&self, lent: &mut [u8]) -> Result<usize, Refused> {
        write_list(&self.cuts, lent)
    }
}

/// Judges one set of a system and writes its trace, one byte per state.
pub fn judge(system: &TransitionSystem, set: u32, lent: &mut [u8]) -> Result<Verdict, Refused> {
    match trace(system, set_of(system, set)?) {
        None => Ok(Verdict::Holds),
        Some(run) => {
            write_bytes(&run, lent)?;
            Ok(Verdict::Broken { length: run.len() })
        }
    }
}

/// Collects the states that one set of a system reaches and writes their marks, one byte for each state by number.
pub fn reached(system: &TransitionSystem, set: u32, lent: &mut [u8]) -> Result<Reached, Refused> {
    let collected = collect(system, set_of(system, set)?);
    let marks: Vec<u8> =
        (0..system.states).map(|state| u8::from(collected.marked.contains(&state))).collect();
    write_bytes(&marks, lent)?;
    Ok(Reached { pairs: collected.pairs })
}

/// The set of a number below 2^R.
fn set_of(system: &TransitionSystem, number: u32) -> Result<u16, Refused> {
    if number >= 1 << system.rules {
        return Err(Refused::new(Reason::NoSuchSet, 0));
    }
    Ok(number as u16)
}

/// Writes a list to lent bytes.
pub fn write_list(list: &[u16], lent: &mut [u8]) -> Result<usize, Refused> {
    write_bytes(&list_bytes(list), lent)?;
    Ok(list.len())
}

/// The bytes of a list: two for each set, low byte first.
pub fn list_bytes(list: &[u16]) -> Vec<u8> {
    list.iter().flat_map(|set| [(set % 256) as u8, (set / 256) as u8]).collect()
}

/// Bytes past the last one keep their content; too few lent bytes all keep theirs.
fn write_bytes(bytes: &[u8], lent: &mut [u8]) -> Result<(), Refused> {
    if lent.len() < bytes.len() {
        return Err(Refused::new(Reason::TooFewBytes, 0));
    }
    lent[..bytes.len()].copy_from_slice(bytes);
    Ok(())
}
