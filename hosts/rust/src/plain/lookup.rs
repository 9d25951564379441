//! The calls that read no text: a set is looked up in a core list and a cut list.

use crate::answer::{Reason, Refused, Said};

/// Says whether a listed core is inside the set, or else a listed cut is apart from it.
pub fn suffices(set: u32, cores: &[u8], cuts: &[u8]) -> Result<Said, Refused> {
    Ok(look_up(set, cores, cuts)?.0)
}

/// The witness, as two bytes of the list that holds it. No bytes where the set is unlisted, and where the call is refused.
pub fn witness<'lists>(set: u32, cores: &'lists [u8], cuts: &'lists [u8]) -> &'lists [u8] {
    look_up(set, cores, cuts).map_or(&[], |(_, witness)| witness)
}

/// The first listed core inside the set; if there is none, the first listed cut apart from it.
fn look_up<'lists>(
    set: u32,
    cores: &'lists [u8],
    cuts: &'lists [u8],
) -> Result<(Said, &'lists [u8]), Refused> {
    if cores.len() % 2 == 1 || cuts.len() % 2 == 1 {
        return Err(Refused::new(Reason::OddList, 0));
    }
    if let Some(core) = cores.chunks(2).find(|core| is_inside(listed(core), set)) {
        return Ok((Said::CoreInside, core));
    }
    if let Some(cut) = cuts.chunks(2).find(|cut| is_apart(listed(cut), set)) {
        return Ok((Said::CutApart, cut));
    }
    Ok((Said::Unlisted, &[]))
}

/// The set of two bytes of a list. A rule from 16 on is in none.
fn listed(bytes: &[u8]) -> u32 {
    u32::from(bytes[0]) + 256 * u32::from(bytes[1])
}

/// Every rule of the core is in the set.
fn is_inside(core: u32, set: u32) -> bool {
    core & set == core
}

/// No rule of the cut is in the set.
fn is_apart(cut: u32, set: u32) -> bool {
    cut & set == 0
}
