//! What is handed over to be read: with guard bytes around it. It is not lent, so every byte must stay as it is.

use std::ops::Range;

use crate::lent::{Fill, GUARD};

/// Bytes in a memory with guards: all of the memory, or a part of it where a test wants to choose what stands beside it.
#[derive(Debug)]
pub struct Guarded {
    memory: Vec<u8>,
    as_filled: Vec<u8>,
    part: Range<usize>,
}

impl Guarded {
    pub fn new(bytes: &[u8], fill: Fill) -> Guarded {
        Guarded::within(bytes, 0..bytes.len(), fill)
    }

    /// A part of the bytes. The guards stand around the whole.
    pub fn within(bytes: &[u8], part: Range<usize>, fill: Fill) -> Guarded {
        let memory = [&guard(fill), bytes, &guard(fill)].concat();
        Guarded { as_filled: memory.clone(), memory, part: part.start + GUARD..part.end + GUARD }
    }

    pub fn bytes(&self) -> &[u8] {
        &self.memory[self.part.clone()]
    }

    /// Whether every byte, guards included, is as it was filled.
    pub fn is_untouched(&self) -> bool {
        self.memory == self.as_filled
    }
}

/// A core list and a cut list, in one memory with guards. Guards of zeros are the set 0, which is inside every set and apart
/// from every set: a call that reads on past a list finds it.
#[derive(Debug)]
pub struct Handed {
    both: Guarded,
    cores: Range<usize>,
    cuts: Range<usize>,
}

impl Handed {
    /// The core list before the cut list, with guards before, between and after them.
    pub fn separate(cores: &[u8], cuts: &[u8], fill: Fill) -> Handed {
        let bytes = [cores, &guard(fill), cuts].concat();
        Handed::within(&bytes, 0..cores.len(), bytes.len() - cuts.len()..bytes.len(), fill)
    }

    /// Two parts of the same bytes, which may overlap or be the same. The guards stand around the whole.
    pub fn within(bytes: &[u8], cores: Range<usize>, cuts: Range<usize>, fill: Fill) -> Handed {
        Handed { both: Guarded::new(bytes, fill), cores, cuts }
    }

    pub fn cores(&self) -> &[u8] {
        &self.both.bytes()[self.cores.clone()]
    }

    pub fn cuts(&self) -> &[u8] {
        &self.both.bytes()[self.cuts.clone()]
    }

    /// Whether every byte, guards included, is as it was filled.
    pub fn is_untouched(&self) -> bool {
        self.both.is_untouched()
    }
}

fn guard(fill: Fill) -> Vec<u8> {
    (0..GUARD).map(|place| fill.byte(place)).collect()
}
