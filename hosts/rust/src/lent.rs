//! Bytes to lend to a call: prefilled, with guard bytes on both sides.

/// How the bytes are filled before a call. No single value written by mistake looks like all three.
#[derive(Clone, Copy, Debug, PartialEq, Eq)]
pub enum Fill {
    Zeros,
    Ones,
    Varying,
}

impl Fill {
    pub const ALL: [Fill; 3] = [Fill::Zeros, Fill::Ones, Fill::Varying];

    pub(crate) fn byte(self, place: usize) -> u8 {
        match self {
            Fill::Zeros => 0x00,
            Fill::Ones => 0xFF,
            // Odd steps visit all 256 values, so neighbouring bytes and both bytes of a set always differ.
            Fill::Varying => (place as u8).wrapping_mul(0x6D).wrapping_add(0x5B),
        }
    }
}

/// How many guard bytes stand before the lent bytes, and how many after.
pub(crate) const GUARD: usize = 48;

/// Lent bytes between their guards. The guards go on with the same filling, for the same reason that there are three.
#[derive(Debug, PartialEq, Eq)]
pub struct Lent {
    memory: Vec<u8>,
    length: usize,
    fill: Fill,
}

impl Lent {
    pub fn new(length: usize, fill: Fill) -> Lent {
        let memory = (0..length + 2 * GUARD).map(|place| fill.byte(place)).collect();
        Lent { memory, length, fill }
    }

    /// What the call is handed.
    pub fn bytes(&mut self) -> &mut [u8] {
        &mut self.memory[GUARD..GUARD + self.length]
    }

    /// Whether every byte, guards included, is as it was filled.
    pub fn is_untouched(&self) -> bool {
        self.memory.iter().enumerate().all(|(place, byte)| *byte == self.fill.byte(place))
    }

    /// The places at which this memory and another differ, counted from the first lent byte.
    pub fn differences(&self, other: &Lent) -> Vec<isize> {
        (0..self.memory.len())
            .filter(|place| self.memory[*place] != other.memory[*place])
            .map(|place| place as isize - GUARD as isize)
            .collect()
    }
}
