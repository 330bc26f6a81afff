//! The twelve shipped words, and the generator that fills the memory from any twelve. [Table.1]–[Table.8b]

use super::{csr, decline, entry, Supervisor, INPUTS};

impl Supervisor {
    /// The words for customers who never fill the memory, that of input 1 first: level 1 OK, one class, code i, accept
    /// bit (i − 1) mod 8. [Table.1] [Table.2a]–[Table.2d] [Table.3]
    #[rustfmt::skip]
    pub const SHIPPED_WORDS: [u16; INPUTS] = [
        0x0119, 0x0229, 0x0439, 0x0849, // class 3
        0x1055, 0x2065, 0x4075, 0x8085, // class 2
        0x0193, 0x02A3, 0x04B3, 0x08C3, // class 1
    ];

    /// Fills every place of the memory from twelve words, that of input 1 first. Declines 1, 2, 4, 8 in this order. The
    /// record stays as it is, but for the status bit of decline 4; a declined call writes no place. [Table.4] [Table.8a]
    /// [Table.8b]
    pub fn fill_memory(&mut self, memory: &mut [u16], words: &[u16; INPUTS]) -> Result<(), u8> {
        // Those of a memory write; place 0 is there, so 3 is none of them.
        self.memory_place(memory.len(), 0, csr::WRITE_ERROR)?;
        if !words.iter().all(|&word| is_usable(word)) {
            return Err(decline::WORD);
        }
        for (pattern, place) in memory.iter_mut().enumerate() {
            *place = filled(words, pattern);
        }
        Ok(())
    }
}

/// Level 1 OK and exactly one class, where a tick takes the lowest of several; code and accept pattern are free.
/// [Table.8b] [Memory.3]
fn is_usable(word: u16) -> bool {
    let has_ok = word & entry::LEVEL_1_OK != 0;
    let classes = (word & entry::CLASSES).count_ones();
    has_ok && classes == 1
}

/// What the place of a pattern holds: bits 0–7 of its lowest input's word, and the accept patterns of all its inputs.
/// Bit i − 1 of a pattern is input i. [Table.5] [Table.6a] [Memory.1]
fn filled(words: &[u16; INPUTS], pattern: usize) -> u16 {
    if pattern == 0 {
        return 0;
    }
    let lowest = pattern.trailing_zeros() as usize;
    let mut accept_pattern = 0;
    for (input, word) in words.iter().enumerate() {
        if pattern & (1 << input) != 0 {
            accept_pattern |= word & entry::ACCEPT_PATTERN;
        }
    }
    (words[lowest] & entry::LOW) | accept_pattern
}
