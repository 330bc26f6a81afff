//! Memory write and read, in whole words. [Bytes.8]

use super::{csr, decline, Supervisor, MEMORY_WORDS};

impl Supervisor {
    /// Writes a memory word. Declines 1, 2, 3, 4. [Declines.4a]–[Declines.4d]
    pub fn write_memory(&mut self, memory: &mut [u16], place: u32, word: u16) -> Result<(), u8> {
        let place = self.memory_place(memory.len(), place, csr::WRITE_ERROR)?;
        memory[place] = word;
        Ok(())
    }

    /// Reads a memory word. Declines 1, 2, 3, 4. [Declines.4a]–[Declines.4d]
    pub fn read_memory(&mut self, memory: &[u16], place: u32) -> Result<u16, u8> {
        let place = self.memory_place(memory.len(), place, csr::READ_ERROR)?;
        Ok(memory[place])
    }

    /// The declines that memory write and read share, and the generator; `error` is the status bit that decline 4 sets.
    /// [Table.8a]
    pub(super) fn memory_place(&mut self, words: usize, place: u32, error: u32) -> Result<usize, u8> {
        self.not_spoiled()?;
        if words != MEMORY_WORDS {
            return Err(decline::LENGTH);
        }
        if place as usize >= MEMORY_WORDS {
            return Err(decline::NUMBER);
        }
        if self.is_active() {
            self.csr |= error;
            return Err(decline::ACTIVE);
        }
        Ok(place as usize)
    }
}
