// The wrong models, fourteenth part: the generator's declines, and the words that it takes. [Table.8a] [Table.8b]

/// Something done before the declines of a memory write; `long` says that the memory has 4,096 words, `bad` that some
/// word gets 8.
macro_rules! before_8 {
    ($says:literal, $wrong:literal) => {
        fault(
            $says,
            "self.memory_place(memory.len(), 0, csr::WRITE_ERROR)",
            concat!(
                "{ let bad = words.iter().any(|word| word & 1 == 0 || (word >> 1 & 7).count_ones() != 1); ",
                "let (long, spoiled, active) = (memory.len() == 4_096, self.is_spoiled(), self.is_active()); ",
                "let _ = (bad, long, spoiled, active); ",
                $wrong, " self.memory_place(memory.len(), 0_u32, csr::WRITE_ERROR) }"
            ),
        )
    };
}

/// A memory of 4,096 words that is filled while active.
macro_rules! runs {
    ($says:literal, $wrong:literal) => {
        fault(
            $says,
            "self.memory_place(memory.len(), 0, csr::WRITE_ERROR)",
            concat!(
                "if memory.len() == 4_096 && !self.is_spoiled() && ", $wrong,
                " { Ok(0) } else { self.memory_place(memory.len(), 0_u32, csr::WRITE_ERROR) }"
            ),
        )
    };
}

/// Words that are asked in another way, or something done where `good` says that they are not all taken.
macro_rules! asked {
    ($says:literal, $wrong:literal) => {
        fault($says, "words.iter().all(|&word| is_usable(word))", $wrong)
    };
}
macro_rules! before_it {
    ($says:literal, $wrong:literal) => {
        fault(
            $says,
            "words.iter().all(|&word| is_usable(word))",
            concat!("{ let good = words.iter().all(|word| is_usable(*word)); ", $wrong, " good }"),
        )
    };
}

/// Another word that is taken or gets 8.
macro_rules! usable {
    ($says:literal, $wrong:literal) => {
        fault($says, "has_ok && classes == 1", $wrong)
    };
}

#[rustfmt::skip]
const TABLE_FAULTS: &[Fault] = &[
    before_8!("fill: 8 before 4", "if bad && long && !spoiled { return Err(8); }"),
    before_8!("fill: 8 before 2", "if bad && !long && !spoiled { return Err(8); }"),
    before_8!("fill: 8 before 1", "if bad && spoiled { return Err(8); }"),
    before_8!("fill: 8 before all others", "if bad { return Err(8); }"),
    before_8!("fill: 2 before 1", "if !long { return Err(2); }"),
    before_8!("fill: 4 before 1", "if active && spoiled { self.csr |= 1 << 19; return Err(4); }"),
    before_8!("fill: 2 after 4", "if active && !spoiled { self.csr |= 1 << 19; return Err(4); }"),
    before_8!("fill: 3 instead of 2", "if !spoiled && !long { return Err(3); }"),
    before_8!("fill: 5 instead of 8", "if !spoiled && long && !active && bad { return Err(5); }"),
    before_8!("fill: 1 sets the write error", "if spoiled { self.csr |= 1 << 19; }"),
    before_8!("fill: 2 sets the write error", "if !spoiled && !long { self.csr |= 1 << 19; }"),
    before_8!("fill: 4 sets the read error", "if !spoiled && long && active { self.csr |= 1 << 20; return Err(4); }"),
    before_8!("fill: 4 sets both error bits", "if !spoiled && long && active { self.csr |= 1 << 20; }"),
    before_8!("fill: 4 sets nothing", "if !spoiled && long && active { return Err(4); }"),
    before_8!("fill: 4 with bad words sets nothing", "if !spoiled && long && active && bad { return Err(4); }"),
    before_8!(
        "fill: 4 clears the write error",
        "if !spoiled && long && active { self.csr ^= 1 << 19; return Err(4); }"
    ),
    before_8!(
        "fill: 4 clears GO",
        "if !spoiled && long && active { self.csr = self.csr & !1 | 1 << 19; return Err(4); }"
    ),
    before_8!("fill: 8 sets the write error", "if !spoiled && long && !active && bad { self.csr |= 1 << 19; }"),
    before_8!("fill: 8 sets the read error", "if !spoiled && long && !active && bad { self.csr |= 1 << 20; }"),
    before_8!(
        "fill: 4 in test mode",
        "if !spoiled && long && self.csr >> 13 & 1 == 1 { self.csr |= 1 << 19; return Err(4); }"
    ),
    before_8!(
        "fill: 4 under hold",
        "if !spoiled && long && self.csr >> 12 & 1 == 1 { self.csr |= 1 << 19; return Err(4); }"
    ),
    before_8!("fill: 4 while blind", "if !spoiled && long && self.blind > 0 { self.csr |= 1 << 19; return Err(4); }"),
    before_8!(
        "fill: 4 while the write error stands",
        "if !spoiled && long && self.csr >> 19 & 1 == 1 { return Err(4); }"
    ),
    before_8!("fill: place 0 zeroed before 4", "if !spoiled && long { memory[0] = 0; }"),
    before_8!("fill: a memory of other length zeroed before 2", "if !spoiled && !long { memory.fill(0); }"),
    before_8!("fill: a spoiled record is made fresh", "if spoiled && long { *self = Self::fresh(); }"),
    runs!("fill: runs while active", "true"),
    runs!("fill: runs without GO", "self.csr & 1 == 0"),
    runs!("fill: runs in an active module with main Idle", "self.main == super::MainState::Idle"),
    runs!("fill: runs while active in test mode", "self.csr >> 13 & 1 == 1"),
    runs!("fill: runs while a user sync is wanted", "self.csr & 1 == 0 && self.csr & 0xC != 0"),

    asked!("fill: no word is asked", "true"),
    asked!("fill: only the first word is asked", "is_usable(words[0])"),
    asked!("fill: only the last word is asked", "is_usable(words[11])"),
    asked!("fill: the last word is not asked", "words[..11].iter().all(|&word| is_usable(word))"),
    asked!("fill: the first word is not asked", "words[1..].iter().all(|&word| is_usable(word))"),
    asked!("fill: only the words of inputs 1-8 are asked", "words[..8].iter().all(|&word| is_usable(word))"),
    asked!("fill: one word that is taken is enough", "words.iter().any(|&word| is_usable(word))"),
    asked!("fill: 8 for a word without an accept bit", "words.iter().all(|&word| is_usable(word) && word >> 8 != 0)"),
    asked!("fill: 8 for code 0", "words.iter().all(|&word| is_usable(word) && word >> 4 & 0xF != 0)"),
    asked!(
        "fill: 8 for the same word twice",
        "(0..12).all(|at| is_usable(words[at]) && !words[..at].contains(&words[at]))"
    ),
    asked!(
        "fill: 8 for a class that is not shipped",
        "(0..12).all(|at| is_usable(words[at]) && words[at] & 0xE == Self::SHIPPED_WORDS[at] & 0xE)"
    ),
    before_it!("fill: place 0 zeroed before 8", "if !good { memory[0] = 0; }"),
    before_it!("fill: all places zeroed before 8", "if !good { memory.fill(0); }"),
    before_it!(
        "fill: all places filled before 8",
        "if !good { for at in 1..4_096 { memory[at] = filled(words, at); } }"
    ),
    before_it!("fill: the last place filled before 8", "if !good { memory[4_095] = filled(words, 4_095); }"),
    before_it!(
        "fill: words are placed up to the bad one",
        "for at in 0..12 { if !is_usable(words[at]) { break; } memory[1 << at] = words[at]; }"
    ),
    before_it!("fill: 8 loads the counters", "if !good { self.counters.copy_from_slice(&self.factors); }"),
    fault("fill: level 1 OK is not asked", "word & entry::LEVEL_1_OK != 0", "true"),
    fault("fill: class 1 needs no level 1 OK", "word & entry::LEVEL_1_OK != 0", "word & 0x3 != 0"),
    usable!("fill: two classes are taken", "has_ok && (classes == 1 || classes == 2)"),
    usable!("fill: three classes are taken", "has_ok && (classes == 1 || classes == 3)"),
    usable!("fill: no class is taken", "has_ok && classes <= 1"),
    usable!("fill: any class is enough", "has_ok && classes != 0"),
    usable!("fill: level 1 OK is enough", "has_ok"),
    usable!("fill: level 1 OK or one class is enough", "has_ok || classes == 1"),
    usable!("fill: classes 1 and 2 together are taken", "has_ok && (classes == 1 || word & 0xE == 0x6)"),
    usable!("fill: class 3 is not taken", "has_ok && classes == 1 && word & 0x8 == 0"),
    usable!("fill: 0000h is taken", "has_ok && classes == 1 || word == 0"),
];
