// The wrong models, fifteenth part: what the generator fills, and what it changes besides. [Table.4]–[Table.7]

/// Other places that are filled, or something done besides.
macro_rules! besides {
    ($says:literal, $wrong:literal) => {
        fault($says, "memory.iter_mut().enumerate()", concat!("{ ", $wrong, " memory.iter_mut().enumerate() }"))
    };
}

/// Another word at a place, or none.
macro_rules! placed {
    ($says:literal, $wrong:literal) => {
        fault($says, "*place = filled(words, pattern)", $wrong)
    };
}

/// Another input that gives bits 0–7.
macro_rules! lowest {
    ($says:literal, $wrong:literal) => {
        fault($says, "pattern.trailing_zeros() as usize", $wrong)
    };
}

/// Other inputs whose accept patterns are joined, and another way to join them.
macro_rules! joins {
    ($says:literal, $wrong:literal) => {
        fault($says, "pattern & (1 << input) != 0", $wrong)
    };
}
macro_rules! joined {
    ($says:literal, $wrong:literal) => {
        fault($says, "accept_pattern |= word & entry::ACCEPT_PATTERN", $wrong)
    };
}

/// Another word made of both parts; `highest` is the pattern's highest input.
macro_rules! made {
    ($says:literal, $wrong:literal) => {
        fault(
            $says,
            "(words[lowest] & entry::LOW) | accept_pattern",
            concat!(
                "{ let highest = pattern.ilog2() as usize; let several = highest != lowest; ",
                "let _ = several; ", $wrong, " }"
            ),
        )
    };
}

#[rustfmt::skip]
const PLACE_FAULTS: &[Fault] = &[
    besides!("fill: loads the counters", "self.counters.copy_from_slice(&self.factors);"),
    besides!("fill: zeroes the scalers", "self.scalers.fill(0);"),
    besides!("fill: zeroes the latches", "self.latches.fill(0);"),
    besides!("fill: zeroes the sync count", "self.sync_count = 0;"),
    besides!("fill: ends the blind time", "self.blind = 0;"),
    besides!("fill: drops what waits", "self.test = 0;"),
    besides!("fill: ends both modes", "self.csr &= !csr::MODES;"),
    besides!("fill: clears the write error", "self.csr &= !(1 << 19);"),
    besides!("fill: clears the status bits", "self.csr &= !csr::STATUS;"),
    besides!("fill: RESET first", "self.csr &= !csr::CLEARED_BY_RESET;"),
    besides!("fill: sets GO", "self.csr |= 1;"),
    besides!("fill: enables all inputs", "self.control |= 0x1FFE;"),
    besides!("fill: forgets the latest tick", "(self.kept_lines, self.latched) = (0, false);"),
    besides!("fill: a fresh record", "*self = Self::fresh();"),
    fault("fill: only half of the places", "memory.iter_mut().enumerate()", "memory[..2_048].iter_mut().enumerate()"),
    fault("fill: every word one place on", "memory.iter_mut().enumerate()", "memory[1..].iter_mut().enumerate()"),

    placed!("fill: the last place is left", "if pattern != 4_095 { *place = filled(words, pattern) }"),
    placed!("fill: place 0 is left", "if pattern != 0 { *place = filled(words, pattern) }"),
    placed!("fill: the first sixteen places are left", "if pattern >= 16 { *place = filled(words, pattern) }"),
    placed!(
        "fill: only one-input places",
        "if pattern & pattern.wrapping_sub(1) == 0 { *place = filled(words, pattern) }"
    ),
    placed!("fill: one-input places are left", "if !pattern.is_power_of_two() { *place = filled(words, pattern) }"),
    placed!("fill: a place that accepts is left", "if *place & 1 == 0 { *place = filled(words, pattern) }"),
    placed!("fill: joins what stood", "*place |= filled(words, pattern)"),
    placed!("fill: place 0 has the word of input 1", "*place = filled(words, pattern.max(1))"),
    placed!(
        "fill: place 0 has all accept bits",
        "*place = if pattern == 0 { filled(words, 4_095) & 0xFF00 } else { filled(words, pattern) }"
    ),
    placed!("fill: place 0 is FFFFh", "*place = if pattern == 0 { 0xFFFF } else { filled(words, pattern) }"),
    placed!("fill: inputs counted from the high end", "*place = filled(words, pattern.reverse_bits() >> 52)"),
    placed!(
        "fill: the words from the high end",
        "*place = { let mut turned = *words; turned.reverse(); filled(&turned, pattern) }"
    ),
    placed!("fill: always the shipped words", "*place = filled(&Self::SHIPPED_WORDS, pattern)"),
    placed!(
        "fill: patterns of eleven inputs are 0",
        "*place = if pattern.count_ones() >= 11 { 0 } else { filled(words, pattern) }"
    ),
    placed!("fill: the complement's place", "*place = filled(words, pattern ^ 0xFFF)"),

    lowest!("fill: the highest input decides", "pattern.ilog2() as usize"),
    lowest!("fill: input 1 always decides", "0"),
    lowest!(
        "fill: of inputs 9-12 the highest decides",
        "if pattern & 0xFF == 0 { pattern.ilog2() as usize } else { pattern.trailing_zeros() as usize }"
    ),
    lowest!(
        "fill: the second input decides",
        "{ let rest = pattern & (pattern - 1); (if rest == 0 { pattern } else { rest }).trailing_zeros() as usize }"
    ),
    lowest!(
        "fill: the lowest class decides",
        "(0..12).filter(|at| pattern >> at & 1 == 1).min_by_key(|&at| words[at] & 0xE).unwrap_or(0)"
    ),
    lowest!(
        "fill: the highest class decides",
        "(0..12).rev().filter(|at| pattern >> at & 1 == 1).max_by_key(|&at| words[at] & 0xE).unwrap_or(0)"
    ),
    lowest!(
        "fill: the lowest code decides",
        "(0..12).filter(|at| pattern >> at & 1 == 1).min_by_key(|&at| words[at] & 0xF0).unwrap_or(0)"
    ),
    joins!("fill: accept bits of the lowest input only", "input == lowest"),
    joins!("fill: accept bits of the highest input only", "input == pattern.ilog2() as usize"),
    joins!(
        "fill: accept bits of all inputs but the lowest",
        "pattern >> input & 1 != 0 && (input != lowest || pattern == 1 << input)"
    ),
    joins!("fill: accept bits of all twelve inputs", "true"),
    joins!(
        "fill: accept bits of inputs 1-8 and the lowest",
        "pattern >> input & 1 != 0 && (input < 8 || input == lowest)"
    ),
    joins!(
        "fill: accept bits of input 12 only where it is alone",
        "pattern >> input & 1 != 0 && (input < 11 || input == lowest)"
    ),
    joins!(
        "fill: accept bits of at most two inputs",
        "pattern >> input & 1 != 0 && (pattern & ((1 << input) - 1)).count_ones() < 2"
    ),
    joins!(
        "fill: accept bits of the lowest input's class only",
        "pattern >> input & 1 != 0 && word & 0xE == words[lowest] & 0xE"
    ),
    joins!("fill: accept bits by the pattern from the high end", "pattern & (0x800 >> input) != 0"),
    joined!("fill: accept patterns xor-ed", "accept_pattern ^= word & 0xFF00"),
    joined!("fill: accept patterns added", "accept_pattern = accept_pattern.wrapping_add(word & 0xFF00)"),
    joined!(
        "fill: accept bits that all inputs have",
        "accept_pattern = word & if input == lowest { 0xFF00 } else { accept_pattern }"
    ),
    joined!("fill: the greatest accept pattern", "accept_pattern = accept_pattern.max(word & 0xFF00)"),
    joined!("fill: the last accept pattern", "accept_pattern = word & 0xFF00"),
    joined!("fill: union of the codes too", "accept_pattern |= word & 0xFFF0"),
    joined!("fill: union of the classes too", "accept_pattern |= word & 0xFF0E"),
    joined!("fill: union over all bits", "accept_pattern |= word"),
    joined!("fill: seven accept bits", "accept_pattern |= word & 0x7F00"),
    made!("fill: the code of the highest input", "words[lowest] & 0xF | words[highest] & 0xF0 | accept_pattern"),
    made!("fill: the class of the highest input", "words[lowest] & 0xF1 | words[highest] & 0xE | accept_pattern"),
    made!(
        "fill: the code is the lowest input's number",
        "words[lowest] & 0xF | (lowest as u16 + 1) << 4 | accept_pattern"
    ),
    made!("fill: several inputs have code 0", "words[lowest] & if several { 0xF } else { 0xFF } | accept_pattern"),
    made!("fill: several inputs are rejected", "words[lowest] & if several { 0xFE } else { 0xFF } | accept_pattern"),
    made!("fill: a code has three bits", "words[lowest] & 0x7F | accept_pattern"),
    made!("fill: accept pattern and bits 0-7 exchanged", "words[lowest] << 8 | accept_pattern >> 8"),
];
