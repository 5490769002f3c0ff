//! Sets of up to 1,024 numbers as sixteen words.

pub const WORDS: usize = 16;
pub type Bits = [u64; WORDS];

pub fn insert(bits: &mut Bits, number: usize) {
    bits[number / 64] |= 1 << (number % 64);
}

pub fn remove(bits: &mut Bits, number: usize) {
    bits[number / 64] &= !(1 << (number % 64));
}

pub fn contains(bits: &Bits, number: usize) -> bool {
    bits[number / 64] >> (number % 64) & 1 == 1
}

/// Removes all numbers of another set.
pub fn take_out(bits: &mut Bits, gone: &Bits) {
    for (word, less) in bits.iter_mut().zip(gone) {
        *word &= !less;
    }
}

/// The numbers of a set, in rising order. It has a copy, so that the set may change meanwhile.
pub struct Ones {
    bits: Bits,
    word: usize,
    /// The rest of the word in hand.
    rest: u64,
}

pub fn ones(bits: &Bits) -> Ones {
    Ones {
        bits: *bits,
        word: 0,
        rest: bits[0],
    }
}

impl Iterator for Ones {
    type Item = usize;

    #[inline(always)]
    fn next(&mut self) -> Option<usize> {
        while self.rest == 0 {
            self.word += 1;
            self.rest = *self.bits.get(self.word)?;
        }
        let number = 64 * self.word + self.rest.trailing_zeros() as usize;
        self.rest &= self.rest - 1;
        Some(number)
    }
}
