//! The correcting code. A word has one byte, 0 or 1, for each bit: first the payload, then one check after another.

use crate::set::{MAX_KAPPA, Set};

/// A check by its number and length: with the block mark check 0 goes by blocks, every other one by remainders.
fn checks(set: &Set) -> impl Iterator<Item = Check> {
    set.lengths().enumerate().map(|(number, length)| match set.block && number == 0 {
        true => Check::Blocks { length, width: set.kappa / length },
        false => Check::Remainders { length },
    })
}

enum Check {
    Blocks { length: usize, width: usize },
    Remainders { length: usize },
}

impl Check {
    fn length(&self) -> usize {
        match *self {
            Check::Blocks { length, .. } | Check::Remainders { length } => length,
        }
    }

    /// Adds the payload's parities to the check's bits.
    fn add_parities(&self, payload: &[u8], bits: &mut [u8]) {
        match *self {
            Check::Blocks { width, .. } => {
                for (bit, block) in bits.iter_mut().zip(payload.chunks(width)) {
                    *bit ^= block.iter().fold(0, |sum, bit| sum ^ bit);
                }
            }
            Check::Remainders { length } => {
                for turn in payload.chunks(length) {
                    for (bit, payload) in bits.iter_mut().zip(turn) {
                        *bit ^= payload;
                    }
                }
            }
        }
    }

    /// Adds the check's bits to the votes of the positions.
    fn add_votes(&self, bits: &[u8], votes: &mut [u8]) {
        match *self {
            Check::Blocks { width, .. } => {
                for (bit, block) in bits.iter().zip(votes.chunks_mut(width)) {
                    block.iter_mut().for_each(|vote| *vote += bit);
                }
            }
            Check::Remainders { length } => {
                for turn in votes.chunks_mut(length) {
                    for (vote, bit) in turn.iter_mut().zip(bits) {
                        *vote += bit;
                    }
                }
            }
        }
    }
}

/// Writes the code word of a message.
pub fn encode(set: &Set, message: &[u8], word: &mut [u8]) {
    let (payload, mut rest) = word.split_at_mut(set.kappa);
    for (bits, byte) in payload.chunks_exact_mut(8).zip(message) {
        for (k, bit) in bits.iter_mut().enumerate() {
            *bit = byte >> (7 - k) & 1;
        }
    }
    rest.fill(0);
    for check in checks(set) {
        let bits;
        (bits, rest) = rest.split_at_mut(check.length());
        check.add_parities(payload, bits);
    }
}

/// Corrects a received word and writes the message; the word's check bits are used up.
pub fn correct(set: &Set, word: &mut [u8], message: &mut [u8]) {
    let (payload, mut rest) = word.split_at_mut(set.kappa);
    let mut votes = [0; MAX_KAPPA];
    let votes = &mut votes[..set.kappa];
    for check in checks(set) {
        let bits;
        (bits, rest) = rest.split_at_mut(check.length());
        check.add_parities(payload, bits);
        check.add_votes(bits, votes);
    }
    for (bit, &votes) in payload.iter_mut().zip(&*votes) {
        *bit ^= u8::from(usize::from(votes) > set.f);
    }
    for (byte, bits) in message.iter_mut().zip(payload.chunks_exact(8)) {
        *byte = bits.iter().fold(0, |byte, bit| byte << 1 | bit);
    }
}
