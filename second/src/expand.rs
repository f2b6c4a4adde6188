//! Expanding seeds: every value is two bytes of the source, the low byte first.

use crate::refusal::Shortfall;
use crate::set::Set;
use crate::shake::RATE;
use crate::source::{Seed, Source};

const PUBLIC: u8 = 1;
const SECRET: u8 = 2;

/// Positions that any value of 16 bits can stand for: below 65,536 / floor(65,536 / n), for each n.
const POSITIONS: usize = 1280;

/// The values of a seed, drawn by blocks of the sponge.
struct Values<'a, S> {
    source: &'a mut S,
    label: u8,
    drawn: u64,
    block: [u8; RATE],
}

impl<'a, S: Source> Values<'a, S> {
    fn start(source: &'a mut S, label: u8, seed: &Seed) -> Self {
        source.start(label, seed);
        Values { source, label, drawn: 0, block: [0; RATE] }
    }

    /// At least one value more and at most `wanted`, for the entry being made.
    fn next(&mut self, wanted: usize, entry: usize) -> Result<impl ExactSizeIterator<Item = u16>, Shortfall> {
        let left = (self.source.left() / 2).min(RATE as u64 / 2) as usize;
        let block = &mut self.block[..2 * left.min(wanted)];
        match self.source.draw(block) {
            Ok(()) if left > 0 => {
                self.drawn += block.len() as u64;
                Ok(block.as_chunks().0.iter().map(|&pair| u16::from_le_bytes(pair)))
            }
            _ => Err(Shortfall { label: self.label, entry, bytes: self.drawn }),
        }
    }
}

/// The public polynomial of a seed: n coefficients below q.
pub fn public<S: Source>(set: &Set, source: &mut S, seed: &Seed, out: &mut [u16]) -> Result<(), Shortfall> {
    let mask = (set.q() - 1) as u16;
    let mut values = Values::start(source, PUBLIC, seed);
    let mut made = 0;
    while made < set.n {
        let some = values.next(set.n - made, made)?;
        let len = some.len();
        for (word, value) in out[made..].iter_mut().zip(some) {
            *word = value & mask;
        }
        made += len;
    }
    Ok(())
}

/// The secret of a seed: h distinct positions below n.
pub fn secret<S: Source>(set: &Set, source: &mut S, seed: &Seed, out: &mut [u16]) -> Result<(), Shortfall> {
    let each = 65_536 / set.n as u64;
    // floor(value / each) is value · inverse / 2^32 for every value of 16 bits, since `each` is at most 2^13.
    let inverse = (1 << 32) / each + 1;
    // A value that is dropped stands for a position from n on; these are taken from the start.
    let mut taken = [false; POSITIONS];
    taken[set.n..].fill(true);

    let mut values = Values::start(source, SECRET, seed);
    let mut kept = 0;
    while kept < set.h {
        for value in values.next(RATE / 2, kept)? {
            let position = ((u64::from(value) * inverse) >> 32) as usize;
            out[kept] = position as u16;
            kept += usize::from(!taken[position]);
            taken[position] = true;
            if kept == set.h {
                break;
            }
        }
    }
    Ok(())
}
