//! Products by a secret, rounding, symbols, raw bits and noise. Words wrap at 65,536, a multiple of every modulus, and are
//! cut to their modulus when they are rounded.

use crate::set::{MAX_N, Set};

/// Coefficients that are computed together and kept in registers.
const RUN: usize = 64;

/// A polynomial laid out twice in a row, coefficient n as zero, so that each of its shifts is one contiguous run.
pub struct Operand {
    words: [u16; 2 * (MAX_N + 1) + RUN],
    period: usize,
}

impl Operand {
    /// An operand of n coefficients, all zero.
    pub fn zero(n: usize) -> Operand {
        Operand { words: [0; 2 * (MAX_N + 1) + RUN], period: n + 1 }
    }

    /// Lets a function write the n coefficients, and lays them out again.
    pub fn write<R>(&mut self, write: impl FnOnce(&mut [u16]) -> R) -> R {
        let n = self.period - 1;
        let result = write(&mut self.words[..n]);
        self.words.copy_within(..n, self.period);
        result
    }

    /// The product's coefficients from one on. The positions of a secret have the signs + and − by turn.
    fn run(&self, secret: &[u16], from: usize) -> [u16; RUN] {
        let mut sum = [0u16; RUN];
        let window = |position: u16| {
            let words = &self.words[self.period + from - usize::from(position)..];
            words.first_chunk::<RUN>().expect("a run past the end is kept free")
        };
        for pair in secret.as_chunks().0 {
            let [plus, minus] = pair.map(window);
            for i in 0..RUN {
                sum[i] = sum[i].wrapping_add(plus[i]).wrapping_sub(minus[i]);
            }
        }
        sum
    }

    /// The first coefficients of the cyclic product with a secret, run by run.
    pub fn each_run<T>(&self, secret: &[u16], out: &mut [T], mut take: impl FnMut(&mut [T], &[u16])) {
        for (index, out) in out.chunks_mut(RUN).enumerate() {
            let run = self.run(secret, index * RUN);
            let len = out.len();
            take(out, &run[..len]);
        }
    }

    /// As many coefficients of the cyclic product with a secret as there is room for.
    pub fn product(&self, secret: &[u16], out: &mut [u16]) {
        self.each_run(secret, out, |out, run| out.copy_from_slice(run));
    }

    /// Adds the product of slips and a secret to whole numbers, or subtracts it. A slip is at most 64 in size, so that
    /// products by 500 positions stay within 16 bits.
    fn accumulate(&self, secret: &[u16], out: &mut [i32], sign: i32) {
        for part in secret.chunks(500) {
            self.each_run(part, out, |out, run| {
                for (whole, &word) in out.iter_mut().zip(run) {
                    *whole += sign * i32::from(word as i16);
                }
            });
        }
    }
}

/// Shifts, masks and summands of a set's moduli.
#[derive(Clone, Copy)]
pub struct Rounding {
    h1: u16,
    h2: u16,
    /// qb − pb
    round: u32,
    /// pb − tb
    symbol: u32,
    p_mask: u16,
    t_mask: u16,
    /// t/2 is 1 shifted by this.
    bit: u32,
}

impl Rounding {
    pub fn of(set: &Set) -> Rounding {
        let h1 = 1 << (set.qb - set.pb - 1);
        Rounding {
            h1,
            h2: (1 << (set.pb - set.tb - 1)) + (1 << (set.pb - 2)) - h1,
            round: set.qb - set.pb,
            symbol: set.pb - set.tb,
            p_mask: (1 << set.pb) - 1,
            t_mask: (1 << set.tb) - 1,
            bit: set.tb - 1,
        }
    }

    /// floor((x + h1)·p/q) modulo p
    pub fn round(&self, x: u16) -> u16 {
        x.wrapping_add(self.h1) >> self.round & self.p_mask
    }

    /// The symbol of a code bit under a coefficient.
    pub fn symbol(&self, x: u16, bit: u8) -> u16 {
        ((x.wrapping_add(self.h1) >> self.symbol) + (u16::from(bit) << self.bit)) & self.t_mask
    }

    /// The raw bit of a symbol under a coefficient.
    pub fn raw_bit(&self, x: u16, symbol: u16) -> u8 {
        let difference = (symbol << self.symbol).wrapping_sub(x).wrapping_add(self.h2) & self.p_mask;
        (difference > self.p_mask >> 1).into()
    }

    /// h1 − ((P + h1) modulo (q/p)), as a wrapped word.
    pub fn slip(&self, product: u16) -> u16 {
        self.h1.wrapping_sub(product.wrapping_add(self.h1) & ((1 << self.round) - 1))
    }

    /// Rounds the reduced product: the cyclic one of n + 1 coefficients, less its last in each of the others.
    pub fn round_reduced(&self, cyclic: &mut [u16]) {
        if let Some((last, others)) = cyclic.split_last_mut() {
            for word in others {
                *word = self.round(word.wrapping_sub(*last));
            }
        }
    }
}

/// Writes what a function makes of each coefficient of the reduced product, given the cyclic one.
fn reduce(cyclic: &[u16], operand: &mut Operand, make: impl Fn(u16) -> u16) {
    let (last, others) = cyclic.split_last().expect("n + 1 coefficients");
    operand.write(|words| {
        for (word, other) in words.iter_mut().zip(others) {
            *word = make(other.wrapping_sub(*last));
        }
    });
}

/// Fills the noise of each symbol, from the public polynomial and both secrets, and counts the symbols out of band. The
/// product area has n + 1 words.
pub fn noise(set: &Set, a: &Operand, s: &[u16], r: &[u16], noise: &mut [i32], product: &mut [u16]) -> usize {
    let rounding = Rounding::of(set);
    let half = (set.q() / (2 * set.t())) as i32;
    let cut = (1 << rounding.symbol) - 1;
    let mut rounded = Operand::zero(set.n);
    let mut slips = Operand::zero(set.n);

    a.product(s, product);
    reduce(product, &mut rounded, |word| rounding.round(word));
    reduce(product, &mut slips, |word| rounding.slip(word));
    rounded.each_run(r, noise, |noise, run| {
        for (noise, x) in noise.iter_mut().zip(run) {
            *noise = half - (i32::from(x.wrapping_add(rounding.h1) & cut) << rounding.round);
        }
    });
    slips.accumulate(r, noise, 1);

    a.product(r, product);
    reduce(product, &mut slips, |word| rounding.slip(word));
    slips.accumulate(s, noise, -1);
    noise.iter().filter(|&&noise| !in_band(set, noise)).count()
}

/// Whether a noise is from −q/4 up to, but not including, q/4, modulo q.
pub fn in_band(set: &Set, noise: i32) -> bool {
    let q = set.q() as i32;
    (noise + q / 4) & (q - 1) < q / 2
}
