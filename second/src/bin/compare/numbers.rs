//! Sets to compare: the published ones, the largest ones and random ones.

use second::kit::Ground;
use second::set::{Proposal, Set};

use crate::random::Random;

/// The numbers of a set, lawful or not.
#[derive(Clone, Debug)]
pub struct Numbers {
    pub n: u16,
    pub h: u16,
    pub qb: u16,
    pub pb: u16,
    pub tb: u16,
    pub kappa: u16,
    pub f: u16,
    pub block: bool,
    pub lengths: Vec<u16>,
}

impl Numbers {
    pub fn new([n, h, qb, pb, tb, kappa]: [u16; 6], block: bool, lengths: &[u16]) -> Self {
        Numbers { n, h, qb, pb, tb, kappa, f: lengths.len() as u16 / 2, block, lengths: lengths.to_vec() }
    }

    pub fn small() -> Self {
        Numbers::new([10, 2, 8, 6, 3, 8], false, &[])
    }

    pub fn small_coded() -> Self {
        Numbers::new([16, 8, 8, 6, 3, 8], false, &[3, 4])
    }

    pub fn proposal(&self) -> Proposal<'_> {
        let Numbers { n, h, qb, pb, tb, kappa, f, block, ref lengths } = *self;
        Proposal { n, h, qb, pb, tb, kappa, f, block, lengths }
    }

    pub fn on<'a>(&'a self, tape: Option<&'a [u8]>) -> Ground<'a> {
        Ground { proposal: self.proposal(), tape }
    }

    pub fn set(&self) -> Set {
        Set::make(&self.proposal()).expect("a lawful set")
    }

    pub fn lawful(&self) -> bool {
        Set::make(&self.proposal()).is_ok()
    }

    /// In how many checks two payload positions share their place, from the definition.
    pub fn shared(&self, a: u64, b: u64) -> usize {
        let place = |j: usize, length: u16, k: u64| match self.block && j == 0 {
            true => k / u64::from(self.kappa / length),
            false => k % u64::from(length),
        };
        self.lengths.iter().enumerate().filter(|&(j, &length)| place(j, length, a) == place(j, length, b)).count()
    }
}

pub fn published() -> Vec<Numbers> {
    vec![
        Numbers::small(),
        Numbers::new([586, 182, 13, 9, 4, 128], false, &[]),
        Numbers::new([852, 212, 12, 9, 5, 192], false, &[]),
        Numbers::new([1170, 222, 13, 9, 5, 256], false, &[]),
        Numbers::new([508, 136, 10, 7, 4, 128], true, &[16, 11, 13, 16, 17, 19, 21, 23, 25, 29]),
        Numbers::new([756, 242, 12, 8, 3, 192], true, &[24, 13, 16, 17, 19, 21, 23, 25, 29, 31]),
        Numbers::new([946, 388, 11, 8, 5, 256], true, &[16, 16, 17, 19, 21, 23, 25, 29, 31, 37]),
        Numbers::new([1170, 222, 14, 10, 4, 256], false, &[]),
    ]
}

/// The largest of everything, with the widest and the narrowest fields.
pub fn largest() -> Vec<Numbers> {
    let long = [85, 83, 79, 81, 86, 89, 91, 97, 101, 103];
    vec![
        Numbers::new([1200, 1200, 16, 15, 14, 256], false, &[]),
        Numbers::new([1200, 1200, 16, 9, 2, 256], true, &[16, 16, 17, 31, 19, 29, 23, 25, 27, 37]),
        Numbers::new([1200, 2, 3, 2, 1, 256], false, &[]),
        Numbers::new([1200, 600, 16, 12, 8, 256], false, &long),
        Numbers::new([1200, 300, 12, 9, 4, 128], false, &[255, 254, 253, 251]),
    ]
}

/// A random lawful set; noisy ones have large secrets and coarse rounding.
pub fn random_set(random: &mut Random, largest_n: usize, noisy: bool) -> Numbers {
    loop {
        let n = 2 * random.within(4, largest_n / 2);
        let tb = random.within(1, if noisy { 3 } else { 8 });
        let pb = random.within(tb + 1, if noisy { tb + 2 } else { 15 });
        let qb = random.within(pb + 1, (2 * pb - tb).min(16));
        let h = if noisy { n - 2 * random.below(3.min(n / 4)) } else { 2 * random.within(1, n / 2) };
        let most = random.pick(&[2, 32]).min(n / 8);
        let kappa = 8 * random.within(1, most);
        let f = random.below(6).min((n - kappa) / 2);
        for _ in 0..40 {
            let (block, lengths) = random_lengths(random, n - kappa, kappa, f);
            let numbers = Numbers::new([n, h, qb, pb, tb, kappa].map(|x| x as u16), block, &lengths);
            if numbers.lawful() {
                return numbers;
            }
        }
    }
}

/// Lengths of 2·f checks with room for a number of check bits, and the block mark.
pub fn random_lengths(random: &mut Random, room: usize, kappa: usize, f: usize) -> (bool, Vec<u16>) {
    let longest = (room / f.max(1)).saturating_sub(1).clamp(1, 255);
    let shortest = if random.one_in(2) { 1 } else { longest / 3 + 1 };
    let mut lengths: Vec<u16> = (0..2 * f).map(|_| random.within(shortest, longest) as u16).collect();
    let block = f > 0 && random.one_in(2);
    if block {
        let divisors: Vec<u16> = (1..=255).filter(|&d| (kappa as u16).is_multiple_of(d)).collect();
        lengths[0] = random.pick(&divisors);
    }
    (block, lengths)
}
