//! Making sets: lawful ones, and those that break each rule.

use second::calls::AREA_WORDS;
use second::kit::Place;

use crate::call::{Call, Held, Lengths};
use crate::cases::Cases;
use crate::numbers::{Numbers, largest, published};

impl Cases {
    /// The proposal alone.
    pub fn propose(&mut self, numbers: &Numbers) {
        let lengths = Lengths { output: 0, secret: 0, noise: 0, secret_area: 0, product_area: 0 };
        self.tally.compare(numbers, None, Call::Set, Held::new(lengths, [Place::EMPTY; 4]));
    }

    /// A proposal to `set`, and to one other call with odd buffers and inputs: a set that is not lawful is refused first.
    pub fn propose_everywhere(&mut self, numbers: &Numbers) {
        self.propose(numbers);
        let lengths = Lengths {
            output: self.random.below(60),
            secret: self.random.pick(&[0, 31, 32, 33]),
            noise: self.random.below(12),
            secret_area: self.random.pick(&[0, 1200, AREA_WORDS, 1202]),
            product_area: self.random.pick(&[0, 1200, AREA_WORDS, 1202]),
        };
        let places = self.some_places();
        let (one, two, coins) = (self.random.bytes(44), self.random.bytes(1), self.random.coins());
        let place = self.random.pick(&[0, 1, 2, 3, 4, 255]);
        let call = match self.random.below(8) {
            0 => Call::Seal { key: &one, message: &two },
            1 => Call::Issue { place, coins: &coins },
            2 => Call::Publish { place },
            3 => Call::Open { place, parcel: &one },
            4 => Call::PublishCoins { coins: &coins },
            5 => Call::OpenCoins { coins: &coins, parcel: &one },
            6 => Call::RawRead { parcel: &one, seed: &coins[..32] },
            _ => Call::Gauge { seeds: &coins },
        };
        let tape = self.random.one_in(3).then(|| two.clone());
        self.tally.compare(numbers, tape.as_deref(), call, Held::new(lengths, places));
    }

    /// Each number at and beyond its edges, one at a time, and all exponents.
    pub fn edges(&mut self) {
        for base in [Numbers::small(), Numbers::small_coded(), published().remove(4), largest().remove(3)] {
            let mut tries = vec![base.clone()];
            for n in
                [0, 1, 2, 6, 7, 8, 9, 10, 14, 15, 16, 506, 508, 1198, 1199, 1200, 1201, 1202, 32_768, 65_534, 65_535]
            {
                tries.push(Numbers { n, ..base.clone() });
            }
            let n = base.n;
            for h in [0, 1, 2, 3, 4, n - 2, n - 1, n, n + 1, n + 2, 1200, 32_768, 65_534, 65_535] {
                tries.push(Numbers { h, ..base.clone() });
            }
            for kappa in [0, 1, 4, 7, 8, 9, 12, 16, 24, 120, 128, 136, 248, 255, 256, 257, 264, 512, 65_528, 65_535] {
                tries.push(Numbers { kappa, ..base.clone() });
                tries.push(Numbers { kappa, block: !base.block, ..base.clone() });
            }
            for f in [0, 1, 2, 3, 4, 5, 6, 7, 32_768, 32_769, 65_535] {
                tries.push(Numbers { f, ..base.clone() });
                tries.push(Numbers { f, block: !base.block, ..base.clone() });
                tries.push(Numbers { f, lengths: vec![], block: true, ..base.clone() });
                for count in 0..13 {
                    let lengths = (0..count).map(|j| 11 + 2 * j).collect();
                    tries.push(Numbers { f, lengths, n: 1200, ..base.clone() });
                }
            }
            for j in 0..base.lengths.len() {
                for length in [0, 1, 2, 3, 8, 16, 254, 255, 256, 257, 32_768, 65_535] {
                    let mut lengths = base.lengths.clone();
                    lengths[j] = length;
                    tries.push(Numbers { lengths: lengths.clone(), ..base.clone() });
                    tries.push(Numbers { lengths, block: !base.block, n: 1200, ..base.clone() });
                }
            }
            for numbers in tries {
                self.propose_everywhere(&numbers);
            }
        }
        for qb in (0..=18).chain([65_535]) {
            for pb in (0..=18).chain([65_535]) {
                for tb in (0..=18).chain([65_535]) {
                    self.propose(&Numbers { qb, pb, tb, ..Numbers::small() });
                }
            }
        }
    }

    /// The number of symbols exactly at n and just above it.
    pub fn symbol_edges(&mut self) {
        for n in (8..=300).step_by(2) {
            for kappa in (8..=256).step_by(8) {
                self.propose(&Numbers { n, kappa, ..Numbers::small() });
            }
        }
        for sum in 30..60 {
            let lengths = vec![15, sum - 15];
            self.propose(&Numbers { n: 64, f: 1, kappa: 16, lengths, ..Numbers::small() });
        }
    }

    /// Several rules kept and broken at once.
    pub fn random_proposals(&mut self, count: usize) {
        for _ in 0..count {
            let random = &mut self.random;
            let n = random.pick(&[7, 8, 10, 16, 60, 200, 1199, 1200, 1201, 1202]);
            let kappa: u16 = random.pick(&[0, 8, 8, 16, 16, 12, 24, 64, 256, 256, 264]);
            let f = random.pick(&[0, 1, 1, 2, 3, 4, 5, 6]);
            let count = if random.one_in(6) { random.below(14) } else { 2 * usize::from(f) };
            let lengths =
                (0..count).map(|_| random.pick(&[1, 2, 3, 4, 5, 7, 8, 16, 17, 64, 255, 256, 0, 5, 7, 11, 13, 19]));
            let lengths = lengths.collect();
            let numbers = Numbers {
                n,
                h: random.pick(&[0, 1, 2, 2, 4, 8, n, n + 1, n + 2, n / 2]),
                qb: random.pick(&[7, 8, 9, 10, 16, 17]),
                pb: random.pick(&[5, 6, 6, 7, 9, 15]),
                tb: random.pick(&[0, 1, 2, 3, 3, 5, 6]),
                kappa,
                f,
                block: random.one_in(3),
                lengths,
            };
            self.propose_everywhere(&numbers);
        }
    }

    /// Codes of all sizes, lawful and not; everything else is in order.
    pub fn codes(&mut self, count: usize) {
        for _ in 0..count {
            let random = &mut self.random;
            let kappa = 8 * random.within(1, 32) as u16;
            let f = random.within(1, 5);
            let top = random.pick(&[8, 20, 40, 94]);
            let low = random.pick(&[1, 5, top / 2]);
            let mut lengths: Vec<u16> = (0..2 * f).map(|_| random.within(low, top) as u16).collect();
            let block = random.one_in(2);
            if block {
                let divisors: Vec<u16> = (1..=255).filter(|&d| kappa.is_multiple_of(d)).collect();
                lengths[0] = random.pick(&divisors);
            }
            let numbers = Numbers::new([1200, 2, 8, 6, 3, kappa], block, &lengths);
            if numbers.lawful() || random.one_in(4) {
                self.propose(&numbers);
            } else {
                self.propose_everywhere(&numbers);
            }
        }
    }
}
