//! Inputs and buffers that are not as they should be, and several faults at once.

use second::kit::Place;

use crate::call::{Call, Held, Lengths};
use crate::cases::Cases;
use crate::numbers::Numbers;

impl Cases {
    /// Every kind byte.
    pub fn kinds(&mut self, numbers: &Numbers) {
        let goods = self.goods(numbers, None);
        for kind in 0..=255 {
            let (mut key, mut parcel) = (goods.key.clone(), goods.parcel.clone());
            (key[0], parcel[0]) = (kind, kind);
            self.empty(numbers, None, Call::Seal { key: &key, message: &goods.message });
            self.empty(numbers, None, Call::OpenCoins { coins: &goods.coins, parcel: &parcel });
            self.empty(numbers, None, Call::RawRead { parcel: &parcel, seed: &goods.coins[32..64] });
        }
    }

    /// Every single bit of a key and a parcel.
    pub fn every_flip(&mut self, numbers: &Numbers) {
        let goods = self.goods(numbers, None);
        for bit in 0..8 * goods.key.len() {
            let mut key = goods.key.clone();
            key[bit / 8] ^= 0x80 >> (bit % 8);
            self.empty(numbers, None, Call::Seal { key: &key, message: &goods.message });
        }
        for bit in 0..8 * goods.parcel.len() {
            let mut parcel = goods.parcel.clone();
            parcel[bit / 8] ^= 0x80 >> (bit % 8);
            self.empty(numbers, None, Call::OpenCoins { coins: &goods.coins, parcel: &parcel });
            self.empty(numbers, None, Call::RawRead { parcel: &parcel, seed: &goods.coins[32..64] });
        }
    }

    /// Every length of every input and of every buffer, one wrong at a time.
    pub fn every_length(&mut self, numbers: &Numbers) {
        let goods = self.goods(numbers, None);
        let long = [&goods.parcel[..], &goods.parcel, &[7; 80]].concat();
        let places = [Place::with(goods.coins), Place::EMPTY, Place::EMPTY, Place::EMPTY];
        for len in 0..=goods.parcel.len() + 40 {
            let mut key = long[..len].to_vec();
            key.iter_mut().take(1).for_each(|kind| *kind = 0x4b);
            self.empty(numbers, None, Call::Seal { key: &key, message: &goods.message });
            self.empty(numbers, None, Call::Seal { key: &goods.key, message: &long[..len] });
            self.empty(numbers, None, Call::Issue { place: 1, coins: &long[..len] });
            self.plain(numbers, None, Call::Open { place: 0, parcel: &long[..len] }, places);
            self.empty(numbers, None, Call::RawRead { parcel: &long[..len], seed: &goods.coins[..32] });
            self.empty(numbers, None, Call::RawRead { parcel: &goods.parcel, seed: &long[..len] });
            self.empty(numbers, None, Call::Gauge { seeds: &long[..len] });
        }
        let set = numbers.set();
        let calls = [
            Call::Seal { key: &goods.key, message: &goods.message },
            Call::Issue { place: 1, coins: &goods.coins },
            Call::Publish { place: 0 },
            Call::Open { place: 0, parcel: &goods.parcel },
            Call::RawRead { parcel: &goods.parcel, seed: &goods.coins[..32] },
            Call::Gauge { seeds: &goods.coins },
        ];
        for call in calls {
            let right = call.right_lengths(&set);
            let around = |right: usize| (0..right.min(100) + 3).chain(right.saturating_sub(3)..right + 3);
            let mut tries = Vec::new();
            tries.extend(around(right.output).map(|output| Lengths { output, ..right }));
            tries.extend(around(right.secret).map(|secret| Lengths { secret, ..right }));
            tries.extend(around(right.noise).map(|noise| Lengths { noise, ..right }));
            tries.extend(around(right.secret_area).map(|secret_area| Lengths { secret_area, ..right }));
            tries.extend(around(right.product_area).map(|product_area| Lengths { product_area, ..right }));
            for lengths in tries {
                self.tally.compare(numbers, None, call, Held::new(lengths, places));
            }
        }
    }

    /// A wrong length where `wrong`, else the right one.
    pub fn length(&mut self, right: usize, wrong: bool) -> usize {
        if !wrong {
            return right;
        }
        let other = self.random.pick(&[0, right.saturating_sub(1), right + 1, right / 2, 2 * right + 1]);
        if other == right { right + 1 } else { other }
    }

    /// Bytes of a kind with some of their faults: length, kind byte, fill bit.
    pub fn spoiled(&mut self, good: &[u8], fill: Option<(usize, u8)>, [length, kind, fill_bit]: [bool; 3]) -> Vec<u8> {
        let mut bytes = good.to_vec();
        if kind {
            bytes[0] = self.random.pick(&[0, 0x4a, 0x4f, 0x51, 0xff]);
        }
        if let (true, Some((at, bit))) = (fill_bit, fill) {
            bytes[at] |= bit;
        }
        let len = self.length(good.len(), length);
        bytes.resize(len, 0);
        bytes
    }

    /// Every subset of the faults that calls can have, so that the order of refusals shows; `numbers` may be unlawful, then
    /// `shape` is a lawful set whose goods are used.
    pub fn every_subset(&mut self, numbers: &Numbers, shape: &Numbers) {
        let set = shape.set();
        let goods = self.goods(shape, None);
        // The lowest fill bit: where the fields end within a byte.
        let key_fill = (!(set.n * set.pb as usize).is_multiple_of(8)).then(|| (goods.key.len() - 1, 1));
        let parcel_fill = (!set.parcel_bits().is_multiple_of(8)).then(|| (goods.parcel.len() - 33, 1));
        let poor = self.poor_tape(shape, 1, 2 * set.n + 6);
        let tapes = [None, Some(&[][..]), Some(&poor[..2 * set.n - 1]), Some(&poor)];
        let held = [Place::with(goods.coins), Place::EMPTY, Place::with([3; 96]), Place::EMPTY];

        for mask in 0..1 << 8 {
            let wrong = |bit: usize| mask >> bit & 1 == 1;
            for tape in tapes {
                let key = self.spoiled(&goods.key, key_fill, [wrong(4), wrong(6), wrong(7)]);
                let message_len = self.length(goods.message.len(), wrong(5));
                let message = self.random.bytes(message_len);
                let call = Call::Seal { key: &key, message: &message };
                let right = call.right_lengths(&set);
                let lengths = Lengths {
                    output: self.length(right.output, wrong(0)),
                    secret: self.length(right.secret, wrong(1)),
                    secret_area: self.length(right.secret_area, wrong(2)),
                    product_area: self.length(right.product_area, wrong(3)),
                    ..right
                };
                self.tally.compare(numbers, tape, call, Held::new(lengths, held));

                let parcel = self.spoiled(&goods.parcel, parcel_fill, [wrong(4), wrong(6), wrong(7)]);
                let seed_len = self.length(32, wrong(5));
                let seed = self.random.bytes(seed_len);
                let call = Call::RawRead { parcel: &parcel, seed: &seed };
                let lengths = Lengths { output: self.length(set.symbols, wrong(0)), ..lengths };
                self.tally.compare(numbers, tape, call, Held::new(lengths, held));
            }
        }
        for mask in 0..1 << 6 {
            let wrong = |bit: usize| mask >> bit & 1 == 1;
            for tape in tapes {
                for place in [0, 1, 2, 4, 255] {
                    let parcel = self.spoiled(&goods.parcel, parcel_fill, [wrong(3), wrong(4), wrong(5)]);
                    let call = Call::Open { place, parcel: &parcel };
                    let right = call.right_lengths(&set);
                    let lengths = Lengths {
                        secret: self.length(right.secret, wrong(0)),
                        secret_area: self.length(right.secret_area, wrong(1)),
                        product_area: self.length(right.product_area, wrong(2)),
                        ..right
                    };
                    self.tally.compare(numbers, tape, call, Held::new(lengths, held));
                    let call = Call::OpenCoins { coins: &goods.coins, parcel: &parcel };
                    self.tally.compare(numbers, tape, call, Held::new(lengths, held));
                }
            }
        }
        for mask in 0..1 << 4 {
            let wrong = |bit: usize| mask >> bit & 1 == 1;
            for tape in tapes {
                for place in [0, 1, 2, 3, 4, 255] {
                    let coins_len = self.length(96, wrong(3));
                    let coins = self.random.bytes(coins_len);
                    let calls = [
                        Call::Issue { place, coins: &coins },
                        Call::Publish { place },
                        Call::PublishCoins { coins: &goods.coins },
                        Call::Gauge { seeds: &coins },
                        Call::Retire { place },
                    ];
                    for call in calls {
                        let right = call.right_lengths(&set);
                        let lengths = Lengths {
                            output: self.length(right.output, wrong(0)),
                            noise: self.length(right.noise, wrong(0)),
                            secret_area: self.length(right.secret_area, wrong(1)),
                            product_area: self.length(right.product_area, wrong(2)),
                            ..right
                        };
                        self.tally.compare(numbers, tape, call, Held::new(lengths, held));
                    }
                }
            }
        }
    }
}
