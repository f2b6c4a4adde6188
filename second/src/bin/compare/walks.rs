//! Walks over one lawful set.

use second::ffi::Verified;
use second::kit::{Kit, Place};

use crate::call::Call;
use crate::cases::Cases;
use crate::numbers::Numbers;

impl Cases {
    /// Parcels from coins to secrets; what both ends compute must agree as the documentation says.
    pub fn trips(&mut self, numbers: &Numbers, tape: Option<&[u8]>, count: usize) {
        let set = numbers.set();
        for _ in 0..count {
            let goods = self.goods(numbers, tape);
            let place = self.random.below(4) as u8;
            let mut places = self.some_places();
            places[usize::from(place)] = Place::EMPTY;
            let issue = Call::Issue { place, coins: &goods.coins };
            let places = self.plain(numbers, tape, issue, places).1.places;
            let key = self.plain(numbers, tape, Call::Publish { place }, places).1.output();
            let till = self.plain(numbers, tape, Call::Open { place, parcel: &goods.parcel }, places).1.secret();
            let same =
                self.empty(numbers, tape, Call::OpenCoins { coins: &goods.coins, parcel: &goods.parcel }).1.secret();
            let read = Call::RawRead { parcel: &goods.parcel, seed: &goods.coins[32..64] };
            let raw = self.empty(numbers, tape, read).1.output();

            let mut hash = [0; 96];
            Verified.shake256(&[&[0x10], &goods.message[..], &goods.key].concat(), &mut hash);
            let mut seeds = goods.coins;
            seeds[64..].copy_from_slice(&hash[64..]);
            let (_, gauged) = self.empty(numbers, tape, Call::Gauge { seeds: &seeds });
            let out_of_band = gauged.out_of_band as usize;
            let noise = gauged.noise();
            let mut word = vec![0; set.symbols];
            second::code::encode(&set, &goods.message, &mut word);

            let q = set.q() as i32;
            let in_band = |noise: i32| (noise + q / 4).rem_euclid(q) < q / 2;
            let agree = key == goods.key
                && till == same
                && noise.iter().filter(|&&noise| !in_band(noise)).count() == out_of_band
                && noise.iter().all(|noise| noise.unsigned_abs() <= set.bound())
                && noise.iter().zip(raw.iter().zip(&word)).all(|(&noise, (raw, bit))| in_band(noise) == (raw == bit))
                && (out_of_band > set.f || till == goods.station)
                && (!set.below_line() || out_of_band == 0);
            self.tally.holds("agreement", agree, || format!("{numbers:?}"));
            self.tally.symbols += set.symbols as u64;
            self.tally.out_of_band += out_of_band as u64;
            if till == goods.station {
                self.tally.opened_by_l += 1;
            } else {
                self.tally.opened_by_z += 1;
            }
        }
    }

    /// A run of calls on one rack, refused ones included.
    pub fn rack(&mut self, numbers: &Numbers, tape: Option<&[u8]>, steps: usize) {
        let goods = [self.goods(numbers, tape), self.goods(numbers, tape)];
        let mut places = [Place::EMPTY; 4];
        for _ in 0..steps {
            let place = self.random.pick(&[0, 0, 0, 1, 1, 1, 2, 2, 3, 3, 4, 5, 128, 255]);
            let goods = &goods[self.random.below(2)];
            let mut parcel = goods.parcel.clone();
            if self.random.one_in(2) {
                self.flip(&mut parcel);
            }
            let call = match self.random.below(4) {
                0 => Call::Issue { place, coins: &goods.coins },
                1 => Call::Publish { place },
                2 => Call::Open { place, parcel: &parcel },
                _ => Call::Retire { place },
            };
            places = self.plain(numbers, tape, call, places).1.places;
        }
    }

    pub fn flip(&mut self, bytes: &mut [u8]) {
        let at = self.random.below(8 * bytes.len());
        bytes[at / 8] ^= 1 << (at % 8);
    }

    /// Bits flipped anywhere, and fields that nobody sealed.
    pub fn flips(&mut self, numbers: &Numbers, count: usize) {
        let goods = self.goods(numbers, None);
        for step in 0..count {
            let (mut key, mut parcel) = (goods.key.clone(), goods.parcel.clone());
            for _ in 0..self.random.pick(&[1, 1, 2, 5]) {
                self.flip(&mut key);
                self.flip(&mut parcel);
            }
            if step % 4 == 0 {
                let (len, end) = (parcel.len(), parcel.len() - 33);
                let stranger = self.random.bytes(len);
                parcel[1..end].copy_from_slice(&stranger[1..end]);
            }
            self.empty(numbers, None, Call::Seal { key: &key, message: &goods.message });
            self.empty(numbers, None, Call::OpenCoins { coins: &goods.coins, parcel: &parcel });
            self.empty(numbers, None, Call::RawRead { parcel: &parcel, seed: &goods.coins[32..64] });
        }
    }

    /// Every fill bit of a key and of a parcel, alone and beside a wrong kind byte.
    pub fn fills(&mut self, numbers: &Numbers) {
        let set = numbers.set();
        let goods = self.goods(numbers, None);
        let unused = |bits: usize| (8 - bits % 8) % 8;
        for bit in 0..unused(set.n * set.pb as usize) {
            let mut key = goods.key.clone();
            *key.last_mut().expect("a key") |= 1 << bit;
            self.empty(numbers, None, Call::Seal { key: &key, message: &goods.message });
            key[0] ^= 1 << bit;
            self.empty(numbers, None, Call::Seal { key: &key, message: &goods.message });
        }
        for bit in 0..unused(set.parcel_bits()) {
            let mut parcel = goods.parcel.clone();
            let last = parcel.len() - 33;
            parcel[last] |= 1 << bit;
            self.empty(numbers, None, Call::OpenCoins { coins: &goods.coins, parcel: &parcel });
            self.empty(numbers, None, Call::RawRead { parcel: &parcel, seed: &goods.coins[32..64] });
            parcel[0] ^= 1 << bit;
            self.empty(numbers, None, Call::OpenCoins { coins: &goods.coins, parcel: &parcel });
            self.empty(numbers, None, Call::RawRead { parcel: &parcel, seed: &goods.coins[32..64] });
        }
    }

    /// A tape that is long enough for both expansions, as long as no seed is very unlucky.
    pub fn long_tape(&mut self, numbers: &Numbers) -> Vec<u8> {
        let len = 2 * usize::from(numbers.n) + 20 * usize::from(numbers.h) + self.random.below(400);
        self.random.bytes(len.min(60_000))
    }

    /// Everything about one lawful set.
    pub fn walk(&mut self, numbers: &Numbers, weight: usize) {
        *self.tally.sets.entry((numbers.f, numbers.block)).or_default() += 1;
        self.propose(numbers);
        self.trips(numbers, None, weight);
        self.rack(numbers, None, 6 * weight);
        self.flips(numbers, 2 * weight);
        self.fills(numbers);
        let tape = self.long_tape(numbers);
        if self.empty(numbers, Some(&tape), Call::PublishCoins { coins: &[0; 96] }).0.code == 0 {
            self.trips(numbers, Some(&tape), 1 + weight / 4);
            self.rack(numbers, Some(&tape), 2 * weight);
        }
        for _ in 0..weight {
            let len = self.random.below(tape.len());
            self.every_drawing_call(numbers, &tape[..len]);
        }
    }
}
