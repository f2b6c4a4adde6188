//! Tapes that run short.

use second::kit::Place;

use crate::call::Call;
use crate::cases::Cases;
use crate::numbers::Numbers;

impl Cases {
    /// All calls that draw, from one tape.
    pub fn every_drawing_call(&mut self, numbers: &Numbers, tape: &[u8]) {
        let set = numbers.set();
        let coins = self.random.coins();
        let mut key = vec![0; set.key_len()];
        key[0] = 0x4b;
        let mut parcel = vec![0; set.parcel_len()];
        parcel[0] = 0x50;
        let message = vec![0x81; set.message_len()];
        let tape = Some(tape);
        let held = [Place::with(coins); 4];
        self.empty(numbers, tape, Call::Seal { key: &key, message: &message });
        self.empty(numbers, tape, Call::Issue { place: 2, coins: &coins });
        self.plain(numbers, tape, Call::Publish { place: 0 }, held);
        self.plain(numbers, tape, Call::Open { place: 3, parcel: &parcel }, held);
        self.empty(numbers, tape, Call::PublishCoins { coins: &coins });
        self.empty(numbers, tape, Call::OpenCoins { coins: &coins, parcel: &parcel });
        self.empty(numbers, tape, Call::RawRead { parcel: &parcel, seed: &coins[..32] });
        self.empty(numbers, tape, Call::Gauge { seeds: &coins });
    }

    /// A tape of values for no more than `kept` positions, with values that are dropped between them.
    pub fn poor_tape(&mut self, numbers: &Numbers, kept: usize, len: usize) -> Vec<u8> {
        let n = usize::from(numbers.n);
        let each = 65_536 / n;
        let (first, dropped) = (self.random.below(n), 65_536 - each * n);
        let mut tape = Vec::with_capacity(len + 1);
        let mut seen = 0;
        while tape.len() < len {
            let value = if dropped > 0 && (kept == 0 || self.random.one_in(4)) {
                each * n + self.random.below(dropped)
            } else {
                let known = if seen < kept { seen } else { self.random.below(kept.max(1)) };
                seen += 1;
                (first + known) % n * each + self.random.below(each)
            };
            tape.extend((value as u16).to_le_bytes());
        }
        tape.truncate(len);
        tape
    }

    /// Tapes that end at every entry of the public polynomial and of the secrets.
    pub fn short_tapes(&mut self, numbers: &Numbers) {
        let n = usize::from(numbers.n);
        for len in 0..=2 * n + 4 {
            let tape = self.random.bytes(len);
            self.every_drawing_call(numbers, &tape);
        }
        for kept in 0..=usize::from(numbers.h) {
            for len in [2 * n, 2 * n + 1, 2 * n + 2 * kept, 5 * n + 3] {
                let tape = self.poor_tape(numbers, kept, len);
                self.every_drawing_call(numbers, &tape);
            }
            let set = numbers.set();
            let mut parcel = vec![0; set.parcel_len()];
            parcel[0] = 0x50;
            for len in [2 * kept, 2 * kept + 1] {
                let tape = self.poor_tape(numbers, kept, len);
                self.empty(numbers, Some(&tape), Call::RawRead { parcel: &parcel, seed: &[9; 32] });
            }
        }
    }

    /// The same, at some entries of a large set.
    pub fn some_short_tapes(&mut self, numbers: &Numbers) {
        let (n, h) = (usize::from(numbers.n), usize::from(numbers.h));
        for _ in 0..40 {
            let len = self.random.below(2 * n + 2);
            let tape = self.random.bytes(len);
            self.every_drawing_call(numbers, &tape);
            let kept = self.random.within(1, h);
            let len = 2 * n + self.random.below(4 * n);
            let tape = self.poor_tape(numbers, kept, len);
            self.every_drawing_call(numbers, &tape);
        }
    }
}
