//! What all cases stand on.

use second::calls::Coins;
use second::kit::{Answer, Place, Places};

use crate::call::{Call, Held};
use crate::numbers::Numbers;
use crate::random::Random;
use crate::tally::Tally;

/// Coins, a key, a message, a parcel and its secret that belong together, made by one build and the other.
pub struct Goods {
    pub coins: Coins,
    pub key: Vec<u8>,
    pub message: Vec<u8>,
    pub parcel: Vec<u8>,
    pub station: Vec<u8>,
}

pub struct Cases {
    pub tally: Tally,
    pub random: Random,
}

impl Cases {
    /// Compares a call with buffers of the right lengths.
    pub fn plain(&mut self, numbers: &Numbers, tape: Option<&[u8]>, call: Call, places: Places) -> (Answer, Held) {
        let held = Held::new(call.right_lengths(&numbers.set()), places);
        self.tally.compare(numbers, tape, call, held)
    }

    pub fn empty(&mut self, numbers: &Numbers, tape: Option<&[u8]>, call: Call) -> (Answer, Held) {
        self.plain(numbers, tape, call, [Place::EMPTY; 4])
    }

    pub fn goods(&mut self, numbers: &Numbers, tape: Option<&[u8]>) -> Goods {
        let coins = self.random.coins();
        let key = self.empty(numbers, tape, Call::PublishCoins { coins: &coins }).1.output();
        let message = self.random.bytes(numbers.set().message_len());
        let (_, held) = self.empty(numbers, tape, Call::Seal { key: &key, message: &message });
        Goods { coins, key, message, parcel: held.clone().output(), station: held.secret() }
    }

    /// Places of which some are held, and of the empty ones some are not all zeros.
    pub fn some_places(&mut self) -> Places {
        std::array::from_fn(|_| match self.random.below(3) {
            0 => Place::EMPTY,
            1 => Place { held: false, coins: self.random.coins() },
            _ => Place::with(self.random.coins()),
        })
    }
}
