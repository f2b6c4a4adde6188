//! The calls as C meets them: every call is given the numbers of a set and makes the set anew. Both builds can be called in
//! this way, so that they can stand beside each other.

use crate::calls::{self, Areas, Coins, Rack};
use crate::refusal::Refusal;
use crate::set::{Proposal, Set};
use crate::shake::shake256;
use crate::source::AnySource;

/// The number that a call answers, and the refusal's number and values.
#[derive(Clone, Copy, Debug, PartialEq, Eq)]
pub struct Answer {
    pub code: u32,
    pub refusal: [u64; 4],
}

impl From<Result<(), Refusal>> for Answer {
    fn from(result: Result<(), Refusal>) -> Self {
        let refusal = result.map_or_else(|refusal| refusal.numbers(), |()| [0; 4]);
        Answer { code: refusal[0] as u32, refusal }
    }
}

/// What the numbers of a lawful set tell.
#[repr(C)]
#[derive(Clone, Copy, Debug, Default, PartialEq, Eq)]
pub struct Facts {
    pub q: u32,
    pub p: u32,
    pub t: u32,
    pub symbols: u32,
    pub message_len: u32,
    pub key_len: u32,
    pub parcel_len: u32,
    pub bound: u32,
    pub line_left: u32,
    pub line_right: u32,
    pub below_line: bool,
}

impl From<&Set> for Facts {
    fn from(set: &Set) -> Self {
        let (line_left, line_right) = set.line();
        Facts {
            q: set.q(),
            p: set.p(),
            t: set.t(),
            symbols: set.symbols as u32,
            message_len: set.message_len() as u32,
            key_len: set.key_len() as u32,
            parcel_len: set.parcel_len() as u32,
            bound: set.bound(),
            line_left,
            line_right,
            below_line: set.below_line(),
        }
    }
}

/// A place of a rack.
#[repr(C)]
#[derive(Clone, Copy, Debug, PartialEq, Eq)]
pub struct Place {
    pub held: bool,
    pub coins: Coins,
}

impl Place {
    pub const EMPTY: Place = Place { held: false, coins: [0; 96] };

    pub fn with(coins: Coins) -> Place {
        Place { held: true, coins }
    }

    fn contents(&self) -> Option<Coins> {
        self.held.then_some(self.coins)
    }
}

pub type Places = [Place; 4];

/// What every call is given: the numbers of a set, and a tape or else the sponge.
#[derive(Clone, Copy)]
pub struct Ground<'a> {
    pub proposal: Proposal<'a>,
    pub tape: Option<&'a [u8]>,
}

/// The working areas that a call is lent, of any length.
pub struct Lent<'a> {
    pub secret: &'a mut [u16],
    pub product: &'a mut [u16],
}

/// A build of the kit.
pub trait Kit {
    fn set(&self, proposal: &Proposal, facts: &mut Facts) -> Answer;
    fn seal(&self, on: &Ground, key: &[u8], message: &[u8], parcel: &mut [u8], secret: &mut [u8], lent: Lent)
    -> Answer;
    fn issue(&self, on: &Ground, places: &mut Places, place: u8, coins: &[u8], lent: Lent) -> Answer;
    fn publish(&self, on: &Ground, places: &Places, place: u8, key: &mut [u8], lent: Lent) -> Answer;
    fn open(&self, on: &Ground, places: &Places, place: u8, parcel: &[u8], secret: &mut [u8], lent: Lent) -> Answer;
    fn retire(&self, places: &mut Places, place: u8) -> Answer;
    fn publish_coins(&self, on: &Ground, coins: &Coins, key: &mut [u8], lent: Lent) -> Answer;
    fn open_coins(&self, on: &Ground, coins: &Coins, parcel: &[u8], secret: &mut [u8], lent: Lent) -> Answer;
    fn raw_read(&self, on: &Ground, parcel: &[u8], seed: &[u8], raw: &mut [u8], lent: Lent) -> Answer;
    fn gauge(&self, on: &Ground, seeds: &[u8], noise: &mut [i32], out_of_band: &mut u32, lent: Lent) -> Answer;
    fn shake256(&self, input: &[u8], output: &mut [u8]);
}

/// This build.
pub struct Second;

impl Second {
    /// Makes the set and the source, and calls. The areas are zeros afterwards, also if the set is refused.
    fn on<T>(
        on: &Ground,
        lent: Lent,
        call: impl FnOnce(Set, AnySource, Areas) -> Result<T, Refusal>,
    ) -> Result<T, Refusal> {
        let areas = Areas::lend(lent.secret, lent.product);
        call(Set::make(&on.proposal)?, AnySource::of(on.tape), areas)
    }

    fn rack<'a>(set: Set, source: AnySource<'a>, places: &Places) -> Rack<AnySource<'a>> {
        Rack::with_places(set, source, places.map(|place| place.contents()))
    }
}

impl Kit for Second {
    fn set(&self, proposal: &Proposal, facts: &mut Facts) -> Answer {
        Set::make(proposal).map(|set| *facts = Facts::from(&set)).into()
    }

    fn seal(
        &self,
        on: &Ground,
        key: &[u8],
        message: &[u8],
        parcel: &mut [u8],
        secret: &mut [u8],
        lent: Lent,
    ) -> Answer {
        Second::on(on, lent, |set, mut source, areas| {
            calls::seal(&set, &mut source, key, message, parcel, secret, areas)
        })
        .into()
    }

    fn issue(&self, on: &Ground, places: &mut Places, place: u8, coins: &[u8], lent: Lent) -> Answer {
        Second::on(on, lent, |set, source, areas| {
            let mut rack = Second::rack(set, source, places);
            rack.issue(place, coins, areas)?;
            let issued = usize::from(place);
            places[issued] = rack.places()[issued].map_or(Place::EMPTY, Place::with);
            Ok(())
        })
        .into()
    }

    fn publish(&self, on: &Ground, places: &Places, place: u8, key: &mut [u8], lent: Lent) -> Answer {
        Second::on(on, lent, |set, source, areas| Second::rack(set, source, places).publish(place, key, areas)).into()
    }

    fn open(&self, on: &Ground, places: &Places, place: u8, parcel: &[u8], secret: &mut [u8], lent: Lent) -> Answer {
        Second::on(on, lent, |set, source, areas| Second::rack(set, source, places).open(place, parcel, secret, areas))
            .into()
    }

    fn retire(&self, places: &mut Places, place: u8) -> Answer {
        let mut contents = places.map(|place| place.contents());
        let done = calls::retire(&mut contents, place);
        if done.is_ok() {
            places[usize::from(place)] = Place::EMPTY;
        }
        done.into()
    }

    fn publish_coins(&self, on: &Ground, coins: &Coins, key: &mut [u8], lent: Lent) -> Answer {
        Second::on(on, lent, |set, mut source, areas| calls::publish_coins(&set, &mut source, coins, key, areas)).into()
    }

    fn open_coins(&self, on: &Ground, coins: &Coins, parcel: &[u8], secret: &mut [u8], lent: Lent) -> Answer {
        Second::on(on, lent, |set, mut source, areas| {
            calls::open_coins(&set, &mut source, coins, parcel, secret, areas)
        })
        .into()
    }

    fn raw_read(&self, on: &Ground, parcel: &[u8], seed: &[u8], raw: &mut [u8], lent: Lent) -> Answer {
        Second::on(on, lent, |set, mut source, areas| calls::raw_read(&set, &mut source, parcel, seed, raw, areas))
            .into()
    }

    fn gauge(&self, on: &Ground, seeds: &[u8], noise: &mut [i32], out_of_band: &mut u32, lent: Lent) -> Answer {
        Second::on(on, lent, |set, mut source, areas| {
            *out_of_band = calls::gauge(&set, &mut source, seeds, noise, areas)? as u32;
            Ok(())
        })
        .into()
    }

    fn shake256(&self, input: &[u8], output: &mut [u8]) {
        shake256(&[input], output);
    }
}
