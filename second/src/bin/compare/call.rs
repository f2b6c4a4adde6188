//! One call, and everything that it may write to.

use second::calls::{AREA_WORDS, Coins};
use second::kit::{Answer, Facts, Ground, Kit, Lent, Places};
use second::set::Set;

#[derive(Clone, Copy)]
pub enum Call<'a> {
    Set,
    Seal { key: &'a [u8], message: &'a [u8] },
    Issue { place: u8, coins: &'a [u8] },
    Publish { place: u8 },
    Open { place: u8, parcel: &'a [u8] },
    Retire { place: u8 },
    PublishCoins { coins: &'a Coins },
    OpenCoins { coins: &'a Coins, parcel: &'a [u8] },
    RawRead { parcel: &'a [u8], seed: &'a [u8] },
    Gauge { seeds: &'a [u8] },
}

impl Call<'_> {
    pub fn name(&self) -> &'static str {
        match self {
            Call::Set => "set",
            Call::Seal { .. } => "seal",
            Call::Issue { .. } => "issue",
            Call::Publish { .. } => "publish",
            Call::Open { .. } => "open",
            Call::Retire { .. } => "retire",
            Call::PublishCoins { .. } => "publish_coins",
            Call::OpenCoins { .. } => "open_coins",
            Call::RawRead { .. } => "raw_read",
            Call::Gauge { .. } => "gauge",
        }
    }

    /// The place and the lengths of the inputs.
    pub fn described(&self) -> String {
        match *self {
            Call::Seal { key, message } => format!("seal, key of {}, message of {}", key.len(), message.len()),
            Call::Issue { place, coins } => format!("issue to {place}, coins of {}", coins.len()),
            Call::Publish { place } => format!("publish of {place}"),
            Call::Open { place, parcel } => format!("open of {place}, parcel of {}", parcel.len()),
            Call::Retire { place } => format!("retire of {place}"),
            Call::OpenCoins { parcel, .. } => format!("open_coins, parcel of {}", parcel.len()),
            Call::RawRead { parcel, seed } => format!("raw_read, parcel of {}, seed of {}", parcel.len(), seed.len()),
            Call::Gauge { seeds } => format!("gauge, seeds of {}", seeds.len()),
            Call::Set | Call::PublishCoins { .. } => self.name().to_string(),
        }
    }

    /// Makes the call; the buffers are lent without their margins.
    pub fn make(&self, kit: &dyn Kit, on: &Ground, held: &mut Held) -> Answer {
        let Held { output, secret, noise, out_of_band, places, facts, secret_area, product_area } = held;
        let (output, secret, noise) = (inner(output), inner(secret), inner(noise));
        let lent = Lent { secret: inner(secret_area), product: inner(product_area) };
        match *self {
            Call::Set => kit.set(&on.proposal, facts),
            Call::Seal { key, message } => kit.seal(on, key, message, output, secret, lent),
            Call::Issue { place, coins } => kit.issue(on, places, place, coins, lent),
            Call::Publish { place } => kit.publish(on, places, place, output, lent),
            Call::Open { place, parcel } => kit.open(on, places, place, parcel, secret, lent),
            Call::Retire { place } => kit.retire(places, place),
            Call::PublishCoins { coins } => kit.publish_coins(on, coins, output, lent),
            Call::OpenCoins { coins, parcel } => kit.open_coins(on, coins, parcel, secret, lent),
            Call::RawRead { parcel, seed } => kit.raw_read(on, parcel, seed, output, lent),
            Call::Gauge { seeds } => kit.gauge(on, seeds, noise, out_of_band, lent),
        }
    }

    /// The lengths that the buffers of this call should have.
    pub fn right_lengths(&self, set: &Set) -> Lengths {
        let output = match self {
            Call::Seal { .. } => set.parcel_len(),
            Call::Publish { .. } | Call::PublishCoins { .. } => set.key_len(),
            Call::RawRead { .. } => set.symbols,
            _ => 0,
        };
        let noise = if matches!(self, Call::Gauge { .. }) { set.symbols } else { 0 };
        Lengths { output, secret: 32, noise, secret_area: AREA_WORDS, product_area: AREA_WORDS }
    }

    /// Whether the call is lent working areas.
    pub fn lends(&self) -> bool {
        !matches!(self, Call::Set | Call::Retire { .. })
    }
}

/// Words at either end of a buffer that no call may touch.
pub const MARGIN: usize = 4;

pub fn inner<T>(buffer: &mut [T]) -> &mut [T] {
    let end = buffer.len() - MARGIN;
    &mut buffer[MARGIN..end]
}

#[derive(Clone, Copy)]
pub struct Lengths {
    pub output: usize,
    pub secret: usize,
    pub noise: usize,
    pub secret_area: usize,
    pub product_area: usize,
}

/// Everything that a call may write to.
#[derive(Clone, PartialEq, Eq)]
pub struct Held {
    pub output: Vec<u8>,
    pub secret: Vec<u8>,
    pub noise: Vec<i32>,
    pub out_of_band: u32,
    pub places: Places,
    pub facts: Facts,
    pub secret_area: Vec<u16>,
    pub product_area: Vec<u16>,
}

impl Held {
    pub fn new(lengths: Lengths, places: Places) -> Self {
        fn fill<T: Clone>(with: T, len: usize) -> Vec<T> {
            vec![with; len + 2 * MARGIN]
        }
        Held {
            output: fill(0xa5, lengths.output),
            secret: fill(0x5a, lengths.secret),
            noise: fill(0x1234_5678, lengths.noise),
            out_of_band: 0x8765_4321,
            places,
            facts: Facts { q: 77, bound: 78, below_line: true, ..Facts::default() },
            secret_area: fill(0xbeef, lengths.secret_area),
            product_area: fill(0xcafe, lengths.product_area),
        }
    }

    /// What was written, without margins.
    pub fn output(mut self) -> Vec<u8> {
        inner(&mut self.output).to_vec()
    }

    pub fn secret(mut self) -> Vec<u8> {
        inner(&mut self.secret).to_vec()
    }

    pub fn noise(mut self) -> Vec<i32> {
        inner(&mut self.noise).to_vec()
    }

    pub fn with_areas_wiped(mut self) -> Self {
        inner(&mut self.secret_area).fill(0);
        inner(&mut self.product_area).fill(0);
        self
    }

    /// The names of the parts in which two differ.
    pub fn differences(&self, other: &Held) -> Vec<&'static str> {
        let parts = [
            ("output", self.output != other.output),
            ("secret", self.secret != other.secret),
            ("noise", self.noise != other.noise),
            ("count out of band", self.out_of_band != other.out_of_band),
            ("places", self.places != other.places),
            ("facts", self.facts != other.facts),
            ("secret area", self.secret_area != other.secret_area),
            ("product area", self.product_area != other.product_area),
        ];
        parts.into_iter().filter(|part| part.1).map(|part| part.0).collect()
    }
}
