//! The calls: seal at the station, a rack at the till, raw read and gauge in the laboratory. Each tests everything it was
//! given before it draws, and draws everything before it writes, so that a refusal leaves outputs as they were.

use crate::bytes::{Key, Parcel};
use crate::refusal::{Buffer, Input, Refusal, want_buffer, want_input};
use crate::ring::{Operand, Rounding};
use crate::set::{MAX_KAPPA, MAX_N, Set};
use crate::shake::shake256;
use crate::source::{Seed, Source};
use crate::{code, expand, ring};

/// The words of a working area.
pub const AREA_WORDS: usize = MAX_N + 1;

pub const SECRET_LEN: usize = 32;

/// σ, the seed of the till's secret, and z.
pub type Coins = [u8; 96];

/// The longest key: 1,200 fields of 15 bits.
const MAX_KEY: usize = 33 + MAX_N * 15 / 8;
/// The longest parcel: as many fields of 15 bits and of 14 bits.
const MAX_PARCEL: usize = MAX_KEY + MAX_N * 14 / 8;

type Done = Result<(), Refusal>;

/// Working areas lent to a call; they are zeros when it ends.
pub struct Areas<'a> {
    secret: &'a mut [u16],
    product: &'a mut [u16],
}

impl<'a> Areas<'a> {
    pub fn lend(secret: &'a mut [u16], product: &'a mut [u16]) -> Self {
        Areas { secret, product }
    }

    fn want_lengths(&self) -> Done {
        want_buffer(Buffer::SecretArea, self.secret.len(), AREA_WORDS)?;
        want_buffer(Buffer::ProductArea, self.product.len(), AREA_WORDS)
    }
}

impl Drop for Areas<'_> {
    fn drop(&mut self) {
        self.secret.fill(0);
        self.product.fill(0);
    }
}

/// A secret outside the working areas; zeros when it is dropped.
struct Wiped([u16; MAX_N]);

impl Drop for Wiped {
    fn drop(&mut self) {
        self.0.fill(0);
        std::hint::black_box(&self.0);
    }
}

/// The parts of 96 bytes.
fn thirds(bytes: &Coins) -> [&Seed; 3] {
    let [first, second, third] = bytes.as_chunks().0 else { unreachable!() };
    [first, second, third]
}

/// Writes the secret that goes with l, or with z in its stead.
fn write_secret(l: &Seed, parcel: &[u8], secret: &mut [u8]) {
    shake256(&[&[0x11], l, parcel], secret);
}

/// Seals a message to a key, given its public polynomial a and its b; writes the parcel and answers l.
#[allow(clippy::too_many_arguments)]
fn write_parcel<S: Source>(
    set: &Set,
    source: &mut S,
    a: &Operand,
    b: &Operand,
    key: &[u8],
    message: &[u8],
    parcel: &mut [u8],
    areas: &mut Areas,
) -> Result<Seed, Refusal> {
    let mut hash = [0; 96];
    shake256(&[&[0x10], message, key], &mut hash);
    let [l, tag, seed] = thirds(&hash);
    let r = &mut areas.secret[..set.h];
    expand::secret(set, source, seed, r)?;

    let rounding = Rounding::of(set);
    let mut packer = Parcel::begin(tag, parcel);
    let u = &mut areas.product[..=set.n];
    a.product(r, u);
    rounding.round_reduced(u);
    packer.pack(&u[..set.n], set.pb);

    let mut word = [0; MAX_N];
    let word = &mut word[..set.symbols];
    code::encode(set, message, word);
    let v = &mut areas.product[..set.symbols];
    b.product(r, v);
    for (x, &bit) in v.iter_mut().zip(&*word) {
        *x = rounding.symbol(*x, bit);
    }
    packer.pack(v, set.tb);
    packer.finish();
    Ok(*l)
}

/// Reads a parcel's raw bits with the secret s.
fn raw_bits(set: &Set, parcel: &Parcel, s: &[u16], product: &mut [u16], raw: &mut [u8]) {
    let rounding = Rounding::of(set);
    let mut fields = parcel.fields();
    let mut u = Operand::zero(set.n);
    u.write(|u| fields.unpack(u, set.pb));
    let v = &mut product[..set.symbols];
    fields.unpack(v, set.tb);
    u.each_run(s, v, |v, run| {
        for (v, &x) in v.iter_mut().zip(run) {
            *v = rounding.raw_bit(x, *v).into();
        }
    });
    for (raw, &bit) in raw.iter_mut().zip(&*v) {
        *raw = bit as u8;
    }
}

/// Station: seals a message to a key; writes the parcel and the station's secret.
pub fn seal<S: Source>(
    set: &Set,
    source: &mut S,
    key: &[u8],
    message: &[u8],
    parcel: &mut [u8],
    secret: &mut [u8],
    mut areas: Areas,
) -> Done {
    want_buffer(Buffer::Output, parcel.len(), set.parcel_len())?;
    want_buffer(Buffer::Secret, secret.len(), SECRET_LEN)?;
    areas.want_lengths()?;
    want_input(Input::First, key.len(), set.key_len())?;
    want_input(Input::Second, message.len(), set.message_len())?;
    let key = Key::read(set, key)?;

    let mut a = Operand::zero(set.n);
    a.write(|a| expand::public(set, source, key.sigma, a))?;
    let mut b = Operand::zero(set.n);
    b.write(|b| key.b(set, b));
    let l = write_parcel(set, source, &a, &b, key.bytes, message, parcel, &mut areas)?;
    write_secret(&l, parcel, secret);
    Ok(())
}

/// Till: the key of coins.
pub fn publish_coins<S: Source>(set: &Set, source: &mut S, coins: &Coins, key: &mut [u8], areas: Areas) -> Done {
    want_buffer(Buffer::Output, key.len(), set.key_len())?;
    areas.want_lengths()?;
    let [sigma, seed, _] = thirds(coins);

    let mut a = Operand::zero(set.n);
    a.write(|a| expand::public(set, source, sigma, a))?;
    let s = &mut areas.secret[..set.h];
    expand::secret(set, source, seed, s)?;
    write_key(set, &a, sigma, s, &mut areas.product[..=set.n], key);
    Ok(())
}

/// Writes a key; b stays in the product area.
fn write_key(set: &Set, a: &Operand, sigma: &Seed, s: &[u16], product: &mut [u16], key: &mut [u8]) {
    a.product(s, product);
    Rounding::of(set).round_reduced(product);
    Key::write(set, sigma, &product[..set.n], key);
}

/// Till: the secret that coins make of a parcel.
pub fn open_coins<S: Source>(
    set: &Set,
    source: &mut S,
    coins: &Coins,
    parcel: &[u8],
    secret: &mut [u8],
    mut areas: Areas,
) -> Done {
    want_buffer(Buffer::Secret, secret.len(), SECRET_LEN)?;
    areas.want_lengths()?;
    want_input(Input::First, parcel.len(), set.parcel_len())?;
    let received = Parcel::read(set, parcel)?;
    let [sigma, seed, z] = thirds(coins);

    let mut a = Operand::zero(set.n);
    a.write(|a| expand::public(set, source, sigma, a))?;
    let s = &mut areas.secret[..set.h];
    expand::secret(set, source, seed, s)?;
    let mut key = [0; MAX_KEY];
    let key = &mut key[..set.key_len()];
    write_key(set, &a, sigma, s, &mut areas.product[..=set.n], key);
    let mut b = Operand::zero(set.n);
    b.write(|b| b.copy_from_slice(&areas.product[..set.n]));

    let mut word = [0; MAX_N];
    let word = &mut word[..set.symbols];
    raw_bits(set, &received, s, areas.product, word);
    let mut message = [0; MAX_KAPPA / 8];
    let message = &mut message[..set.message_len()];
    code::correct(set, word, message);

    let mut again = [0; MAX_PARCEL];
    let again = &mut again[..set.parcel_len()];
    let l = write_parcel(set, source, &a, &b, key, message, again, &mut areas)?;
    write_secret(&choose(equal(parcel, again), &l, z), parcel, secret);
    Ok(())
}

/// All ones if two parcels are equal, else zero; every byte is compared.
fn equal(one: &[u8], other: &[u8]) -> u8 {
    let difference = one.iter().zip(other).fold(0, |sum, (a, b)| sum | (a ^ b));
    u8::from(std::hint::black_box(difference) == 0).wrapping_neg()
}

/// l under a mask of ones, z under zero.
fn choose(mask: u8, l: &Seed, z: &Seed) -> Seed {
    std::array::from_fn(|i| z[i] ^ ((l[i] ^ z[i]) & mask))
}

/// A till's rack of four places, for one set and one source.
pub struct Rack<S> {
    set: Set,
    source: S,
    places: [Option<Coins>; Rack::<()>::PLACES],
}

impl Rack<()> {
    pub const PLACES: usize = 4;
}

impl<S: Source> Rack<S> {
    /// A rack with all places empty.
    pub fn new(set: Set, source: S) -> Self {
        Rack::with_places(set, source, [None; 4])
    }

    /// A rack that was kept elsewhere.
    pub fn with_places(set: Set, source: S, places: [Option<Coins>; 4]) -> Self {
        Rack { set, source, places }
    }

    pub fn places(&self) -> &[Option<Coins>; 4] {
        &self.places
    }

    /// Keeps coins at an empty place, if both their seeds expand.
    pub fn issue(&mut self, place: u8, coins: &[u8], areas: Areas) -> Done {
        let slot = find(&mut self.places, place)?;
        if slot.is_some() {
            return Err(Refusal::InUse(place));
        }
        areas.want_lengths()?;
        want_input(Input::First, coins.len(), size_of::<Coins>())?;
        let coins: &Coins = coins.first_chunk().expect("the length was tested");
        let [sigma, seed, _] = thirds(coins);

        let (set, source) = (&self.set, &mut self.source);
        expand::public(set, source, sigma, &mut areas.product[..set.n])?;
        expand::secret(set, source, seed, &mut areas.secret[..set.h])?;
        *slot = Some(*coins);
        Ok(())
    }

    /// Writes the key of the coins at a place.
    pub fn publish(&mut self, place: u8, key: &mut [u8], areas: Areas) -> Done {
        let coins = held(&mut self.places, place)?;
        publish_coins(&self.set, &mut self.source, coins, key, areas)
    }

    /// Writes the secret that the coins at a place make of a parcel.
    pub fn open(&mut self, place: u8, parcel: &[u8], secret: &mut [u8], areas: Areas) -> Done {
        let coins = held(&mut self.places, place)?;
        open_coins(&self.set, &mut self.source, coins, parcel, secret, areas)
    }

    /// Empties a place.
    pub fn retire(&mut self, place: u8) -> Done {
        retire(&mut self.places, place)
    }
}

/// Empties a place of a rack; its coins are overwritten first.
pub fn retire(places: &mut [Option<Coins>; 4], place: u8) -> Done {
    held(places, place)?.fill(0);
    *find(places, place)? = None;
    Ok(())
}

fn find(places: &mut [Option<Coins>; 4], place: u8) -> Result<&mut Option<Coins>, Refusal> {
    places.get_mut(usize::from(place)).ok_or(Refusal::NoPlace(place))
}

fn held(places: &mut [Option<Coins>; 4], place: u8) -> Result<&mut Coins, Refusal> {
    find(places, place)?.as_mut().ok_or(Refusal::Empty(place))
}

/// Laboratory: the raw bits that the secret of a seed reads from a parcel.
pub fn raw_read<S: Source>(
    set: &Set,
    source: &mut S,
    parcel: &[u8],
    seed: &[u8],
    raw: &mut [u8],
    areas: Areas,
) -> Done {
    want_buffer(Buffer::Output, raw.len(), set.symbols)?;
    areas.want_lengths()?;
    want_input(Input::First, parcel.len(), set.parcel_len())?;
    want_input(Input::Second, seed.len(), size_of::<Seed>())?;
    let parcel = Parcel::read(set, parcel)?;
    let seed = seed.first_chunk().expect("the length was tested");

    let s = &mut areas.secret[..set.h];
    expand::secret(set, source, seed, s)?;
    raw_bits(set, &parcel, s, areas.product, raw);
    Ok(())
}

/// Laboratory: the noise of each symbol, from σ and the seeds of s and r, and how many symbols are out of band.
pub fn gauge<S: Source>(
    set: &Set,
    source: &mut S,
    seeds: &[u8],
    noise: &mut [i32],
    areas: Areas,
) -> Result<usize, Refusal> {
    want_buffer(Buffer::Output, noise.len(), set.symbols)?;
    areas.want_lengths()?;
    want_input(Input::First, seeds.len(), 96)?;
    let [sigma, till, station] = thirds(seeds.first_chunk().expect("the length was tested"));

    let mut a = Operand::zero(set.n);
    a.write(|a| expand::public(set, source, sigma, a))?;
    let s = &mut areas.secret[..set.h];
    expand::secret(set, source, till, s)?;
    let mut second = Wiped([0; MAX_N]);
    let r = &mut second.0[..set.h];
    expand::secret(set, source, station, r)?;
    Ok(ring::noise(set, &a, s, r, noise, &mut areas.product[..=set.n]))
}
