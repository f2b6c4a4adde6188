//! The calls together: the agreement of both ends, the noise by its definition, and refusals in their order.

use second::calls::{AREA_WORDS, Areas, Coins, Rack, gauge, publish_coins, raw_read, seal};
use second::kit::{self, Ground, Kit, Place, Second};
use second::refusal::{Buffer, Input, Refusal, Shortfall};
use second::set::{Proposal, Set};
use second::shake::shake256;
use second::source::{Sponge, Tape};
use second::{code, expand};

const T: Proposal = Proposal { n: 10, h: 2, qb: 8, pb: 6, tb: 3, kappa: 8, f: 0, block: false, lengths: &[] };

/// Small, noisy, coded and large sets.
const SETS: [Proposal; 8] = [
    T,
    Proposal { h: 10, qb: 6, pb: 4, tb: 2, ..T },
    Proposal { n: 16, h: 8, f: 1, lengths: &[3, 4], ..T },
    Proposal { n: 60, h: 30, qb: 7, pb: 5, kappa: 24, f: 2, block: true, lengths: &[4, 7, 11, 13], ..T },
    Proposal {
        n: 508,
        h: 136,
        qb: 10,
        pb: 7,
        tb: 4,
        kappa: 128,
        f: 5,
        block: true,
        lengths: &[16, 11, 13, 16, 17, 19, 21, 23, 25, 29],
    },
    Proposal { n: 1170, h: 222, qb: 14, pb: 10, tb: 4, kappa: 256, ..T },
    Proposal { n: 1200, h: 1200, qb: 16, pb: 9, tb: 2, kappa: 256, ..T },
    Proposal { n: 1200, h: 1200, qb: 16, pb: 15, tb: 14, kappa: 256, ..T },
];

struct Lent([u16; AREA_WORDS], [u16; AREA_WORDS]);

impl Lent {
    fn new() -> Self {
        Lent([9; AREA_WORDS], [9; AREA_WORDS])
    }

    fn areas(&mut self) -> Areas<'_> {
        Areas::lend(&mut self.0, &mut self.1)
    }

    fn zeros(&self) -> bool {
        self.0.iter().chain(&self.1).all(|&word| word == 0)
    }
}

/// Bytes that differ from case to case.
fn bytes<const N: usize>(what: &str, case: usize) -> [u8; N] {
    let mut out = [0; N];
    shake256(&[what.as_bytes(), &case.to_le_bytes()], &mut out);
    out
}

/// Everything one parcel shows: the till's and the station's secrets, the code word, raw bits, noise and its count.
struct Trip {
    station: [u8; 32],
    till: [u8; 32],
    word: Vec<u8>,
    raw: Vec<u8>,
    noise: Vec<i32>,
    out_of_band: usize,
}

fn trip(set: &Set, case: usize) -> Trip {
    let mut lent = Lent::new();
    let coins: Coins = bytes("coins", case);
    let message: [u8; 32] = bytes("message", case);
    let message = &message[..set.message_len()];
    let place = (case % 4) as u8;
    let mut rack = Rack::new(set.clone(), Sponge::default());
    let mut source = Sponge::default();

    rack.issue(place, &coins, lent.areas()).unwrap();
    let mut key = vec![0; set.key_len()];
    rack.publish(place, &mut key, lent.areas()).unwrap();
    let (mut parcel, mut station, mut till) = (vec![0; set.parcel_len()], [0; 32], [0; 32]);
    seal(set, &mut source, &key, message, &mut parcel, &mut station, lent.areas()).unwrap();
    rack.open(place, &parcel, &mut till, lent.areas()).unwrap();

    let mut raw = vec![7; set.symbols];
    raw_read(set, &mut source, &parcel, &coins[32..64], &mut raw, lent.areas()).unwrap();
    let mut hash = [0; 96];
    shake256(&[&[0x10], message, &key], &mut hash);
    let mut seeds = coins;
    seeds[64..].copy_from_slice(&hash[64..]);
    let mut noise = vec![7; set.symbols];
    let out_of_band = gauge(set, &mut source, &seeds, &mut noise, lent.areas()).unwrap();
    assert_eq!(noise, noise_by_definition(set, &seeds));
    assert!(lent.zeros());

    let mut word = vec![0; set.symbols];
    code::encode(set, message, &mut word);
    Trip { station, till, word, raw, noise, out_of_band }
}

/// The noise in whole numbers, step by step as it is defined.
fn noise_by_definition(set: &Set, seeds: &[u8; 96]) -> Vec<i32> {
    let (n, q, p, t) = (set.n, set.q() as i64, set.p() as i64, set.t() as i64);
    let h1 = q / (2 * p);
    let seed = |part: usize| seeds[32 * part..].first_chunk::<32>().unwrap();
    let mut a = vec![0; n];
    expand::public(set, &mut Sponge::default(), seed(0), &mut a).unwrap();
    let a: Vec<i64> = a.into_iter().map(i64::from).collect();
    let secret = |part: usize| {
        let mut positions = vec![0; set.h];
        expand::secret(set, &mut Sponge::default(), seed(part), &mut positions).unwrap();
        positions
    };
    let cyclic = |polynomial: &[i64], secret: &[u16]| {
        let mut product = vec![0i64; n + 1];
        for (j, &position) in secret.iter().enumerate() {
            for (i, coefficient) in polynomial.iter().enumerate() {
                product[(i + usize::from(position)) % (n + 1)] += if j % 2 == 0 { *coefficient } else { -coefficient };
            }
        }
        product
    };
    let reduced = |secret: &[u16]| -> Vec<i64> {
        let product = cyclic(&a, secret);
        product[..n].iter().map(|c| c - product[n]).collect()
    };
    let slips = |product: &[i64]| -> Vec<i64> { product.iter().map(|c| h1 - (c + h1).rem_euclid(q / p)).collect() };

    let (s, r) = (secret(1), secret(2));
    let (till, station) = (reduced(&s), reduced(&r));
    let b: Vec<i64> = till.iter().map(|c| ((c + h1).rem_euclid(q)) * p / q).collect();
    let x = cyclic(&b, &r);
    let (plus, minus) = (cyclic(&slips(&till), &r), cyclic(&slips(&station), &s));
    (0..set.symbols)
        .map(|i| (plus[i] - minus[i] + q / (2 * t) - q / p * (x[i] + h1).rem_euclid(p / t)) as i32)
        .collect()
}

#[test]
fn agreement() {
    let (mut opened, mut closed) = (0, 0);
    for proposal in SETS {
        let set = Set::make(&proposal).expect("a lawful set");
        for case in 0..if set.n > 100 { 2 } else { 40 } {
            let trip = trip(&set, case);
            let band = set.q() as i32 / 4;
            let quarter = |noise: i32| (noise + band).rem_euclid(4 * band) < 2 * band;
            let wrong = trip.noise.iter().filter(|&&noise| !quarter(noise)).count();
            assert_eq!(wrong, trip.out_of_band);
            for ((raw, word), &noise) in trip.raw.iter().zip(&trip.word).zip(&trip.noise) {
                assert_eq!(raw == word, quarter(noise));
                assert!(noise.unsigned_abs() <= set.bound());
            }
            if trip.out_of_band <= set.f {
                assert_eq!(trip.till, trip.station);
            }
            if set.below_line() {
                assert_eq!(trip.out_of_band, 0);
            }
            if trip.till == trip.station { opened += 1 } else { closed += 1 }
        }
    }
    assert!(opened > 50 && closed > 5, "{opened} opened, {closed} did not");
}

#[test]
fn refusals_of_a_seal_in_their_order() {
    let set = Set::make(&T).unwrap();
    let mut lent = Lent::new();
    let mut key = vec![0; set.key_len()];
    publish_coins(&set, &mut Sponge::default(), &[1; 96], &mut key, lent.areas()).unwrap();
    let mut bad_fill = key.clone();
    *bad_fill.last_mut().unwrap() |= 1;
    let mut bad_kind = bad_fill.clone();
    bad_kind[0] = 0x50;

    let empty = Tape::new(&[]);
    let mut source = empty;
    let mut attempt = |key: &[u8], message: &[u8], lengths: [usize; 4]| {
        let [mut parcel, mut secret] = [lengths[0], lengths[1]].map(|len| vec![5u8; len]);
        let [mut one, mut two] = [lengths[2], lengths[3]].map(|len| vec![5u16; len]);
        let refusal = seal(&set, &mut source, key, message, &mut parcel, &mut secret, Areas::lend(&mut one, &mut two));
        assert!(parcel.iter().chain(&secret).all(|&byte| byte == 5));
        assert!(one.iter().chain(&two).all(|&word| word == 0));
        refusal.unwrap_err()
    };
    let right = [set.parcel_len(), 32, AREA_WORDS, AREA_WORDS];
    assert_eq!(attempt(&[], &[], [0, 0, 0, 0]), Refusal::Buffer(Buffer::Output));
    assert_eq!(attempt(&[], &[], [right[0], 0, 0, 0]), Refusal::Buffer(Buffer::Secret));
    assert_eq!(attempt(&[], &[], [right[0], 32, 0, 0]), Refusal::Buffer(Buffer::SecretArea));
    assert_eq!(attempt(&[], &[], [right[0], 32, AREA_WORDS, 0]), Refusal::Buffer(Buffer::ProductArea));
    assert_eq!(attempt(&[], &[], right), Refusal::Length(Input::First, 0));
    assert_eq!(attempt(&bad_kind, &[1, 2], right), Refusal::Length(Input::Second, 2));
    assert_eq!(attempt(&bad_kind, &[1], right), Refusal::Kind(0x50));
    assert_eq!(attempt(&bad_fill, &[1], right), Refusal::Fill);
    assert_eq!(attempt(&key, &[1], right), Refusal::Short(Shortfall { label: 1, entry: 0, bytes: 0 }));
}

#[test]
fn places_of_a_rack() {
    let set = Set::make(&T).unwrap();
    let mut lent = Lent::new();
    let mut rack = Rack::new(set.clone(), Sponge::default());
    let mut key = vec![5; set.key_len()];
    for place in [4, 255] {
        assert_eq!(rack.issue(place, &[], lent.areas()), Err(Refusal::NoPlace(place)));
        assert_eq!(rack.publish(place, &mut [], lent.areas()), Err(Refusal::NoPlace(place)));
        assert_eq!(rack.open(place, &[], &mut [], lent.areas()), Err(Refusal::NoPlace(place)));
        assert_eq!(rack.retire(place), Err(Refusal::NoPlace(place)));
    }
    assert_eq!(rack.publish(3, &mut key, lent.areas()), Err(Refusal::Empty(3)));
    assert_eq!(rack.open(3, &[], &mut [], lent.areas()), Err(Refusal::Empty(3)));
    assert_eq!(rack.retire(3), Err(Refusal::Empty(3)));
    assert_eq!(rack.issue(3, &[1; 95], lent.areas()), Err(Refusal::Length(Input::First, 95)));
    assert_eq!(rack.issue(3, &[1; 96], lent.areas()), Ok(()));
    assert_eq!(rack.issue(3, &[2; 96], lent.areas()), Err(Refusal::InUse(3)));
    assert_eq!(rack.places(), &[None, None, None, Some([1; 96])]);
    assert_eq!(rack.publish(3, &mut key, lent.areas()), Ok(()));
    assert_eq!(rack.retire(3), Ok(()));
    assert_eq!(rack.places(), &[None; 4]);
    assert!(lent.zeros());
}

/// As C meets the calls: a set that is not lawful is refused before anything else, and the areas are zeros then, too.
#[test]
fn unlawful_sets() {
    let odd = Proposal { n: 11, ..T };
    let shared = Proposal { n: 16, f: 1, lengths: &[2, 4], ..T };
    for (proposal, refusal) in [(odd, [11, 1, 0, 0]), (shared, [12, 0, 4, 0])] {
        let mut lent = Lent::new();
        let on = Ground { proposal, tape: None };
        let mut key = [5; 3];
        let areas = kit::Lent { secret: &mut lent.0, product: &mut lent.1 };
        let answer = Second.publish(&on, &[Place::EMPTY; 4], 255, &mut key, areas);
        assert_eq!((answer.code, answer.refusal), (refusal[0] as u32, refusal));
        assert!(lent.zeros() && key == [5; 3]);
    }
}

/// A tape that is too short for a secret, but not for the public polynomial.
#[test]
fn shortfalls() {
    let set = Set::make(&T).unwrap();
    let tape = [0u8; 23];
    let mut lent = Lent::new();
    for len in 0..=23usize {
        let mut rack = Rack::new(set.clone(), Tape::new(&tape[..len]));
        let short = match len / 2 {
            entry @ ..10 => Shortfall { label: 1, entry, bytes: 2 * entry as u64 },
            values => Shortfall { label: 2, entry: 1, bytes: 2 * values as u64 },
        };
        assert_eq!(rack.issue(0, &[0; 96], lent.areas()), Err(Refusal::Short(short)));
        assert!(lent.zeros() && rack.places() == &[None; 4]);
    }
}
