//! The worked cases of the documentation.

use second::bytes::{Packer, Unpacker};
use second::refusal::{Refusal, Shortfall};
use second::ring::{Operand, Rounding, in_band};
use second::set::{Proposal, Set};
use second::source::Tape;
use second::{code, expand};

const T: Proposal = Proposal { n: 10, h: 2, qb: 8, pb: 6, tb: 3, kappa: 8, f: 0, block: false, lengths: &[] };
const CODED: Proposal = Proposal { n: 16, f: 1, lengths: &[3, 4], ..T };

fn made(proposal: Proposal) -> Set {
    Set::make(&proposal).expect("a lawful set")
}

#[test]
fn small_set() {
    let set = made(T);
    assert_eq!((set.q(), set.p(), set.t()), (256, 64, 8));
    assert_eq!(set.bound(), 24);
    assert_eq!((set.symbols, set.message_len()), (8, 1));
    assert_eq!((set.key_len(), set.parcel_len()), (33 + 8, 33 + 11));
}

#[test]
fn n_is_at_most_1200() {
    assert_eq!(Set::make(&Proposal { n: 1202, ..T }), Err(Refusal::Rule(1)));
    assert!(Set::make(&Proposal { n: 1200, ..T }).is_ok());
}

#[test]
fn rule_4() {
    assert!(Set::make(&Proposal { qb: 9, ..T }).is_ok());
    assert_eq!(Set::make(&Proposal { qb: 10, ..T }), Err(Refusal::Rule(4)));
}

#[test]
fn the_lowest_broken_rule_is_named() {
    let broken = Proposal { n: 7, h: 1, qb: 17, pb: 18, tb: 0, kappa: 7, f: 6, block: true, lengths: &[0] };
    assert_eq!(Set::make(&broken), Err(Refusal::Rule(1)));
    assert_eq!(Set::make(&Proposal { n: 10, ..broken }), Err(Refusal::Rule(2)));
    assert_eq!(Set::make(&Proposal { n: 10, h: 2, ..broken }), Err(Refusal::Rule(3)));
    assert_eq!(Set::make(&Proposal { kappa: 7, f: 6, block: true, ..T }), Err(Refusal::Rule(5)));
    assert_eq!(Set::make(&Proposal { f: 6, block: true, ..T }), Err(Refusal::Rule(6)));
    assert_eq!(Set::make(&Proposal { f: 1, block: true, ..T }), Err(Refusal::Rule(7)));
    assert_eq!(Set::make(&Proposal { block: true, ..T }), Err(Refusal::Rule(8)));
    assert_eq!(Set::make(&Proposal { kappa: 16, ..T }), Err(Refusal::Rule(9)));
}

#[test]
fn code_rule() {
    assert!(Set::make(&CODED).is_ok());
    assert_eq!(Set::make(&Proposal { lengths: &[2, 4], ..CODED }), Err(Refusal::SharedChecks(0, 4)));
    let large =
        Proposal { n: 1200, kappa: 256, f: 5, block: true, lengths: &[16, 16, 17, 31, 19, 29, 23, 25, 27, 37], ..T };
    assert!(Set::make(&large).is_ok());
    assert_eq!(Set::make(&Proposal { block: false, ..large }), Err(Refusal::SharedChecks(0, 16)));
}

#[test]
fn the_line() {
    assert!(made(Proposal { h: 10, ..T }).below_line());
    assert!(!made(Proposal { n: 12, h: 12, ..T }).below_line());
    assert_eq!(made(Proposal { n: 12, h: 12, ..T }).line(), (512, 512));
}

#[test]
fn rounding() {
    let rounding = Rounding::of(&made(T));
    assert_eq!([1, 2, 253, 254].map(|x| rounding.round(x)), [0, 1, 63, 0]);
}

#[test]
fn band() {
    let set = made(T);
    assert!(in_band(&set, -64) && in_band(&set, 63));
    assert!(!in_band(&set, -65) && !in_band(&set, 64));
}

#[test]
fn expanded_secret() {
    let tape = [0xfa, 0xff, 0, 0, 0, 0, 0xf9, 0xff];
    let mut secret = [0; 2];
    assert_eq!(expand::secret(&made(T), &mut Tape::new(&tape), &[0; 32], &mut secret), Ok(()));
    assert_eq!(secret, [0, 9]);
    let short = expand::secret(&made(T), &mut Tape::new(&tape[..6]), &[0; 32], &mut secret);
    assert_eq!(short, Err(Shortfall { label: 2, entry: 1, bytes: 6 }));
}

#[test]
fn code_word() {
    let set = made(CODED);
    let word = [1, 0, 0, 0, 0, 0, 0, 0, 1, 0, 0, 1, 0, 0, 0];
    let mut coded = [7; 15];
    code::encode(&set, &[0x80], &mut coded);
    assert_eq!(coded, word);
    for flipped in 0..15 {
        let mut received = word;
        received[flipped] ^= 1;
        let mut message = [0];
        code::correct(&set, &mut received, &mut message);
        assert_eq!(message, [0x80], "bit {flipped} flipped");
    }
}

#[test]
fn packed_fields() {
    let (u, v) = ([0, 1, 0, 0, 0, 0, 0, 0, 0, 0], [4, 0, 4, 0, 0, 4, 0, 4]);
    let mut bytes = [0; 11];
    let mut packer = Packer::new(&mut bytes);
    packer.pack(&u, 6);
    packer.pack(&v, 3);
    packer.finish();
    assert_eq!(bytes, [0x00, 0x10, 0, 0, 0, 0, 0, 0x08, 0x20, 0x10, 0x40]);

    let (mut u_again, mut v_again) = ([0; 10], [0; 8]);
    let mut unpacker = Unpacker::new(&bytes);
    unpacker.unpack(&mut u_again, 6);
    unpacker.unpack(&mut v_again, 3);
    assert_eq!((u_again, v_again), (u, v));
}

/// The product as its definition says, coefficient by coefficient.
#[test]
fn products() {
    for n in [8, 62, 64, 126, 1200] {
        let a: Vec<u16> = (0..n as u32).map(|i| (i * i * 1_501 + 7 * i + 1) as u16).collect();
        let secret: Vec<u16> = (0..n as u16).rev().filter(|i| i % 3 != 1).take((n / 3 * 2) & !1).collect();
        let mut expected = vec![0u16; n + 1];
        for (j, &position) in secret.iter().enumerate() {
            for (i, &word) in a.iter().enumerate() {
                let at = &mut expected[(i + usize::from(position)) % (n + 1)];
                *at = if j % 2 == 0 { at.wrapping_add(word) } else { at.wrapping_sub(word) };
            }
        }
        let mut product = vec![7; n + 1];
        let mut operand = Operand::zero(n);
        operand.write(|words| words.copy_from_slice(&a));
        operand.product(&secret, &mut product);
        assert_eq!(product, expected);
    }
}
