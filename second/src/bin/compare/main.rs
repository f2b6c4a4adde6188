//! Stands both builds beside each other: the same calls with the same inputs must give the same answers, outputs, places and
//! working areas. Closes with `N passed, M failed` and fails if M is not 0.

mod call;
mod cases;
mod damage;
mod numbers;
mod proposals;
mod random;
mod tally;
mod tapes;
mod walks;

use call::{MARGIN, inner};
use cases::Cases;
use numbers::{Numbers, largest, published, random_set};
use random::Random;
use second::ffi::Verified;
use second::kit::{Kit, Second};
use tally::Tally;

impl Cases {
    fn shake(&mut self) {
        let mut lengths: Vec<(usize, usize)> = Vec::new();
        for len in (0..300).chain([407, 408, 409, 543, 544, 545, 679, 680, 681, 4095, 4096, 10_000]) {
            lengths.extend([0, 1, 32, 135, 136, 137, 272, 500].map(|out| (len, out)));
            lengths.push((33, len));
        }
        lengths.extend([(100_000, 64), (33, 65_536), (33, 100_000)]);
        for (input, output) in lengths {
            let input = self.random.bytes(input);
            let mut theirs = vec![0xa5; output + 2 * MARGIN];
            let mut ours = theirs.clone();
            Verified.shake256(&input, inner(&mut theirs));
            Second.shake256(&input, inner(&mut ours));
            self.tally.holds("shake256", theirs == ours, || format!("{} in, {output} out", input.len()));
        }
    }
}

fn main() {
    let mut cases = Cases { tally: Tally::default(), random: Random(20_240_607) };

    cases.shake();
    cases.edges();
    cases.symbol_edges();
    cases.random_proposals(6_000);
    cases.codes(4_000);

    for numbers in published() {
        cases.walk(&numbers, 8);
    }
    for numbers in largest() {
        cases.walk(&numbers, 4);
        cases.some_short_tapes(&numbers);
    }
    for _ in 0..1_000 {
        let numbers = random_set(&mut cases.random, 80, false);
        cases.walk(&numbers, 3);
    }
    for _ in 0..300 {
        let numbers = random_set(&mut cases.random, 120, true);
        cases.walk(&numbers, 4);
    }
    for _ in 0..200 {
        let numbers = random_set(&mut cases.random, 1200, false);
        cases.walk(&numbers, 3);
    }

    let without_drops = Numbers::new([8, 8, 5, 3, 1, 8], false, &[]);
    let without_fill = Numbers::new([16, 6, 9, 8, 2, 8], false, &[3, 5]);
    let by_blocks = Numbers::new([60, 30, 7, 5, 3, 24], true, &[4, 7, 11, 13]);
    for numbers in [Numbers::small(), Numbers::small_coded(), without_drops, without_fill, by_blocks] {
        cases.short_tapes(&numbers);
        cases.kinds(&numbers);
        cases.every_flip(&numbers);
        cases.every_length(&numbers);
        cases.every_subset(&numbers, &numbers);
    }
    let broken = Numbers { n: 11, ..Numbers::small() };
    let unlawful = Numbers { lengths: vec![2, 4], ..Numbers::small_coded() };
    cases.every_subset(&broken, &Numbers::small());
    cases.every_subset(&unlawful, &Numbers::small_coded());

    cases.tally.close();
}
