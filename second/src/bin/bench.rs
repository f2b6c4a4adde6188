//! Times both builds beside each other, in alternating turns of one process; the least of several turns counts.

use std::hint::black_box;
use std::time::{Duration, Instant};

use second::calls::{AREA_WORDS, Coins};
use second::ffi::Verified;
use second::kit::{Facts, Ground, Kit, Lent, Second};
use second::set::Proposal;

/// Turns of each build: many short ones, of which some fall into quiet moments of the machine.
const TURNS: usize = 31;
/// What a turn should take.
const TURN: Duration = Duration::from_millis(2);
/// SHAKE256 takes in and gives out 64 MiB, a turn for each MiB.
const MIB: usize = 1 << 20;
const MIB_TURNS: usize = 64;
/// Coins, keys and parcels that the turns go through, so that no build learns one secret by heart.
const GOODS: usize = 16;

const SMALL: Proposal = Proposal { n: 10, h: 2, qb: 8, pb: 6, tb: 3, kappa: 8, f: 0, block: false, lengths: &[] };
const CODED: Proposal = Proposal {
    n: 946,
    h: 388,
    qb: 11,
    pb: 8,
    tb: 5,
    kappa: 256,
    f: 5,
    block: true,
    lengths: &[16, 16, 17, 19, 21, 23, 25, 29, 31, 37],
};
const WIDE: Proposal =
    Proposal { n: 1170, h: 222, qb: 14, pb: 10, tb: 4, kappa: 256, f: 0, block: false, lengths: &[] };

/// Microseconds of one call, of the kit and of this build.
#[derive(Clone, Copy)]
struct Times {
    kit: f64,
    second: f64,
}

impl Times {
    fn ratio(&self) -> f64 {
        self.kit / self.second
    }
}

/// The least of several turns, in microseconds a call. The function makes one call of a build; it is told which, counted from 0.
fn time(turns: usize, mut call: impl FnMut(&dyn Kit, usize)) -> Times {
    let kits: [&dyn Kit; 2] = [&Verified, &Second];
    let mut turn = |kit: &dyn Kit, calls: usize| {
        let start = Instant::now();
        (0..calls).for_each(|index| call(kit, index));
        start.elapsed().as_secs_f64() / calls as f64
    };
    let calls = kits.map(|kit| (TURN.as_secs_f64() / turn(kit, 1)).clamp(1.0, 1e5) as usize);
    let mut least = [f64::MAX; 2];
    for _ in 0..turns {
        for (which, kit) in kits.into_iter().enumerate() {
            least[which] = least[which].min(turn(kit, calls[which]) * 1e6);
        }
    }
    Times { kit: least[0], second: least[1] }
}

/// What the calls of one set need.
struct Stand<'a> {
    on: Ground<'a>,
    facts: Facts,
    coins: Vec<Coins>,
    keys: Vec<Vec<u8>>,
    parcels: Vec<Vec<u8>>,
    message: Vec<u8>,
    secret_area: [u16; AREA_WORDS],
    product_area: [u16; AREA_WORDS],
}

impl<'a> Stand<'a> {
    fn new(proposal: Proposal<'a>) -> Self {
        let mut facts = Facts::default();
        assert_eq!(Second.set(&proposal, &mut facts).code, 0, "a lawful set");
        let mut stand = Stand {
            on: Ground { proposal, tape: None },
            facts,
            coins: Vec::new(),
            keys: Vec::new(),
            parcels: Vec::new(),
            message: vec![0x5c; facts.message_len as usize],
            secret_area: [0; AREA_WORDS],
            product_area: [0; AREA_WORDS],
        };
        for index in 0..GOODS {
            stand.add_goods(index as u8);
        }
        stand
    }

    fn add_goods(&mut self, index: u8) {
        let mut coins = [0; 96];
        Second.shake256(&[index], &mut coins);
        let mut key = vec![0; self.facts.key_len as usize];
        let mut parcel = vec![0; self.facts.parcel_len as usize];
        let lent = Lent { secret: &mut self.secret_area, product: &mut self.product_area };
        Second.publish_coins(&self.on, &coins, &mut key, lent);
        let lent = Lent { secret: &mut self.secret_area, product: &mut self.product_area };
        Second.seal(&self.on, &key, &self.message, &mut parcel, &mut [0; 32], lent);
        self.coins.push(coins);
        self.keys.push(key);
        self.parcels.push(parcel);
    }

    /// The times of each call, by name.
    fn times(&mut self) -> [(&'static str, Times); 5] {
        let Stand { on, facts, coins, keys, parcels, message, secret_area, product_area } = self;
        let mut key = vec![0; facts.key_len as usize];
        let mut parcel = vec![0; facts.parcel_len as usize];
        let mut noise = vec![0; facts.symbols as usize];
        let (mut secret, mut out_of_band) = ([0; 32], 0);
        macro_rules! timed {
            ($kit:ident, $index:ident, $lent:ident => $call:expr) => {
                time(TURNS, |$kit, $index| {
                    let $index = $index % GOODS;
                    let $lent = Lent { secret: secret_area, product: product_area };
                    assert_eq!(black_box($call).code, 0);
                })
            };
        }
        [
            ("set", time(TURNS, |kit, _| assert_eq!(kit.set(black_box(&on.proposal), facts).code, 0))),
            ("publish", timed!(kit, i, lent => kit.publish_coins(on, &coins[i], &mut key, lent))),
            ("seal", timed!(kit, i, lent => kit.seal(on, &keys[i], message, &mut parcel, &mut secret, lent))),
            ("open", timed!(kit, i, lent => kit.open_coins(on, &coins[i], &parcels[i], &mut secret, lent))),
            ("gauge", timed!(kit, i, lent => kit.gauge(on, &coins[i], &mut noise, &mut out_of_band, lent))),
        ]
    }
}

fn row(set: &str, call: &str, times: Times) {
    println!("{set:<10}{call:<14}{:>12.3}{:>12.3}{:>9.2}", times.kit, times.second, times.ratio());
}

fn calls() {
    println!("{:<10}{:<14}{:>12}{:>12}{:>9}", "set", "call", "kit", "second", "ratio");
    for (name, proposal) in [("small", SMALL), ("coded", CODED), ("wide", WIDE)] {
        for (call, times) in Stand::new(proposal).times() {
            row(name, call, times);
        }
    }
    let mut large = vec![0; MIB];
    row("SHAKE256", "1 MiB in", time(MIB_TURNS, |kit, _| kit.shake256(black_box(&large), &mut [0; 32])));
    row("SHAKE256", "1 MiB out", time(MIB_TURNS, |kit, _| kit.shake256(&[0; 32], black_box(&mut large))));
}

fn growth() {
    let sizes = [256, 400, 600, 800, 1000, 1200];
    let columns: Vec<_> = sizes
        .iter()
        .map(|&n| Stand::new(Proposal { n, h: n / 4, qb: 12, pb: 9, tb: 4, kappa: 128, ..SMALL }).times())
        .collect();
    print!("{:<10}{:<8}", "call", "build");
    sizes.iter().for_each(|n| print!("{:>10}", format!("n = {n}")));
    println!("{:>12}", "last/first");
    for call in 0..columns[0].len() {
        let times = || columns.iter().map(|column| column[call].1);
        growth_row(columns[0][call].0, "kit", times().map(|times| times.kit).collect());
        growth_row(columns[0][call].0, "second", times().map(|times| times.second).collect());
    }
}

fn growth_row(call: &str, build: &str, costs: Vec<f64>) {
    print!("{call:<10}{build:<8}");
    costs.iter().for_each(|cost| print!("{cost:>10.3}"));
    println!("{:>12.2}", costs[costs.len() - 1] / costs[0]);
}

fn main() {
    println!("Microseconds a call, least of {TURNS} turns ({MIB_TURNS} for SHAKE256); ratio is kit/second.");
    println!(
        "The functions of the C header make the set anew in every call; the timed calls of the second build do so too."
    );
    println!("small: n 10, h 2. coded: R5ND_5CCA_5d. wide: n 1170, h 222, qb 14, pb 10, tb 4, kappa 256, f 0.");
    println!("The second build: release, opt-level 3, target features {}.", env!("SECOND_TARGET_FEATURES"));
    println!();
    calls();
    println!();
    println!("Growth: h = n/4, qb 12, pb 9, tb 4, kappa 128, f 0; microseconds a call.");
    println!();
    growth();
}
