//! SHAKE256 of FIPS 202.

/// Bytes of a block.
pub const RATE: usize = 136;

type State = [u64; 25];

const ROUND_CONSTANTS: [u64; 24] = [
    0x0000000000000001,
    0x0000000000008082,
    0x800000000000808a,
    0x8000000080008000,
    0x000000000000808b,
    0x0000000080000001,
    0x8000000080008081,
    0x8000000000008009,
    0x000000000000008a,
    0x0000000000000088,
    0x0000000080008009,
    0x000000008000000a,
    0x000000008000808b,
    0x800000000000008b,
    0x8000000000008089,
    0x8000000000008003,
    0x8000000000008002,
    0x8000000000000080,
    0x000000000000800a,
    0x800000008000000a,
    0x8000000080008081,
    0x8000000000008080,
    0x0000000080000001,
    0x8000000080008008,
];

/// For each lane after ρ and π, row by row: the lane it comes from, and by how much that is rotated.
const MOVES: [[(usize, u32); 5]; 5] = [
    [(0, 0), (6, 44), (12, 43), (18, 21), (24, 14)],
    [(3, 28), (9, 20), (10, 3), (16, 45), (22, 61)],
    [(1, 1), (7, 6), (13, 25), (19, 8), (20, 18)],
    [(4, 27), (5, 36), (11, 10), (17, 15), (23, 56)],
    [(2, 62), (8, 55), (14, 39), (15, 41), (21, 2)],
];

/// Lanes that are kept complemented from round to round: χ then takes five complements instead of 25.
const COMPLEMENTED: [usize; 6] = [1, 2, 8, 12, 17, 20];

#[inline(always)]
fn round(from: &State, to: &mut State, constant: u64) {
    let mut column = [0; 5];
    for x in 0..5 {
        column[x] = from[x] ^ from[x + 5] ^ from[x + 10] ^ from[x + 15] ^ from[x + 20];
    }
    let mut theta = [0; 5];
    for x in 0..5 {
        theta[x] = column[(x + 4) % 5] ^ column[(x + 1) % 5].rotate_left(1);
    }
    let row = |y: usize| MOVES[y].map(|(lane, turn): (usize, u32)| (from[lane] ^ theta[lane % 5]).rotate_left(turn));

    // χ is a ^ (!b & c) for each lane and the two after it; here for rows in which some lanes are complements.
    let [a, b, c, d, e] = row(0);
    to[..5].copy_from_slice(&[a ^ (b | c) ^ constant, b ^ (!c | d), c ^ (d & e), d ^ (e | a), e ^ (a & b)]);
    let [a, b, c, d, e] = row(1);
    to[5..10].copy_from_slice(&[a ^ (b | c), b ^ (c & d), c ^ (d | !e), d ^ (e | a), e ^ (a & b)]);
    let [a, b, c, d, e] = row(2);
    to[10..15].copy_from_slice(&[a ^ (b | c), b ^ (c & d), c ^ (!d & e), !d ^ (e | a), e ^ (a & b)]);
    let [a, b, c, d, e] = row(3);
    to[15..20].copy_from_slice(&[a ^ (b & c), b ^ (c | d), c ^ (!d | e), !d ^ (e & a), e ^ (a | b)]);
    let [a, b, c, d, e] = row(4);
    to[20..].copy_from_slice(&[a ^ (!b & c), !b ^ (c | d), c ^ (d & e), d ^ (e | a), e ^ (a & b)]);
}

fn complement(state: &mut State) {
    for lane in COMPLEMENTED {
        state[lane] = !state[lane];
    }
}

fn permute(state: &mut State) {
    let mut between = [0; 25];
    complement(state);
    for pair in ROUND_CONSTANTS.chunks_exact(2) {
        round(state, &mut between, pair[0]);
        round(&between, state, pair[1]);
    }
    complement(state);
}

fn take_in(state: &mut State, block: &[u8; RATE]) {
    for (lane, bytes) in state.iter_mut().zip(block.as_chunks().0) {
        *lane ^= u64::from_le_bytes(*bytes);
    }
    permute(state);
}

fn give_out(state: &State, block: &mut [u8; RATE]) {
    for (bytes, lane) in block.as_chunks_mut().0.iter_mut().zip(state) {
        *bytes = lane.to_le_bytes();
    }
}

/// A sponge that takes input.
pub struct Absorb {
    state: State,
    pending: [u8; RATE],
    used: usize,
}

impl Absorb {
    #[allow(clippy::new_without_default)]
    pub fn new() -> Self {
        Absorb { state: [0; 25], pending: [0; RATE], used: 0 }
    }

    /// Takes in more input; pieces count as joined.
    pub fn absorb(&mut self, mut input: &[u8]) {
        if self.used > 0 {
            let (now, later) = input.split_at(input.len().min(RATE - self.used));
            self.pending[self.used..][..now.len()].copy_from_slice(now);
            self.used += now.len();
            input = later;
            if self.used < RATE {
                return;
            }
            take_in(&mut self.state, &self.pending);
        }
        let (blocks, tail) = input.as_chunks();
        for block in blocks {
            take_in(&mut self.state, block);
        }
        self.pending[..tail.len()].copy_from_slice(tail);
        self.used = tail.len();
    }

    /// Ends the input.
    pub fn finish(mut self) -> Squeeze {
        self.pending[self.used..].fill(0);
        self.pending[self.used] ^= 0x1f;
        self.pending[RATE - 1] ^= 0x80;
        take_in(&mut self.state, &self.pending);
        give_out(&self.state, &mut self.pending);
        Squeeze { state: self.state, ready: self.pending, used: 0 }
    }
}

/// A sponge that gives output.
pub struct Squeeze {
    state: State,
    ready: [u8; RATE],
    used: usize,
}

impl Squeeze {
    /// Fills the buffer with the next bytes.
    pub fn squeeze(&mut self, output: &mut [u8]) {
        let (now, later) = output.split_at_mut(output.len().min(RATE - self.used));
        now.copy_from_slice(&self.ready[self.used..][..now.len()]);
        self.used += now.len();
        let (blocks, tail) = later.as_chunks_mut();
        for block in blocks {
            permute(&mut self.state);
            give_out(&self.state, block);
        }
        if !tail.is_empty() {
            permute(&mut self.state);
            give_out(&self.state, &mut self.ready);
            tail.copy_from_slice(&self.ready[..tail.len()]);
            self.used = tail.len();
        }
    }
}

/// SHAKE256 of the pieces joined, as many bytes as the output has room for.
pub fn shake256(pieces: &[&[u8]], output: &mut [u8]) {
    let mut sponge = Absorb::new();
    for piece in pieces {
        sponge.absorb(piece);
    }
    sponge.finish().squeeze(output);
}
