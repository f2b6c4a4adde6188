//! Where the bytes come from that seeds expand to.

use crate::shake::{Absorb, Squeeze};

pub type Seed = [u8; 32];

/// Fewer bytes remain than were asked for.
#[derive(Clone, Copy, Debug, PartialEq, Eq)]
pub struct TooFew;

/// A list of bytes for each label and seed, and the rest of one of these lists.
pub trait Source {
    /// Goes to the start of the list for a label and a seed.
    fn start(&mut self, label: u8, seed: &Seed);
    /// Fills the buffer from the rest; refused, with nothing changed, if too few bytes remain.
    fn draw(&mut self, buffer: &mut [u8]) -> Result<(), TooFew>;
    /// How many bytes remain.
    fn left(&self) -> u64;
}

/// For each label and seed the first 65,536 bytes of SHAKE256 of the two.
#[derive(Default)]
pub struct Sponge {
    running: Option<Squeeze>,
    left: u64,
}

impl Sponge {
    pub const LIST: u64 = 65_536;
}

impl Source for Sponge {
    fn start(&mut self, label: u8, seed: &Seed) {
        let mut sponge = Absorb::new();
        sponge.absorb(&[label]);
        sponge.absorb(seed);
        self.running = Some(sponge.finish());
        self.left = Sponge::LIST;
    }

    fn draw(&mut self, buffer: &mut [u8]) -> Result<(), TooFew> {
        self.left = self.left.checked_sub(buffer.len() as u64).ok_or(TooFew)?;
        if let Some(sponge) = &mut self.running {
            sponge.squeeze(buffer);
        }
        Ok(())
    }

    fn left(&self) -> u64 {
        self.left
    }
}

/// The caller's bytes, for every label and seed.
pub struct Tape<'a> {
    bytes: &'a [u8],
    rest: &'a [u8],
}

impl<'a> Tape<'a> {
    pub fn new(bytes: &'a [u8]) -> Self {
        Tape { bytes, rest: &[] }
    }
}

impl Source for Tape<'_> {
    fn start(&mut self, _label: u8, _seed: &Seed) {
        self.rest = self.bytes;
    }

    fn draw(&mut self, buffer: &mut [u8]) -> Result<(), TooFew> {
        let (now, later) = self.rest.split_at_checked(buffer.len()).ok_or(TooFew)?;
        buffer.copy_from_slice(now);
        self.rest = later;
        Ok(())
    }

    fn left(&self) -> u64 {
        self.rest.len() as u64
    }
}

/// A source that is chosen while the program runs.
#[allow(clippy::large_enum_variant)]
pub enum AnySource<'a> {
    Sponge(Sponge),
    Tape(Tape<'a>),
}

impl<'a> AnySource<'a> {
    /// A tape of the bytes, or else the sponge.
    pub fn of(tape: Option<&'a [u8]>) -> Self {
        match tape {
            Some(bytes) => AnySource::Tape(Tape::new(bytes)),
            None => AnySource::Sponge(Sponge::default()),
        }
    }
}

impl Source for AnySource<'_> {
    fn start(&mut self, label: u8, seed: &Seed) {
        match self {
            AnySource::Sponge(sponge) => sponge.start(label, seed),
            AnySource::Tape(tape) => tape.start(label, seed),
        }
    }

    fn draw(&mut self, buffer: &mut [u8]) -> Result<(), TooFew> {
        match self {
            AnySource::Sponge(sponge) => sponge.draw(buffer),
            AnySource::Tape(tape) => tape.draw(buffer),
        }
    }

    fn left(&self) -> u64 {
        match self {
            AnySource::Sponge(sponge) => sponge.left(),
            AnySource::Tape(tape) => tape.left(),
        }
    }
}
