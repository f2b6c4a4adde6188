//! What the kit answers when it does not do what it is asked.

/// A buffer that a call writes to.
#[derive(Clone, Copy, Debug, PartialEq, Eq)]
pub enum Buffer {
    /// Key, parcel, raw or noise output.
    Output = 1,
    Secret = 2,
    SecretArea = 3,
    ProductArea = 4,
}

/// An input of a call.
#[derive(Clone, Copy, Debug, PartialEq, Eq)]
pub enum Input {
    /// Key, parcel, or 96 bytes of seeds or coins.
    First = 1,
    /// Message or single seed.
    Second = 2,
}

/// A source that ran short while a seed was expanded.
#[derive(Clone, Copy, Debug, PartialEq, Eq)]
pub struct Shortfall {
    pub label: u8,
    /// The entry being made, counted from 0.
    pub entry: usize,
    /// The bytes drawn since the start.
    pub bytes: u64,
}

#[derive(Clone, Copy, Debug, PartialEq, Eq)]
pub enum Refusal {
    /// The lowest rule that a proposal breaks.
    Rule(u16),
    /// Two payload positions that share two checks.
    SharedChecks(u16, u16),
    /// A buffer of a wrong length.
    Buffer(Buffer),
    /// An input of a wrong length, and the length.
    Length(Input, usize),
    /// A wrong kind byte.
    Kind(u8),
    /// A fill bit that is not zero.
    Fill,
    Short(Shortfall),
    NoPlace(u8),
    Empty(u8),
    InUse(u8),
}

impl Refusal {
    /// The number of the refusal, its values, and zeros.
    pub fn numbers(&self) -> [u64; 4] {
        match *self {
            Refusal::Rule(rule) => [11, rule.into(), 0, 0],
            Refusal::SharedChecks(a, b) => [12, a.into(), b.into(), 0],
            Refusal::Buffer(buffer) => [13, buffer as u64, 0, 0],
            Refusal::Length(input, len) => [14, input as u64, len as u64, 0],
            Refusal::Kind(byte) => [15, byte.into(), 0, 0],
            Refusal::Fill => [16, 0, 0, 0],
            Refusal::Short(short) => [17, short.label.into(), short.entry as u64, short.bytes],
            Refusal::NoPlace(place) => [18, place.into(), 0, 0],
            Refusal::Empty(place) => [19, place.into(), 0, 0],
            Refusal::InUse(place) => [20, place.into(), 0, 0],
        }
    }
}

impl From<Shortfall> for Refusal {
    fn from(short: Shortfall) -> Self {
        Refusal::Short(short)
    }
}

/// Refuses a buffer of a wrong length.
pub fn want_buffer(buffer: Buffer, len: usize, wanted: usize) -> Result<(), Refusal> {
    if len == wanted { Ok(()) } else { Err(Refusal::Buffer(buffer)) }
}

/// Refuses an input of a wrong length.
pub fn want_input(input: Input, len: usize, wanted: usize) -> Result<(), Refusal> {
    if len == wanted { Ok(()) } else { Err(Refusal::Length(input, len)) }
}
