//! Keys and parcels as bytes: fields without gaps, the most significant bit first, filled up with zero bits.

use crate::refusal::Refusal;
use crate::set::Set;
use crate::source::Seed;

const KEY: u8 = 0x4b;
const PARCEL: u8 = 0x50;

/// Packs fields, at most 16 bits wide each.
pub struct Packer<'a> {
    out: &'a mut [u8],
    held: u64,
    bits: u32,
}

impl<'a> Packer<'a> {
    pub fn new(out: &'a mut [u8]) -> Self {
        Packer { out, held: 0, bits: 0 }
    }

    pub fn pack(&mut self, fields: &[u16], width: u32) {
        let (mut held, mut bits) = (self.held, self.bits);
        let mut out = std::mem::take(&mut self.out);
        for &field in fields {
            held = held << width | u64::from(field);
            bits += width;
            if bits >= 32 {
                bits -= 32;
                let (now, later) = out.split_first_chunk_mut().expect("room for all fields");
                *now = ((held >> bits) as u32).to_be_bytes();
                out = later;
            }
        }
        (self.out, self.held, self.bits) = (out, held, bits);
    }

    /// Writes what is still held, with fill bits.
    pub fn finish(self) {
        let held = ((self.held << (32 - self.bits)) as u32).to_be_bytes();
        let len = self.bits.div_ceil(8) as usize;
        self.out.copy_from_slice(&held[..len]);
    }
}

/// Unpacks fields, at most 16 bits wide each.
pub struct Unpacker<'a> {
    bytes: &'a [u8],
    held: u64,
    bits: u32,
}

impl<'a> Unpacker<'a> {
    pub fn new(bytes: &'a [u8]) -> Self {
        Unpacker { bytes, held: 0, bits: 0 }
    }

    pub fn unpack(&mut self, fields: &mut [u16], width: u32) {
        let (mut held, mut bits) = (self.held, self.bits);
        let mask = (1 << width) - 1;
        for field in fields {
            if bits < width {
                let (more, count) = self.refill();
                held = held << count | more;
                bits += count;
            }
            bits -= width;
            *field = (held >> bits) as u16 & mask;
        }
        (self.held, self.bits) = (held, bits);
    }

    /// The next 32 bits, or as many as there are, and how many these are.
    fn refill(&mut self) -> (u64, u32) {
        match self.bytes.split_first_chunk::<4>() {
            Some((now, later)) => {
                self.bytes = later;
                (u32::from_be_bytes(*now).into(), 32)
            }
            None => {
                let last = std::mem::take(&mut self.bytes);
                let value = last.iter().fold(0, |value, &byte| value << 8 | u64::from(byte));
                (value, 8 * last.len() as u32)
            }
        }
    }
}

fn want_kind(byte: u8, wanted: u8) -> Result<(), Refusal> {
    if byte == wanted { Ok(()) } else { Err(Refusal::Kind(byte)) }
}

/// Refuses packed fields whose fill bits are not all zero.
fn want_no_fill(packed: &[u8], bits: usize) -> Result<(), Refusal> {
    let fill = (8 - bits % 8) % 8;
    match packed.last() {
        Some(last) if last & ((1 << fill) - 1) != 0 => Err(Refusal::Fill),
        _ => Ok(()),
    }
}

/// A key that was read: σ and the packed b.
#[derive(Clone, Copy)]
pub struct Key<'a> {
    pub bytes: &'a [u8],
    pub sigma: &'a Seed,
}

impl<'a> Key<'a> {
    /// Reads a key of the right length.
    pub fn read(set: &Set, bytes: &'a [u8]) -> Result<Self, Refusal> {
        want_kind(bytes[0], KEY)?;
        want_no_fill(&bytes[33..], set.n * set.pb as usize)?;
        Ok(Key::trusted(bytes))
    }

    fn trusted(bytes: &'a [u8]) -> Self {
        Key { bytes, sigma: bytes[1..].first_chunk().expect("a key's length") }
    }

    /// Writes a key.
    pub fn write(set: &Set, sigma: &Seed, b: &[u16], out: &mut [u8]) {
        out[0] = KEY;
        out[1..33].copy_from_slice(sigma);
        let mut packer = Packer::new(&mut out[33..]);
        packer.pack(b, set.pb);
        packer.finish();
    }

    /// Unpacks b.
    pub fn b(&self, set: &Set, b: &mut [u16]) {
        Unpacker::new(&self.bytes[33..]).unpack(b, set.pb);
    }
}

/// A parcel that was read.
#[derive(Clone, Copy)]
pub struct Parcel<'a> {
    bytes: &'a [u8],
}

impl<'a> Parcel<'a> {
    /// Reads a parcel of the right length.
    pub fn read(set: &Set, bytes: &'a [u8]) -> Result<Self, Refusal> {
        want_kind(bytes[0], PARCEL)?;
        want_no_fill(&bytes[1..bytes.len() - 32], set.parcel_bits())?;
        Ok(Parcel { bytes })
    }

    /// Writes all of a parcel but u and v, for which a packer is handed back.
    pub fn begin<'b>(tag: &[u8; 32], out: &'b mut [u8]) -> Packer<'b> {
        let (kind, rest) = out.split_first_mut().expect("a parcel's length");
        let (fields, end) = rest.split_last_chunk_mut().expect("a parcel's length");
        *kind = PARCEL;
        *end = *tag;
        Packer::new(fields)
    }

    /// An unpacker for u and v.
    pub fn fields(&self) -> Unpacker<'a> {
        Unpacker::new(&self.bytes[1..self.bytes.len() - 32])
    }
}
