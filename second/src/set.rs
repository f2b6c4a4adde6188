//! Parameter sets: the nine rules, the code rule, the bound and the line.

use crate::refusal::Refusal;

pub const MAX_N: usize = 1200;
pub const MAX_KAPPA: usize = 256;
pub const MAX_CHECKS: usize = 10;

/// The numbers of a set as a caller proposes them.
#[derive(Clone, Copy, Debug, PartialEq, Eq)]
pub struct Proposal<'a> {
    pub n: u16,
    pub h: u16,
    pub qb: u16,
    pub pb: u16,
    pub tb: u16,
    pub kappa: u16,
    pub f: u16,
    pub block: bool,
    pub lengths: &'a [u16],
}

impl Proposal<'_> {
    /// Whether a rule is kept, if all rules before it are.
    fn keeps(&self, rule: u16) -> bool {
        match rule {
            1 => self.n.is_multiple_of(2) && (8..=MAX_N as u16).contains(&self.n),
            2 => self.h.is_multiple_of(2) && (2..=self.n).contains(&self.h),
            3 => 1 <= self.tb && self.tb < self.pb && self.pb < self.qb && self.qb <= 16,
            4 => self.tb + self.qb <= 2 * self.pb,
            5 => self.kappa.is_multiple_of(8) && (8..=MAX_KAPPA as u16).contains(&self.kappa),
            6 => self.f <= 5,
            7 => self.lengths.len() == 2 * self.f as usize && self.lengths.iter().all(|l| (1..=255).contains(l)),
            8 => !self.block || self.lengths.first().is_some_and(|&first| self.kappa.is_multiple_of(first)),
            _ => self.symbols() <= self.n,
        }
    }

    fn symbols(&self) -> u16 {
        self.kappa + self.lengths.iter().sum::<u16>()
    }

    /// Two payload positions that share two checks. Where any two do, position 0 and their distance do as well, so it is
    /// enough to find the least distance at which both checks of a pair have the place of position 0 again.
    fn shared_checks(&self) -> Option<(u16, u16)> {
        for (j, &later) in self.lengths.iter().enumerate() {
            for (i, &earlier) in self.lengths[..j].iter().enumerate() {
                let by_blocks = self.block && i == 0;
                let distance = if by_blocks { later.into() } else { least_common_multiple(earlier, later) };
                let limit = if by_blocks { self.kappa / earlier } else { self.kappa };
                if distance < limit.into() {
                    return Some((0, distance as u16));
                }
            }
        }
        None
    }
}

fn least_common_multiple(a: u16, b: u16) -> u32 {
    let (mut x, mut y) = (a, b);
    while y != 0 {
        (x, y) = (y, x % y);
    }
    u32::from(a / x) * u32::from(b)
}

/// A lawful set.
#[derive(Clone, Debug, PartialEq, Eq)]
pub struct Set {
    pub n: usize,
    pub h: usize,
    pub qb: u32,
    pub pb: u32,
    pub tb: u32,
    pub kappa: usize,
    pub f: usize,
    pub block: bool,
    /// μ: the symbols of a parcel.
    pub symbols: usize,
    lengths: [u8; MAX_CHECKS],
}

impl Set {
    /// Makes a set; refuses by 11 with the lowest broken rule, or by 12 with two positions that share two checks.
    pub fn make(proposal: &Proposal) -> Result<Set, Refusal> {
        if let Some(rule) = (1..=9).find(|&rule| !proposal.keeps(rule)) {
            return Err(Refusal::Rule(rule));
        }
        if let Some((a, b)) = proposal.shared_checks() {
            return Err(Refusal::SharedChecks(a, b));
        }
        let mut lengths = [0; MAX_CHECKS];
        for (kept, &proposed) in lengths.iter_mut().zip(proposal.lengths) {
            *kept = proposed as u8;
        }
        Ok(Set {
            n: proposal.n.into(),
            h: proposal.h.into(),
            qb: proposal.qb.into(),
            pb: proposal.pb.into(),
            tb: proposal.tb.into(),
            kappa: proposal.kappa.into(),
            f: proposal.f.into(),
            block: proposal.block,
            symbols: proposal.symbols().into(),
            lengths,
        })
    }

    pub fn q(&self) -> u32 {
        1 << self.qb
    }

    pub fn p(&self) -> u32 {
        1 << self.pb
    }

    pub fn t(&self) -> u32 {
        1 << self.tb
    }

    /// The lengths of the 2·f checks.
    pub fn lengths(&self) -> impl Iterator<Item = usize> {
        self.lengths[..2 * self.f].iter().map(|&length| length.into())
    }

    /// No symbol's noise is further from zero than this.
    pub fn bound(&self) -> u32 {
        self.q() / (2 * self.t()) + self.h as u32 * (self.q() / self.p())
    }

    /// Both sides of the line: 2·p + 4·h·t and p·t.
    pub fn line(&self) -> (u32, u32) {
        (2 * self.p() + 4 * self.h as u32 * self.t(), self.p() * self.t())
    }

    /// Whether the bound is below q/4.
    pub fn below_line(&self) -> bool {
        let (left, right) = self.line();
        left < right
    }

    pub fn message_len(&self) -> usize {
        self.kappa / 8
    }

    /// The bytes of a key's packed fields.
    pub fn key_fields_len(&self) -> usize {
        (self.n * self.pb as usize).div_ceil(8)
    }

    /// The bits of a parcel's packed fields.
    pub fn parcel_bits(&self) -> usize {
        self.n * self.pb as usize + self.symbols * self.tb as usize
    }

    pub fn key_len(&self) -> usize {
        33 + self.key_fields_len()
    }

    pub fn parcel_len(&self) -> usize {
        33 + self.parcel_bits().div_ceil(8)
    }
}
