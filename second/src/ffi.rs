//! The verified kit, as its C header declares it.

use crate::calls::Coins;
use crate::kit::{Answer, Facts, Ground, Kit, Lent, Place, Places};
use crate::set::Proposal;

#[repr(C)]
struct Numbers {
    n: u16,
    h: u16,
    qb: u16,
    pb: u16,
    tb: u16,
    kappa: u16,
    f: u16,
    block: bool,
}

impl From<&Proposal<'_>> for Numbers {
    fn from(proposal: &Proposal) -> Self {
        let Proposal { n, h, qb, pb, tb, kappa, f, block, .. } = *proposal;
        Numbers { n, h, qb, pb, tb, kappa, f, block }
    }
}

/// Declares the functions that take the numbers of a set and a source, then arguments of their own, and then the working
/// areas and the refusal.
macro_rules! calls {
    ($($name:ident($($argument:ident: $kind:ty),*);)*) => {
        unsafe extern "C" {
            $(fn $name(
                numbers: *const Numbers, lengths: *const u16, lengths_len: usize,
                tape: *const u8, tape_len: usize, taped: bool,
                $($argument: $kind,)*
                secret_area: *mut u16, secret_area_len: usize, product_area: *mut u16, product_area_len: usize,
                refusal: *mut [u64; 4],
            ) -> u32;)*
        }
    };
}

calls! {
    keyseal_seal(key: *const u8, key_len: usize, message: *const u8, message_len: usize,
                 parcel: *mut u8, parcel_len: usize, secret: *mut u8, secret_len: usize);
    keyseal_issue(places: *mut Place, place: u8, coins: *const u8, coins_len: usize);
    keyseal_publish(places: *const Place, place: u8, key: *mut u8, key_len: usize);
    keyseal_open(places: *const Place, place: u8, parcel: *const u8, parcel_len: usize,
                 secret: *mut u8, secret_len: usize);
    keyseal_publish_coins(coins: *const u8, key: *mut u8, key_len: usize);
    keyseal_open_coins(coins: *const u8, parcel: *const u8, parcel_len: usize, secret: *mut u8, secret_len: usize);
    keyseal_raw_read(parcel: *const u8, parcel_len: usize, seed: *const u8, seed_len: usize,
                     raw: *mut u8, raw_len: usize);
    keyseal_gauge(seeds: *const u8, seeds_len: usize, noise: *mut i32, noise_len: usize, out_of_band: *mut u32);
}

unsafe extern "C" {
    fn keyseal_set(
        numbers: *const Numbers,
        lengths: *const u16,
        lengths_len: usize,
        facts: *mut Facts,
        refusal: *mut [u64; 4],
    ) -> u32;
    fn keyseal_retire(places: *mut Place, place: u8, refusal: *mut [u64; 4]) -> u32;
    fn keyseal_shake256(input: *const u8, input_len: usize, output: *mut u8, output_len: usize);
}

/// Calls one of them. All pointers come from references and slices, each with its own length, so that they are valid,
/// aligned and never null, and what is written to overlaps nothing.
macro_rules! call {
    ($name:ident, $on:expr, $lent:expr, $($argument:expr),*) => {{
        let (on, lent): (&Ground, Lent) = ($on, $lent);
        let numbers = Numbers::from(&on.proposal);
        let lengths = on.proposal.lengths;
        let tape = on.tape.unwrap_or(&[]);
        let mut refusal = UNTOLD;
        let code = unsafe {
            $name(
                &numbers, lengths.as_ptr(), lengths.len(),
                tape.as_ptr(), tape.len(), on.tape.is_some(),
                $($argument,)*
                lent.secret.as_mut_ptr(), lent.secret.len(), lent.product.as_mut_ptr(), lent.product.len(),
                &mut refusal,
            )
        };
        Answer { code, refusal }
    }};
}

/// What the refusal holds before a call, which must write all of it.
const UNTOLD: [u64; 4] = [u64::MAX; 4];

/// The verified kit.
pub struct Verified;

impl Kit for Verified {
    fn set(&self, proposal: &Proposal, facts: &mut Facts) -> Answer {
        let lengths = proposal.lengths;
        let mut refusal = UNTOLD;
        let code = unsafe { keyseal_set(&proposal.into(), lengths.as_ptr(), lengths.len(), facts, &mut refusal) };
        Answer { code, refusal }
    }

    fn seal(
        &self,
        on: &Ground,
        key: &[u8],
        message: &[u8],
        parcel: &mut [u8],
        secret: &mut [u8],
        lent: Lent,
    ) -> Answer {
        call!(
            keyseal_seal,
            on,
            lent,
            key.as_ptr(),
            key.len(),
            message.as_ptr(),
            message.len(),
            parcel.as_mut_ptr(),
            parcel.len(),
            secret.as_mut_ptr(),
            secret.len()
        )
    }

    fn issue(&self, on: &Ground, places: &mut Places, place: u8, coins: &[u8], lent: Lent) -> Answer {
        call!(keyseal_issue, on, lent, places.as_mut_ptr(), place, coins.as_ptr(), coins.len())
    }

    fn publish(&self, on: &Ground, places: &Places, place: u8, key: &mut [u8], lent: Lent) -> Answer {
        call!(keyseal_publish, on, lent, places.as_ptr(), place, key.as_mut_ptr(), key.len())
    }

    fn open(&self, on: &Ground, places: &Places, place: u8, parcel: &[u8], secret: &mut [u8], lent: Lent) -> Answer {
        call!(
            keyseal_open,
            on,
            lent,
            places.as_ptr(),
            place,
            parcel.as_ptr(),
            parcel.len(),
            secret.as_mut_ptr(),
            secret.len()
        )
    }

    fn retire(&self, places: &mut Places, place: u8) -> Answer {
        let mut refusal = UNTOLD;
        let code = unsafe { keyseal_retire(places.as_mut_ptr(), place, &mut refusal) };
        Answer { code, refusal }
    }

    fn publish_coins(&self, on: &Ground, coins: &Coins, key: &mut [u8], lent: Lent) -> Answer {
        call!(keyseal_publish_coins, on, lent, coins.as_ptr(), key.as_mut_ptr(), key.len())
    }

    fn open_coins(&self, on: &Ground, coins: &Coins, parcel: &[u8], secret: &mut [u8], lent: Lent) -> Answer {
        call!(
            keyseal_open_coins,
            on,
            lent,
            coins.as_ptr(),
            parcel.as_ptr(),
            parcel.len(),
            secret.as_mut_ptr(),
            secret.len()
        )
    }

    fn raw_read(&self, on: &Ground, parcel: &[u8], seed: &[u8], raw: &mut [u8], lent: Lent) -> Answer {
        call!(
            keyseal_raw_read,
            on,
            lent,
            parcel.as_ptr(),
            parcel.len(),
            seed.as_ptr(),
            seed.len(),
            raw.as_mut_ptr(),
            raw.len()
        )
    }

    fn gauge(&self, on: &Ground, seeds: &[u8], noise: &mut [i32], out_of_band: &mut u32, lent: Lent) -> Answer {
        let count: *mut u32 = out_of_band;
        call!(keyseal_gauge, on, lent, seeds.as_ptr(), seeds.len(), noise.as_mut_ptr(), noise.len(), count)
    }

    fn shake256(&self, input: &[u8], output: &mut [u8]) {
        unsafe { keyseal_shake256(input.as_ptr(), input.len(), output.as_mut_ptr(), output.len()) }
    }
}
