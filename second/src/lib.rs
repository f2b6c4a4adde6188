//! A second, independent build of the key-sealing kit, written from its documentation alone.

pub mod bytes;
pub mod calls;
pub mod code;
pub mod expand;
#[cfg(feature = "kit")]
pub mod ffi;
pub mod kit;
pub mod refusal;
pub mod ring;
pub mod set;
pub mod shake;
pub mod source;
