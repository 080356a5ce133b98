//! The validator of Cedar policies, by the C library libcedar. Each function takes a call, a text of JSON, and answers one. A
//! [`Schema`] is read once, for many calls. With the feature `serde`, `types` has calls and answers as types.
use std::fmt;

mod schema;
#[cfg(feature = "serde")]
pub mod types;

pub use schema::{OpenError, Schema};

/// The number of calls that this crate knows.
const ABI: u32 = 2;

type Call = unsafe extern "C" fn(*const u8, usize, *mut u8, usize, *mut usize) -> u32;

extern "C" {
    fn cedar_abi() -> u32;
    fn cedar_validate(call: *const u8, call_len: usize, answer: *mut u8, answer_len: usize, needed: *mut usize) -> u32;
    fn cedar_check_data(call: *const u8, call_len: usize, answer: *mut u8, answer_len: usize, needed: *mut usize) -> u32;
    fn cedar_typed_conditions(call: *const u8, call_len: usize, answer: *mut u8, answer_len: usize, needed: *mut usize) -> u32;
}

/// Why a call is not answered.
#[derive(Clone, Copy, PartialEq, Eq, Debug)]
pub enum Error {
    /// Memory was refused; nothing is decided.
    NoMemory,
    /// The library has another number of calls.
    OtherLibrary(u32),
}

impl fmt::Display for Error {
    fn fmt(&self, f: &mut fmt::Formatter) -> fmt::Result {
        match self {
            Error::NoMemory => write!(f, "memory was refused"),
            Error::OtherLibrary(number) => write!(f, "libcedar has the number {number} of calls, where {ABI} is wanted"),
        }
    }
}

impl std::error::Error for Error {}

/// Validates policies: `schema`, `policies` and perhaps `validationSettings`.
pub fn validate(call: &str) -> Result<String, Error> {
    answered(cedar_validate, call)
}

/// Checks data: `schema` and perhaps `entities` and `request`.
pub fn check_data(call: &str) -> Result<String, Error> {
    answered(cedar_check_data, call)
}

/// The condition of a policy in each of its environments: `schema`, `policy` and perhaps `validationSettings`.
pub fn typed_conditions(call: &str) -> Result<String, Error> {
    answered(cedar_typed_conditions, call)
}

/// Fails if the library has another number of calls.
fn check_library() -> Result<(), Error> {
    // SAFETY: it takes nothing.
    match unsafe { cedar_abi() } {
        ABI => Ok(()),
        abi => Err(Error::OtherLibrary(abi)),
    }
}

fn answered(function: Call, call: &str) -> Result<String, Error> {
    check_library()?;
    let mut room = vec![0; 4 * call.len() + 4096];
    loop {
        let mut needed = 0;
        // SAFETY: neither pointer is null, since `room` is never empty and that of a `str` is never null; none overlap.
        let status = unsafe { function(call.as_ptr(), call.len(), room.as_mut_ptr(), room.len(), &mut needed) };
        match status {
            0 => {
                room.truncate(needed);
                return Ok(String::from_utf8(room).expect("an answer is UTF-8"));
            }
            1 => room.resize(needed, 0),
            _ => return Err(Error::NoMemory),
        }
    }
}
