//! Schemas that are read once, for many calls.
use crate::{check_library, Error};
use std::fmt;

/// `cedar_schema` of cedar.h; zeros are a closed one.
#[repr(C)]
struct Handle {
    held: *mut u8,
    is_open: u8,
}

type CallBy = unsafe extern "C" fn(*mut Handle, *const u8, usize, *mut u8, usize, *mut usize) -> u32;

extern "C" {
    fn cedar_schema_open(schema: *mut Handle, call: *const u8, call_len: usize, answer: *mut u8, answer_len: usize, needed: *mut usize) -> u32;
    fn cedar_schema_validate(schema: *mut Handle, call: *const u8, call_len: usize, answer: *mut u8, answer_len: usize, needed: *mut usize) -> u32;
    fn cedar_schema_check_data(schema: *mut Handle, call: *const u8, call_len: usize, answer: *mut u8, answer_len: usize, needed: *mut usize) -> u32;
    fn cedar_schema_typed_conditions(schema: *mut Handle, call: *const u8, call_len: usize, answer: *mut u8, answer_len: usize, needed: *mut usize) -> u32;
    fn cedar_schema_answer(schema: *mut Handle, answer: *mut u8, answer_len: usize, needed: *mut usize) -> u32;
    fn cedar_schema_close(schema: *mut Handle);
}

/// Why a schema is not opened.
#[derive(Clone, PartialEq, Eq, Debug)]
pub enum OpenError {
    Call(Error),
    /// The schema cannot be read. The text, a `failure`, says why.
    Schema(String),
}

impl fmt::Display for OpenError {
    fn fmt(&self, f: &mut fmt::Formatter) -> fmt::Result {
        match self {
            OpenError::Call(why) => why.fmt(f),
            OpenError::Schema(failure) => write!(f, "the schema cannot be read: {failure}"),
        }
    }
}

impl std::error::Error for OpenError {}

/// A schema that is read once. Its calls name no schema. It is not `Send`: each thread opens its own.
pub struct Schema {
    handle: Handle,
}

impl Schema {
    /// Opens the schema of a call, an object of `schema` alone.
    pub fn open(call: &str) -> Result<Schema, OpenError> {
        check_library().map_err(OpenError::Call)?;
        let mut schema = Schema { handle: Handle { held: std::ptr::null_mut(), is_open: 0 } };
        let mut room = vec![0; 1 << 12];
        loop {
            let mut needed = 0;
            // SAFETY: the handle is closed, no pointer is null, and none overlap.
            let status = unsafe { cedar_schema_open(&mut schema.handle, call.as_ptr(), call.len(), room.as_mut_ptr(), room.len(), &mut needed) };
            match status {
                4 => return Ok(schema),
                0 => return Err(OpenError::Schema(text_of(room, needed))),
                1 => room.resize(needed, 0),
                _ => return Err(OpenError::Call(Error::NoMemory)),
            }
        }
    }

    /// Validates policies: `policies` and perhaps `validationSettings`.
    pub fn validate(&mut self, call: &str) -> Result<String, Error> {
        self.answered(cedar_schema_validate, call)
    }

    /// Checks data: perhaps `entities` and `request`.
    pub fn check_data(&mut self, call: &str) -> Result<String, Error> {
        self.answered(cedar_schema_check_data, call)
    }

    /// Answers the condition of a policy in each of its environments: `policy` and perhaps `validationSettings`.
    pub fn typed_conditions(&mut self, call: &str) -> Result<String, Error> {
        self.answered(cedar_schema_typed_conditions, call)
    }

    fn answered(&mut self, function: CallBy, call: &str) -> Result<String, Error> {
        let (mut room, mut needed) = (vec![0; 4 * call.len() + 4096], 0);
        // SAFETY: the handle is open and borrowed alone, no pointer is null, and none overlap.
        let mut status = unsafe { function(&mut self.handle, call.as_ptr(), call.len(), room.as_mut_ptr(), room.len(), &mut needed) };
        if status == 1 {
            room.resize(needed, 0);
            // SAFETY: as above.
            status = unsafe { cedar_schema_answer(&mut self.handle, room.as_mut_ptr(), room.len(), &mut needed) };
        }
        match status {
            0 => Ok(text_of(room, needed)),
            _ => Err(Error::NoMemory),
        }
    }
}

impl Drop for Schema {
    fn drop(&mut self) {
        // SAFETY: nothing uses the handle any more.
        unsafe { cedar_schema_close(&mut self.handle) }
    }
}

fn text_of(mut room: Vec<u8>, size: usize) -> String {
    room.truncate(size);
    String::from_utf8(room).expect("an answer is UTF-8")
}
