//! The original, pack.rs, unchanged, with stand-ins for what it uses of its Lua machine.
//!
//! The stand-ins do as little as they can, so that the original's own instructions are counted:
//! arguments and results are two vectors that keep their room from call to call, a made text is moved or copied
//! into memory that the state already has, and a message is only kept.

use crate::value::Value;
use lua_vm::{LuaResult, LuaState};
use std::cell::Cell;
use std::panic::{self, AssertUnwindSafe};
use std::{slice, str};

include!(concat!(env!("OUT_DIR"), "/pack_module.rs"));

/// A value as the original sees it: 16 bytes, copied, a text by its place, as in the original's machine.
#[derive(Clone, Copy)]
pub enum LuaValue {
    Nil,
    Integer(i64),
    Float(f64),
    /// The bytes belong to the caller or to the state and stay until the state is cleared.
    Text {
        utf8: bool,
        length: u32,
        start: *const u8,
    },
}

impl LuaValue {
    pub fn integer(integer: i64) -> LuaValue {
        LuaValue::Integer(integer)
    }

    pub fn number(number: f64) -> LuaValue {
        LuaValue::Float(number)
    }

    fn text(bytes: &[u8], utf8: bool) -> LuaValue {
        let length = u32::try_from(bytes.len()).expect("a text here has less than 2^32 bytes");
        LuaValue::Text { utf8, length, start: bytes.as_ptr() }
    }

    /// "`as_integer`: an integer itself; a float equal to an integer of -2^63..2^63-1, that integer; otherwise none."
    pub fn as_integer(&self) -> Option<i64> {
        const END: f64 = 9_223_372_036_854_775_808.0;
        match *self {
            LuaValue::Integer(integer) => Some(integer),
            LuaValue::Float(number) if (-END..END).contains(&number) => {
                let integer = number as i64;
                (integer as f64 == number).then_some(integer)
            }
            _ => None,
        }
    }

    /// "`as_number`: a float itself; an integer rounded to f64, nearest, ties to even; otherwise none."
    pub fn as_number(&self) -> Option<f64> {
        match *self {
            LuaValue::Integer(integer) => Some(integer as f64),
            LuaValue::Float(number) => Some(number),
            _ => None,
        }
    }

    /// "`as_bytes`: a text's bytes; otherwise none."
    pub fn as_bytes(&self) -> Option<&[u8]> {
        match *self {
            // SAFETY: the place of a text is valid until the state is cleared, and a value is used no later.
            LuaValue::Text { length, start, .. } => Some(unsafe { slice::from_raw_parts(start, length as usize) }),
            _ => None,
        }
    }

    /// A text that is known to be UTF-8, which a format is.
    pub fn as_str(&self) -> Option<&str> {
        match self {
            // SAFETY: the flag is set only where the bytes were found to be UTF-8.
            LuaValue::Text { utf8: true, .. } => {
                self.as_bytes().map(|bytes| unsafe { str::from_utf8_unchecked(bytes) })
            }
            _ => None,
        }
    }
}

pub mod lua_vm {
    use super::LuaValue;

    pub type LuaResult<T> = Result<T, LuaError>;

    /// One byte in the original's machine too; the message is in the state.
    pub enum LuaError {
        RuntimeError,
    }

    #[derive(Default)]
    pub struct LuaState {
        pub(super) arguments: Vec<LuaValue>,
        pub(super) results: Vec<LuaValue>,
        /// What `create_binary` was given.
        pub(super) binaries: Vec<Vec<u8>>,
        /// What `create_bytes` copied. A full piece is left as it is, so that no text moves.
        pub(super) copies: Vec<Vec<u8>>,
        pub(super) message: String,
    }

    impl LuaState {
        #[inline]
        pub fn get_arg(&self, index: usize) -> Option<LuaValue> {
            self.arguments.get(index.wrapping_sub(1)).copied()
        }

        #[inline]
        pub fn arg_count(&self) -> usize {
            self.arguments.len()
        }

        #[inline]
        pub fn push_value(&mut self, value: LuaValue) -> LuaResult<()> {
            self.results.push(value);
            Ok(())
        }

        #[inline]
        pub fn create_binary(&mut self, data: Vec<u8>) -> LuaResult<LuaValue> {
            let value = LuaValue::text(&data, false);
            self.binaries.push(data);
            Ok(value)
        }

        #[inline]
        pub fn create_bytes(&mut self, bytes: &[u8]) -> LuaResult<LuaValue> {
            let piece = match self.copies.last_mut() {
                Some(piece) if piece.capacity() - piece.len() >= bytes.len() => piece,
                _ => {
                    self.copies.push(Vec::with_capacity(bytes.len().max(1 << 17)));
                    self.copies.last_mut().expect("one was pushed")
                }
            };
            let start = piece.len();
            // SAFETY: the piece has room for the bytes behind its length, and they are written before it grows.
            unsafe {
                bytes.as_ptr().copy_to_nonoverlapping(piece.as_mut_ptr().add(start), bytes.len());
                piece.set_len(start + bytes.len());
            }
            Ok(LuaValue::text(&piece[start..], false))
        }

        #[cold]
        pub fn error(&mut self, message: String) -> LuaError {
            self.message = message;
            LuaError::RuntimeError
        }

        /// Forgets results and made texts, and keeps their room.
        pub fn clear(&mut self) {
            self.results.clear();
            self.binaries.clear();
            self.copies.truncate(1);
            self.copies.iter_mut().for_each(Vec::clear);
        }
    }
}

/// What a call of the original came to.
#[derive(Clone, Debug, PartialEq)]
pub enum Outcome<T> {
    Accepted(T),
    Refused,
    Panicked,
}

/// One of the three calls.
pub type Call = fn(&mut LuaState) -> LuaResult<usize>;

#[derive(Default)]
pub struct Original {
    state: LuaState,
}

thread_local! {
    static RUNNING: Cell<bool> = const { Cell::new(false) };
}

/// Keeps a panic of the original from being printed: it is an outcome.
pub fn silence_panics() {
    let print = panic::take_hook();
    panic::set_hook(Box::new(move |info| {
        if !RUNNING.get() {
            print(info);
        }
    }));
}

impl Original {
    pub fn packsize(&mut self, format: &[u8]) -> Outcome<i64> {
        self.load(&[as_format(format)]);
        self.outcome(pack::string_packsize, |state| match state.results[0] {
            LuaValue::Integer(size) => size,
            _ => unreachable!("a size is an integer"),
        })
    }

    pub fn pack(&mut self, format: &[u8], values: &[Value]) -> Outcome<Vec<u8>> {
        self.load(&[as_format(format)]);
        self.state.arguments.extend(values.iter().map(as_argument));
        self.outcome(pack::string_pack, |state| state.binaries.pop().expect("a record was made"))
    }

    /// The values, and the next position.
    pub fn unpack(&mut self, format: &[u8], data: &[u8], start: i64) -> Outcome<(Vec<Value>, i64)> {
        self.load(&[as_format(format), LuaValue::text(data, false), LuaValue::Integer(start)]);
        self.outcome(pack::string_unpack, |state| {
            let (position, values) = state.results.split_last().expect("a position is always given");
            let LuaValue::Integer(position) = *position else { unreachable!("a position is an integer") };
            (values.iter().map(as_value).collect(), position)
        })
    }

    /// The message of the last call; empty where it was accepted.
    pub fn message(&self) -> &str {
        &self.state.message
    }

    /// The same, for printing behind a difference.
    pub fn said(&self) -> String {
        if self.message().is_empty() { String::new() } else { format!(" (it says: {})", self.message()) }
    }

    /// Runs `work` with the state that holds these arguments, for counting what a call costs.
    pub fn with_arguments(&mut self, format: &[u8], values: &[Value], work: impl FnOnce(&mut LuaState)) {
        self.load(&[as_format(format)]);
        self.state.arguments.extend(values.iter().map(as_argument));
        work(&mut self.state);
        self.state.clear();
        self.state.arguments.clear();
    }

    fn load(&mut self, arguments: &[LuaValue]) {
        self.state.clear();
        self.state.message.clear();
        self.state.arguments.clear();
        self.state.arguments.extend_from_slice(arguments);
    }

    fn outcome<T>(&mut self, call: Call, take: impl FnOnce(&mut LuaState) -> T) -> Outcome<T> {
        RUNNING.set(true);
        let result = panic::catch_unwind(AssertUnwindSafe(|| call(&mut self.state)));
        RUNNING.set(false);
        let outcome = match result {
            Ok(Ok(_)) => Outcome::Accepted(take(&mut self.state)),
            Ok(Err(_)) => Outcome::Refused,
            Err(_) => Outcome::Panicked,
        };
        self.state.arguments.clear();
        outcome
    }
}

fn as_format(format: &[u8]) -> LuaValue {
    LuaValue::text(format, str::from_utf8(format).is_ok())
}

pub fn as_argument(value: &Value) -> LuaValue {
    match value {
        Value::Other => LuaValue::Nil,
        Value::Integer(integer) => LuaValue::Integer(*integer),
        Value::Float(bits) => LuaValue::Float(f64::from_bits(*bits)),
        Value::Text(text) => LuaValue::text(text, false),
    }
}

fn as_value(value: &LuaValue) -> Value {
    match *value {
        LuaValue::Nil => Value::Other,
        LuaValue::Integer(integer) => Value::Integer(integer),
        LuaValue::Float(number) => Value::float(number),
        LuaValue::Text { .. } => Value::Text(value.as_bytes().unwrap_or_default().to_vec()),
    }
}
