//! Takes the place of `crates/luars/src/stdlib/string/pack.rs` in lua-rs.

use crate::LuaValue;
use crate::lua_vm::{LuaResult, LuaState};
use digribbon::{Cause, Error, Refusal, Value, ValueList};

/// string.pack(fmt, v1, v2, ...)
pub fn string_pack(l: &mut LuaState) -> LuaResult<usize> {
    let format = text_argument(l, 1, "pack")?;
    let mut values = ValueList::new();
    for index in 2..=l.arg_count() {
        let argument = l.get_arg(index);
        if let Err(error) = values.push(argument.as_ref().map_or(Value::Other, value_of)) {
            let length = error.length;
            return bad_argument(l, index, "pack", &format!("a text of {length} bytes is above 65,535"));
        }
    }
    let record = digribbon::pack(bytes_of(&format), &values);
    let record = accepted(l, "pack", record)?;
    let record = l.create_binary(record)?;
    l.push_value(record)?;
    Ok(1)
}

/// string.packsize(fmt)
pub fn string_packsize(l: &mut LuaState) -> LuaResult<usize> {
    let format = text_argument(l, 1, "packsize")?;
    let size = accepted(l, "packsize", digribbon::packsize(bytes_of(&format)))?;
    l.push_value(LuaValue::integer(size as i64))?;
    Ok(1)
}

/// string.unpack(fmt, s [, pos])
pub fn string_unpack(l: &mut LuaState) -> LuaResult<usize> {
    let format = text_argument(l, 1, "unpack")?;
    let data = text_argument(l, 2, "unpack")?;
    let start = l.get_arg(3).and_then(|start| start.as_integer()).unwrap_or(1);
    let answer = digribbon::unpack(bytes_of(&format), bytes_of(&data), start);
    let (values, position) = accepted(l, "unpack", answer)?;
    let mut results = 1;
    for value in &values {
        let value = match value {
            Value::Integer(integer) => LuaValue::integer(integer),
            Value::Float(float) => LuaValue::number(float),
            Value::Text(text) => l.create_bytes(text)?,
            Value::Other => unreachable!("reading gives numbers and texts"),
        };
        l.push_value(value)?;
        results += 1;
    }
    l.push_value(LuaValue::integer(position))?;
    Ok(results)
}

/// The argument with this number, which must be a text.
fn text_argument(l: &mut LuaState, index: usize, function: &str) -> LuaResult<LuaValue> {
    match l.get_arg(index) {
        Some(argument) if argument.as_bytes().is_some() => Ok(argument),
        _ => bad_argument(l, index, function, "string expected"),
    }
}

fn bytes_of(text: &LuaValue) -> &[u8] {
    text.as_bytes().expect("text_argument has seen that it is a text")
}

/// A float that equals an integer is written as that integer is; only -0.0 differs, under f, d and n.
fn value_of(argument: &LuaValue) -> Value<'_> {
    match (argument.as_bytes(), argument.as_integer(), argument.as_number()) {
        (Some(text), _, _) => Value::Text(text),
        (_, Some(integer), Some(float)) if float.to_bits() != (-0.0_f64).to_bits() => Value::Integer(integer),
        (_, _, Some(float)) => Value::Float(float),
        _ => Value::Other,
    }
}

/// What a call gave; or its refusal as an error, which names the argument that it is about.
fn accepted<T>(l: &mut LuaState, function: &str, answer: Result<T, Error>) -> LuaResult<T> {
    let error = match answer {
        Ok(answer) => return Ok(answer),
        Err(error) => error,
    };
    let argument = match (error.refusal(), error.cause()) {
        (_, Cause::Author) => Some(1),
        (_, Cause::Supplier) => error.value_position().map(|value| value + 1),
        (Refusal::StartOutside, _) => Some(3),
        (_, Cause::CardData) => Some(2),
        (_, Cause::Host) => None,
    };
    let refusal = format!("refusal {}: {}", error.number(), error.sentence());
    match argument {
        Some(index) => bad_argument(l, index, function, &refusal),
        None => Err(l.error(format!("not enough memory ({refusal})"))),
    }
}

fn bad_argument<T>(l: &mut LuaState, index: usize, function: &str, why: &str) -> LuaResult<T> {
    Err(l.error(format!("bad argument #{index} to '{function}' ({why})")))
}
