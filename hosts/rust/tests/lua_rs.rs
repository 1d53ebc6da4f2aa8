//! examples/lua_rs/pack.rs in the place of lua-rs's pack.rs, with the comparison's stand-ins for the Lua machine.
//!
//! The stand-ins take the module `pack` from OUT_DIR, where build.rs names ours.

#[allow(dead_code)]
#[path = "../../../compare/src/original.rs"]
mod original;
#[allow(dead_code)]
#[path = "../../../compare/src/value.rs"]
mod value;

use original::{LuaValue, Original, Outcome, lua_vm};
use value::Value;

fn text(text: &[u8]) -> Value {
    Value::Text(text.to_vec())
}

#[test]
fn string_packsize() {
    let mut lua = Original::default();
    assert_eq!(lua.packsize(b"<!8bn"), Outcome::Accepted(16));
    assert_eq!(lua.packsize(b"!4i3"), Outcome::Refused);
    assert_eq!(
        lua.message(),
        "bad argument #1 to 'packsize' (refusal 6: An alignment is above 1 and no power of two.)"
    );
}

#[test]
fn string_pack() {
    let mut lua = Original::default();
    let values = [Value::Integer(1), Value::float(2.0), text(b"AB"), Value::Other];
    assert_eq!(lua.pack(b"<!4 b i s1", &values), Outcome::Accepted(b"\x01\0\0\0\x02\0\0\0\x02AB".to_vec()));
}

#[test]
fn refusals_of_pack_name_their_argument() {
    let mut lua = Original::default();
    let refused = [
        (&b"q"[..], vec![], "#1 to 'pack' (refusal 1: The format has a byte that is no option, or a byte above 127.)"),
        (b"b", vec![], "#2 to 'pack' (refusal 11: No value is left, or no pair of text lengths.)"),
        (b"<i1", vec![Value::Integer(200)], "#2 to 'pack' (refusal 13: An integer is out of its option's range.)"),
        (b"bz", vec![Value::Integer(1), Value::Other], "#3 to 'pack' (refusal 12: A value has the wrong kind.)"),
        (b"bz", vec![Value::Integer(1), text(&[1; 65_536])], "#3 to 'pack' (a text of 65536 bytes is above 65,535)"),
    ];
    for (format, values, message) in refused {
        assert_eq!(lua.pack(format, &values), Outcome::Refused);
        assert_eq!(lua.message(), format!("bad argument {message}"));
    }
}

#[test]
fn memory_that_cannot_be_had_is_an_error() {
    let mut lua = Original::default();
    assert_eq!(lua.pack(b"c9223372036854775807", &[text(b"A")]), Outcome::Refused);
    assert_eq!(lua.message(), "not enough memory (refusal 22: The result is longer than the lent buffer.)");
}

#[test]
fn floats_keep_their_bits() {
    let mut lua = Original::default();
    let zeros = lua.pack(b"<dj", &[Value::float(-0.0), Value::float(-0.0)]);
    assert_eq!(zeros, Outcome::Accepted([[0, 0, 0, 0, 0, 0, 0, 0x80], [0; 8]].concat()));
    for bits in [0x7FF0_0000_0000_0001, 0xFFF8_0000_0000_0000, 0x7FF0_0000_0000_0000, 1, 0x43E0_0000_0000_0000] {
        assert_eq!(lua.pack(b"<d", &[Value::Float(bits)]), Outcome::Accepted(bits.to_le_bytes().to_vec()));
    }
}

#[test]
fn string_unpack() {
    let mut lua = Original::default();
    let values = vec![Value::Integer(-2), Value::float(1.5), text(b"AB")];
    let data = b"\xFE\xFF\xFF\0\0\xC0\x3FAB\0";
    assert_eq!(lua.unpack(b"<i3fz", data, 1), Outcome::Accepted((values, 11)));
    assert_eq!(lua.unpack(b"", data, -1), Outcome::Accepted((vec![], 10)));
}

/// With those of README.md's list that are refusals here.
#[test]
fn refusals_of_unpack_name_their_argument() {
    let mut lua = Original::default();
    let refused = [
        (&b"!4i3"[..], &b"ABC"[..], 1, "#1 to 'unpack' (refusal 6: An alignment is above 1 and no power of two.)"),
        (
            "Xé".as_bytes(),
            b"",
            1,
            "#1 to 'unpack' (refusal 1: The format has a byte that is no option, or a byte above 127.)",
        ),
        (b"Xi17", b"", 1, "#1 to 'unpack' (refusal 3: The size of i, I, l, L or s is outside 1 to 16.)"),
        (b"!4Xi", b"AB", 2, "#2 to 'unpack' (refusal 17: The data end too early.)"),
        (b">i9", b"\xFF\0\0\0\0\0\0\0\0", 1, "#2 to 'unpack' (refusal 18: An integer does not fit 64 bits.)"),
        (b"s9", b"\0\0\0\0\0\0\0\0\x01", 1, "#2 to 'unpack' (refusal 18: An integer does not fit 64 bits.)"),
        (b"b", b"A", 3, "#3 to 'unpack' (refusal 16: The start position lies outside the data.)"),
        (b"b", b"A", 2, "#2 to 'unpack' (refusal 17: The data end too early.)"),
        (b"c65536", &[0; 65_536], 1, "#2 to 'unpack' (refusal 20: A text is longer than 65,535 bytes.)"),
    ];
    for (format, data, start, message) in refused {
        assert_eq!(lua.unpack(format, data, start), Outcome::Refused);
        assert_eq!(lua.message(), format!("bad argument {message}"));
    }
}
