//! What Rust programs expect of the crate's types and functions.

use digribbon::{
    Cause, Date, Day, Error, Iter, Order, Part, Refusal, State, TextTooLong, TrayError, Value, ValueList, Values,
    Writer, pack, packsize,
};
use std::borrow::{Borrow, Cow};
use std::collections::HashMap;
use std::fmt::Debug;
use std::fs;
use std::hash::Hash;
use std::path::Path;

#[test]
fn numbers_and_texts_are_values() {
    let (string, bytes) = (String::from("A"), vec![b'A']);
    assert_eq!(
        [Value::from(-1_i8), Value::from(-1_i16), Value::from(-1_i32), Value::from(-1_i64)],
        [Value::Integer(-1); 4]
    );
    assert_eq!([Value::from(255_u8), Value::from(255_u16), Value::from(255_u32)], [Value::Integer(255); 3]);
    assert_eq!(Value::from(u32::MAX), Value::Integer(4_294_967_295));
    assert_eq!(
        [Value::from(0.1_f32), Value::from(0.1_f64)],
        [Value::Float(0.100_000_001_490_116_12), Value::Float(0.1)]
    );
    assert_eq!(
        [Value::from("A"), Value::from(&string), Value::from(&bytes), Value::from(&bytes[..]), Value::from(b"A")],
        [Value::Text(b"A"); 5]
    );
}

#[test]
fn integers_beyond_an_i64_are_no_values() {
    assert_eq!(Value::try_from(i64::MAX as u64), Ok(Value::Integer(i64::MAX)));
    assert!(Value::try_from(i64::MAX as u64 + 1).is_err());
    assert_eq!(Value::try_from(i128::from(i64::MIN)), Ok(Value::Integer(i64::MIN)));
    assert!(Value::try_from(i128::from(i64::MIN) - 1).is_err());
    assert!(Value::try_from(u128::MAX).is_err());
    assert_eq!((Value::try_from(7_usize), Value::try_from(-7_isize)), (Ok(Value::Integer(7)), Ok(Value::Integer(-7))));
}

#[test]
fn lists_are_lent_and_owned() {
    let list = ValueList::from_values([1, 2, 3]).expect("integers");
    let lent: &Values = &list;
    assert_eq!((lent.len(), lent.is_empty(), ValueList::new().is_empty()), (3, false, true));
    assert_eq!((lent.to_owned(), ValueList::from(lent)), (list.clone(), list.clone()));
    assert_eq!((AsRef::<[u8]>::as_ref(lent), AsRef::<[u8]>::as_ref(&list)), (lent.as_bytes(), lent.as_bytes()));
    assert_eq!((Borrow::<Values>::borrow(&list), AsRef::<Values>::as_ref(&list)), (lent, lent));
    assert_eq!(AsRef::<Values>::as_ref(lent), lent);

    let mut cow = Cow::Borrowed(lent);
    assert_eq!(cow.len(), 3);
    cow.to_mut().push("more").expect("a short text");
    assert_eq!((cow.len(), lent.len()), (4, 3));

    let names = HashMap::from([(list.clone(), "by its owner's key")]);
    assert_eq!(names.get(lent), Some(&"by its owner's key"));
}

#[test]
fn iterators_show_what_is_to_come() {
    let list = ValueList::from_values([Value::Integer(1), Value::Text(b"A"), Value::Other]).expect("short texts");
    let mut values = list.iter();
    assert_eq!(format!("{values:?}"), "Iter([Integer(1), Text([65]), Other])");
    for left in (0..3).rev() {
        let (least, most) = values.size_hint();
        assert!(least <= left + 1 && most.is_some_and(|most| left < most));
        values.next();
        assert_eq!(values.clone().count(), left);
    }
    assert_eq!((format!("{values:?}"), values.size_hint(), values.next()), ("Iter([])".into(), (0, Some(0)), None));
}

#[test]
fn texts_that_are_too_long_are_named() {
    let long = [b't'; 65_536];
    let error = ValueList::from_values([&b"A"[..], &b"B"[..], &long[..]]).expect_err("a text is too long");
    assert_eq!((error.position, error.length), (3, 65_536));
    let shown = "value 3: a text of 65536 bytes is too long for a value list, whose texts end at 65,535";
    assert_eq!(error.to_string(), shown);
}

#[test]
fn errors_equal_their_refusal() {
    let error = packsize("z").expect_err("z has no fixed size");
    assert!(error == Refusal::NoFixedSize && error != Refusal::UnknownOption);
    assert_eq!(error, Error::from(Refusal::NoFixedSize));
    let values = ValueList::from_values(["A"]).expect("a text");
    assert_ne!(pack("b", &values).expect_err("a text is no integer"), Error::from(Refusal::WrongKind));
}

#[test]
fn types_have_the_usual_traits() {
    fn has<T: Debug + Clone + Send + Sync + Unpin>() {}
    fn has_equality<T: Eq + Hash>() {}
    fn has_order<T: Ord + Copy>() {}
    fn is_error<T: std::error::Error + Copy + Eq + 'static>() {}
    has::<(Value, ValueList, Iter, Writer, State, Order, Part)>();
    has::<(Error, TrayError, Refusal, Cause, TextTooLong)>();
    has_equality::<(ValueList, State, Order, Error, TrayError, Refusal, Cause, TextTooLong)>();
    has_equality::<&Values>();
    has::<(Date, Day)>();
    has_equality::<(Date, Day)>();
    has_order::<(Date, Day)>();
    is_error::<Error>();
    is_error::<TrayError>();
    is_error::<TextTooLong>();
}

/// A function's lines: documentation and attributes, then its first line up to the body.
struct Function {
    documentation: String,
    signature: String,
}

/// The public functions of src/, in whatever file.
fn public_functions() -> Vec<Function> {
    let folder = Path::new(env!("CARGO_MANIFEST_DIR")).join("src");
    let mut functions = vec![];
    for file in fs::read_dir(folder).expect("a folder") {
        let text = fs::read_to_string(file.expect("a file").path()).expect("a text");
        let (mut documentation, mut lines) = (String::new(), text.lines());
        while let Some(line) = lines.next().map(str::trim) {
            if line.starts_with("pub fn ") || line.starts_with("pub const fn ") {
                let mut signature = line.to_string();
                while !signature.ends_with('{') {
                    signature += lines.next().expect("a function has a body");
                }
                functions.push(Function { documentation: std::mem::take(&mut documentation), signature });
            } else if line.starts_with("///") || line.starts_with("#[") {
                documentation += line;
            } else {
                documentation.clear();
            }
        }
    }
    functions
}

#[test]
fn functions_say_what_they_refuse_and_what_must_be_used() {
    let functions = public_functions();
    assert!(functions.len() > 20, "{} functions were found", functions.len());
    for Function { documentation, signature } in functions {
        if signature.contains("Result<") {
            assert!(documentation.contains("/// # Errors"), "no errors are named: {signature}");
        } else if signature.contains("->") {
            assert!(documentation.contains("#[must_use]"), "what it gives may go unused: {signature}");
        }
    }
}
