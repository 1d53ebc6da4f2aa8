//! Every call through the archive: known records, every refusal, and what the crate adds.

use digribbon::{
    Error, Order, State, Value, ValueList, Values, Writer, list_bound, pack, pack_into, packsize, unpack, unpack_into,
};
use std::thread;

fn values<'a, V: Into<Value<'a>>, const N: usize>(values: [V; N]) -> ValueList {
    ValueList::from_values(values).expect("no text here is too long")
}

fn none() -> ValueList {
    ValueList::new()
}

/// What a format reads from data, start 1.
fn read<'a>(format: &str, data: impl AsRef<[u8]>, expected: impl IntoIterator<Item = Value<'a>>) {
    let (list, position) = unpack(format, data.as_ref(), 1).expect(format);
    assert_eq!(list, ValueList::from_values(expected).expect(format), "{format}");
    assert_eq!(position as usize, data.as_ref().len() + 1, "{format}");
}

fn number_of<T: std::fmt::Debug>(result: Result<T, Error>) -> u64 {
    result.expect_err("a refusal").number()
}

#[test]
fn profiles_are_written() {
    assert_eq!(pack("", &none()), Ok(vec![]));
    assert_eq!(pack("<i3", &values([-2])), Ok(vec![0xFE, 0xFF, 0xFF]));
    assert_eq!(pack(">I2", &values([258])), Ok(vec![1, 2]));
    assert_eq!(pack("<!4 b i", &values([1, 2])), Ok(vec![1, 0, 0, 0, 2, 0, 0, 0]));
    let p5 = pack("<!8bn", &values([Value::Integer(1), Value::Float(1.0)]));
    assert_eq!(p5, Ok(vec![1, 0, 0, 0, 0, 0, 0, 0, 0, 0, 0, 0, 0, 0, 0xF0, 0x3F]));
    assert_eq!(pack("b", &values([200])), Ok(vec![0xC8]));
    assert_eq!(pack("<s1", &values(["AB"])), Ok(b"\x02AB".to_vec()));
    let entry = values([Value::Integer(1), Value::Text(b"A")]);
    assert_eq!(pack("<!4bs4", &entry), Ok(vec![1, 0, 0, 0, 1, 0, 0, 0, b'A']));
    assert_eq!(pack("<!4bs1", &entry), Ok(vec![1, 1, b'A']));
    assert_eq!(pack("c3", &values(["AB"])), Ok(b"AB\0".to_vec()));
    assert_eq!(pack("<T", &values([-0.5])), Ok(vec![0xFF; 8]));
    assert_eq!(pack("<f", &values([1152921573326323713_i64])), Ok(vec![0, 0, 0x80, 0x5D]));
    assert_eq!(pack("<!4bXi", &values([1])), Ok(vec![1, 0, 0, 0]));
}

#[test]
fn profiles_are_measured() {
    assert_eq!(packsize("<!8bn"), Ok(16));
    assert_eq!(packsize("!2i3"), Ok(3));
    assert_eq!(packsize("c9223372036854775807"), Ok(i64::MAX as u64));
    assert_eq!(packsize(b"i4"), packsize("i4"));
}

#[test]
fn profiles_are_read() {
    read("<i3", [0xFE, 0xFF, 0xFF], [Value::Integer(-2)]);
    read("<I9", [0xFF, 0xFF, 0xFF, 0xFF, 0xFF, 0xFF, 0xFF, 0xFF, 0], [Value::Integer(-1)]);
    read("b", [200], [Value::Integer(-56)]);
    read("s1 z", b"\x02ABC\0", [Value::Text(b"AB"), Value::Text(b"C")]);
    read("<!4bs4", [1, 7, 8, 9, 1, 0, 0, 0, b'A'], [Value::Integer(1), Value::Text(b"A")]);
    read("<f", [0, 0, 0xC0, 0x3F], [Value::Float(1.5)]);
    assert_eq!(unpack("", &[1], 2), Ok((none(), 2)));
    assert_eq!(unpack("b", &[1, 2], -1), Ok((values([2]), 3)));
}

#[test]
fn every_format_refusal_comes() {
    let long = "c18446744073709551616";
    let refused = [("q", 1), (long, 2), ("i17", 3), ("!17", 4), ("!3", 5), ("!4i3", 6), ("Xz", 7), ("c", 8)];
    for (format, number) in refused {
        assert_eq!(number_of(packsize(format)), number, "{format}");
        assert_eq!(number_of(list_bound(format, 0)), number, "{format}");
        assert_eq!(number_of(pack(format, &none())), number, "{format}");
        assert_eq!(number_of(unpack(format, &[0; 99], 1)), number, "{format}");
    }
    assert_eq!(number_of(packsize("c9223372036854775807b")), 9);
    assert_eq!(number_of(packsize("z")), 10);
    assert_eq!(number_of(packsize("!4s3")), 10);
    assert_eq!(number_of(list_bound("!4s3", 0)), 6);
    assert_eq!(number_of(pack("!4s3", &values(["A"]))), 6);
    assert_eq!(number_of(unpack("!4s3", b"\x01\0\0A", 1)), 6);
    assert_eq!(number_of(pack([0x80], &none())), 1);
}

#[test]
fn every_value_refusal_comes() {
    assert_eq!(number_of(pack("b", &none())), 11);
    assert_eq!(number_of(pack("b", &values(["1"]))), 12);
    assert_eq!(number_of(pack("b", &values([Value::Other]))), 12);
    assert_eq!(number_of(pack("i1", &values([200]))), 13);
    assert_eq!(number_of(pack("z", &values([b"A\0"]))), 14);
    assert_eq!(number_of(pack("c1", &values(["AB"]))), 15);
}

#[test]
fn every_data_refusal_comes() {
    assert_eq!(number_of(unpack("", &[1], 0)), 16);
    assert_eq!(number_of(unpack("", &[1], i64::MIN)), 16);
    assert_eq!(number_of(unpack("b", &[1], 2)), 17);
    assert_eq!(number_of(unpack("bq", &[], 1)), 17);
    assert_eq!(number_of(unpack("<i9", &[0xFF, 0xFF, 0xFF, 0xFF, 0xFF, 0xFF, 0xFF, 0xFF, 0], 1)), 18);
    assert_eq!(number_of(unpack("z", b"A", 1)), 19);
    assert_eq!(number_of(unpack("c65536", &[0; 65_536], 1)), 20);
}

#[test]
fn host_refusals_come() {
    assert_eq!(number_of(list_bound("", 1 << 63)), 21);
    for (limit, length) in [(0, 0), (3, 0), (32, 0), (1, 1 << 63)] {
        let mut writer = Writer::from(State::new(Order::Little, limit, length));
        assert_eq!(number_of(writer.write("", &none(), &mut vec![])), 21);
        assert_eq!(number_of(writer.write_into("", &none(), &mut [])), 21);
    }
    assert_eq!(number_of(pack_into("b", &values([1]), &mut [])), 22);
    assert_eq!(number_of(unpack_into("b", &[1], 1, &mut [0; 10])), 22);
}

#[test]
fn refusals_change_nothing() {
    let mut lent = [0xEE; 32];
    assert_eq!(number_of(pack_into("<j i1", &values([1, 200]), &mut lent)), 13);
    assert_eq!(number_of(unpack_into("bb", &[1], 1, &mut lent)), 17);
    assert_eq!(lent, [0xEE; 32]);

    let (mut writer, mut record) = (Writer::new(), vec![]);
    writer.write(">!4 b", &values([1]), &mut record).expect("one byte");
    let state = writer.state();
    assert_eq!(number_of(writer.write("<!8 i i1", &values([2, 200]), &mut record)), 13);
    assert_eq!(number_of(writer.write_into("<!8 i i1", &values([2, 200]), &mut lent)), 13);
    assert_eq!(number_of(writer.write_into("<!8 i i", &values([2, 200]), &mut lent[..10])), 22);
    assert_eq!((writer.state(), record, lent), (state, vec![1], [0xEE; 32]));
}

#[test]
fn accepted_calls_keep_the_rest() {
    let mut record = [0xEE; 4];
    assert_eq!(pack_into(">I2", &values([258]), &mut record), Ok(2));
    assert_eq!(record, [1, 2, 0xEE, 0xEE]);

    let mut list = [0xEE; 12];
    unpack_into("b", &[7], 1, &mut list).expect("one byte");
    assert_eq!(list, [1, 0, 8, 0, 0, 0, 0, 0, 0, 0, 7, 0xEE]);

    let part = Writer::new().write_into(">I2", &values([258]), &mut list).expect("two bytes").written;
    assert_eq!((part, list), (2, [1, 2, 8, 0, 0, 0, 0, 0, 0, 0, 7, 0xEE]));
}

#[test]
fn records_longer_than_their_values_are_written() {
    let long = pack("c100000", &values(["A"])).expect("fixed size");
    assert_eq!((long.len(), long[0], long[99_999]), (100_000, b'A', 0));
    let open = pack("c100000z", &values(["A", "B"])).expect("no fixed size");
    assert_eq!((open.len(), &open[99_999..]), (100_002, &b"\0B\0"[..]));
    assert_eq!(pack(" ".repeat(1000), &none()), Ok(vec![]));

    let widest = "i16".repeat(100);
    let (mut writer, mut record) = (Writer::new(), vec![]);
    let numbers = ValueList::from_values([1; 100]).expect("numbers");
    writer.write("!16 x", &none(), &mut record).expect("one byte");
    let part = writer.write(widest, &numbers, &mut record).expect("numbers");
    assert_eq!((part.written, record.len()), (1615, 1616));
}

#[test]
fn records_beyond_memory_are_refused() {
    for format in ["c9223372036854775807", "c9223372036854775000z"] {
        assert_eq!(number_of(pack(format, &values(["A", "B"]))), 22, "{format}");
        let mut record = vec![7];
        assert_eq!(number_of(Writer::new().write(format, &values(["A", "B"]), &mut record)), 22, "{format}");
        assert_eq!(record, [7]);
    }
    assert_eq!(number_of(pack("c9223372036854775807q", &values(["A"]))), 1);
}

#[test]
fn lists_longer_than_their_data_are_read() {
    let data = [7; 1000];
    let (list, position) = unpack("B".repeat(1000), &data, 1).expect("bytes");
    assert_eq!((list.len(), list.as_bytes().len(), position), (1000, 11_000, 1001));
    let (list, _) = unpack("z".repeat(1000), &[0; 1000], 1).expect("empty texts");
    assert_eq!(list.as_bytes().len(), 3000);
    let (list, _) = unpack("c65535", &vec![1; 1 << 20], 1).expect("a text");
    assert_eq!(list, values([&[1; 65_535]]));
}

#[test]
fn lists_hold_values() {
    let kinds = [Value::Other, i64::MIN.into(), f64::NEG_INFINITY.into(), Value::Text(b""), "text".into()];
    let list = values(kinds);
    assert_eq!(list.iter().collect::<Vec<_>>(), kinds);
    assert_eq!(format!("{:?}", list.after(4)), "[Text([116, 101, 120, 116])]");
    for fields in 0..=7 {
        assert_eq!(list.after(fields).len(), 5_usize.saturating_sub(fields));
    }
    assert!(list.after(usize::MAX).is_empty());

    let bits = 0xFFF0_0000_0000_0001;
    let Some(Value::Float(nan)) = values([f64::from_bits(bits)]).iter().next() else { panic!("a float") };
    assert_eq!(nan.to_bits(), bits);
}

#[test]
fn malformed_lists_are_told() {
    let whole = values([Value::Integer(1), Value::Float(2.0), Value::Text(b"ABC"), Value::Other]);
    let bytes = whole.as_bytes();
    assert_eq!(Values::from_bytes(bytes), Ok(&*whole));
    for end in (1..bytes.len()).filter(|end| ![11, 22, 28].contains(end)) {
        assert_eq!(number_of(Values::from_bytes(&bytes[..end])), 21, "{end}");
    }
    for bad in [&[0, 0, 1, 0][..], &[1, 0, 7, 0, 0, 0, 0, 0, 0, 0], &[2, 0, 0], &[4, 0, 0]] {
        assert_eq!(number_of(Values::from_bytes(bad)), 21);
    }
}

#[test]
fn calls_run_in_parallel() {
    thread::scope(|scope| {
        for number in 0..4 {
            scope.spawn(move || {
                for round in 0..1000 {
                    let list = values([number, round]);
                    let record = pack(">!4 b i", &list).expect("a record");
                    assert_eq!(unpack(">!4 b i", &record, 1), Ok((list, 9)));
                }
            });
        }
    });
}
