//! Trays: the records of single calls, back to back, or the first refusal and its place.

mod random;

use digribbon::{Error, Refusal, TrayError, Value, ValueList, Values, pack, pack_into, pack_tray, pack_tray_into};
use random::{ITEMS, Random, suiting};
use std::borrow::Cow;

fn values<'a, V: Into<Value<'a>>, const N: usize>(values: [V; N]) -> ValueList {
    ValueList::from_values(values).expect("no text here is too long")
}

/// The tray is refused with this number, whatever the buffer's length, at this record, or about the whole tray.
fn refused(number: u64, record: Option<usize>, format: &str, lists: &[ValueList]) -> Error {
    let Err(TrayError::Refused(error)) = pack_tray(format, lists) else { panic!("{format} was not refused") };
    assert_eq!((error.number(), error.record_position()), (number, record), "{format}");
    for room in [0, 1, 2, 50] {
        let mut lent = vec![0xEE; room];
        assert_eq!(pack_tray_into(format, lists, &mut lent), Err(error.into()), "{format}");
        assert_eq!(lent, vec![0xEE; room], "{format}");
    }
    error
}

#[test]
fn records_are_laid_out_as_if_alone() {
    let lists = [values([1, 2, 3]), values([4, 5, 6])];
    assert_eq!(pack_tray("<!2 b h b", &lists), Ok(vec![1, 0, 2, 0, 3, 4, 0, 5, 0, 6]));
    assert_eq!(pack_tray("I2 > I2", &lists), Ok(vec![1, 0, 0, 2, 4, 0, 0, 5]));
    assert_eq!(pack_tray("s1", [values(["A"]), values([""]), values(["BC"])]), Ok(b"\x01A\0\x02BC".to_vec()));
    assert_eq!(pack_tray("x", vec![ValueList::new(); 3]), Ok(vec![0; 3]));
}

#[test]
fn lists_come_in_every_form() {
    let owned = vec![values([1]), values([2])];
    let lent: Vec<&Values> = owned.iter().map(|list| &**list).collect();
    assert_eq!(pack_tray("b", &owned), Ok(vec![1, 2]));
    assert_eq!(pack_tray("b", owned.iter().rev()), Ok(vec![2, 1]));
    assert_eq!(pack_tray("b", &lent), Ok(vec![1, 2]));
    assert_eq!(pack_tray("b", lent), Ok(vec![1, 2]));
    assert_eq!(pack_tray("b", owned.iter().map(|list| Cow::Borrowed(&**list))), Ok(vec![1, 2]));
    assert_eq!(pack_tray(b"b", (3..6).map(|number| values([number]))), Ok(vec![3, 4, 5]));
}

#[test]
fn no_list_gives_no_bytes() {
    for format in ["", "b", "q", "c", "!3", "c9223372036854775807b"] {
        assert_eq!(pack_tray(format, &[] as &[ValueList]), Ok(vec![]), "{format}");
        assert_eq!(pack_tray_into(format, &[] as &[ValueList], &mut []), Ok(0), "{format}");
    }
}

#[test]
fn the_first_refused_record_decides() {
    let (good, large, none, text) = (values([1]), values([200]), ValueList::new(), values(["A"]));
    let lists = |lists: &[&ValueList]| lists.iter().map(|&list| list.clone()).collect::<Vec<_>>();
    refused(1, Some(1), "q", &lists(&[&none]));
    refused(1, Some(1), "b q", &lists(&[&good, &none]));
    refused(11, Some(1), "b q", &lists(&[&none, &good]));
    for place in 1..=3 {
        let mut all = vec![good.clone(); 3];
        all[place - 1] = large.clone();
        assert_eq!(refused(13, Some(place), "i1", &all).value_position(), Some(1));
    }
    refused(13, Some(2), "i1", &lists(&[&good, &large, &none]));
    refused(11, Some(2), "i1", &lists(&[&good, &none, &large]));
    refused(12, Some(4), "i1", &lists(&[&good, &good, &good, &text]));
    refused(9, Some(1), "c9223372036854775807x", &lists(&[&text, &text]));
}

#[test]
fn errors_say_their_record_and_value() {
    let lists = [values([1, 2]), values([3, 200]), values([200, 4])];
    let error = refused(13, Some(2), "<i1 i1", &lists);
    assert_eq!(error.value_position(), Some(2));
    assert_eq!(error.to_string(), "refusal 13 at value 2 of record 2: An integer is out of its option's range.");
    let error = refused(11, Some(1), "bbb", &lists);
    assert_eq!(error.to_string(), "refusal 11 at value 3 of record 1: No value is left, or no pair of text lengths.");
    let error = refused(5, Some(1), "b !3", &lists);
    assert_eq!(error.to_string(), "refusal 5 at record 1: The limit of ! is no power of two.");
    assert_eq!(TrayError::from(error).to_string(), error.to_string());
    let error = pack_tray_into("bb", &lists, &mut [0; 5]).expect_err("six bytes");
    assert_eq!((error.refusal(), error.record_position()), (Some(Refusal::ResultTooLong), None));
    assert_eq!(error.to_string(), "refusal 22: The result is longer than the lent buffer.");
    assert!(error == Refusal::ResultTooLong && error != Refusal::OutOfRange);
}

#[test]
fn huge_trays_do_not_wrap_around() {
    let text = values(["A"]);
    for (format, records) in [
        ("c9223372036854775807", 1..=5),
        ("c4611686018427387904", 4..=4), // 2^64 together
        ("c6148914691236517206", 3..=3), // 2^64 + 2 together
    ] {
        for records in records {
            let mut lists = vec![text.clone(); records];
            refused(22, None, format, &lists);
            lists.push(values([1]));
            refused(12, Some(records + 1), format, &lists);
        }
    }
}

#[test]
fn lists_longer_than_a_run_holds_are_named() {
    let long = vec![b't'; 65_529];
    let longest = values([Value::from(&long), Value::Text(b"")]);
    let mut above = longest.clone();
    above.push(Value::Other).expect("no text");
    assert_eq!((longest.as_bytes().len(), above.as_bytes().len()), (65_535, 65_538));
    let record = pack("z", &longest).expect("a record");
    assert_eq!(pack_tray("z", [&longest, &longest]), Ok([&record[..], &record].concat()));

    assert_eq!(pack_tray("z", [&longest, &above]), Ok([&record[..], &record].concat()), "z takes no third value");
    let error = pack_tray("i1  ", [&values([200]), &longest, &above]).expect_err("list 3 is too long");
    assert_eq!(error, TrayError::ListTooLong { position: 3, length: 65_538 });
    assert_eq!((error.refusal(), error.record_position()), (None, Some(3)));
    let shown = "list 3: 65538 bytes are too long for a tray, whose lists end at 65,535";
    assert_eq!(error.to_string(), shown);
    let mut lent = [0xEE; 3];
    assert_eq!(pack_tray_into("i1  ", [&values([200]), &longest, &above], &mut lent), Err(error));
    assert_eq!(lent, [0xEE; 3]);
}

/// What single calls give: the records, joined, or the first refusal, with its record and its value.
fn one_by_one(format: &str, lists: &[ValueList]) -> Result<Vec<u8>, (Refusal, Option<usize>, Option<usize>)> {
    let mut tray = vec![];
    for (before, list) in lists.iter().enumerate() {
        let named = |error: Error| (error.refusal(), Some(before + 1), error.value_position());
        tray.extend(pack(format, list).map_err(named)?);
    }
    Ok(tray)
}

#[test]
fn trays_equal_single_calls() {
    let mut random = Random(3);
    let (mut accepted, mut refused, mut late) = (0, 0, 0);
    for _ in 0..5000 {
        let items: Vec<&str> = (0..random.below(6)).map(|_| random.choose(&ITEMS)).collect();
        let lists: Vec<_> = (0..random.below(7)).map(|_| suiting(&mut random, &items)).collect();
        let format = items.concat();
        let tray = pack_tray(&format, &lists);
        let named = |error: TrayError| match error {
            TrayError::Refused(error) => (error.refusal(), error.record_position(), error.value_position()),
            other => panic!("{other}"),
        };
        assert_eq!(tray.clone().map_err(named), one_by_one(&format, &lists), "{format} {lists:?}");
        match tray {
            Ok(tray) => {
                accepted += 1;
                rooms(&format, &lists, &tray);
            }
            Err(error) => {
                refused += 1;
                late += usize::from(error.record_position() > Some(1));
                assert_eq!(pack_tray_into(&format, &lists, &mut []), Err(error), "{format} {lists:?}");
            }
        }
    }
    assert!(accepted > 1000 && refused > 1000 && late > 300, "{accepted} accepted, {refused} refused, {late} late");
}

/// A buffer that is exactly long enough, one that is longer, and one that is a byte short.
fn rooms(format: &str, lists: &[ValueList], tray: &[u8]) {
    for more in [0, 1, 7] {
        let mut lent = vec![0xEE; tray.len() + more];
        assert_eq!(pack_tray_into(format, lists, &mut lent), Ok(tray.len()), "{format} {lists:?}");
        assert_eq!((&lent[..tray.len()], &lent[tray.len()..]), (tray, &vec![0xEE; more][..]), "{format} {lists:?}");
    }
    if let Some(short) = tray.len().checked_sub(1) {
        let mut lent = vec![0xEE; short];
        let error = pack_tray_into(format, lists, &mut lent).expect_err("a byte is missing");
        assert_eq!(error, TrayError::from(Error::from(Refusal::ResultTooLong)), "{format} {lists:?}");
        assert_eq!(lent, vec![0xEE; short], "{format} {lists:?}");
    }
}

#[test]
fn long_trays_are_written() {
    let lists: Vec<_> = (0..10_000).map(|number| values([number, number])).collect();
    let tray = pack_tray(">!4 h i", &lists).expect("a tray");
    for (record, list) in tray.chunks(8).zip(&lists) {
        let mut alone = [0; 8];
        assert_eq!(pack_into(">!4 h i", list, &mut alone), Ok(8));
        assert_eq!(record, alone);
    }
    assert_eq!(tray.len(), 80_000);
    assert_eq!(pack_tray("c1000", vec![values(["A"]); 100]).map(|tray| tray.len()), Ok(100_000));
}

unsafe extern "C" {
    fn digribbon_pack_tray(
        format: *const u8,
        format_len: usize,
        run: *const u8,
        run_len: usize,
        tray: *mut u8,
        tray_len: usize,
        place: &mut u64,
        answer: &mut u64,
    ) -> u64;
}

/// No list leads to 23, so this goes past the crate.
#[test]
fn damaged_runs_are_told_before_any_record() {
    let whole = [0, 0, 0, 1, 9, 0, 0]; // an empty list, a malformed one, an empty one
    for end in 0..=whole.len() {
        let (run, mut tray, mut place, mut answer) = (&whole[..end], [0xEE; 4], 7, 7);
        // SAFETY: each slice is lent as its pointer and its length.
        let number = unsafe {
            digribbon_pack_tray(
                c"q".as_ptr().cast(),
                1,
                run.as_ptr(),
                end,
                tray.as_mut_ptr(),
                4,
                &mut place,
                &mut answer,
            )
        };
        let expected = match end {
            0 => (0, 0, 0),
            2 | 5 | 7 => (1, 1, 7),
            _ => (Refusal::DamagedRun.number(), 0, 7),
        };
        assert_eq!((number, place, answer), expected, "{run:?}");
        assert_eq!(tray, [0xEE; 4]);
    }
}
