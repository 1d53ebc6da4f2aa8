//! Continued writing: parts give what the whole gives, and a refusal names the value that it is about.

mod random;

use digribbon::{Cause, Error, Order, Refusal, State, ValueList, Values, Writer, pack, pack_into};
use random::{ITEMS, Random, suiting};

unsafe extern "C" {
    fn digribbon_pack(
        format: *const u8,
        format_len: usize,
        list: *const u8,
        list_len: usize,
        record: *mut u8,
        record_len: usize,
        answer: &mut u64,
    ) -> u64;
}

/// The library's plain writing, which is lent all values, or its refusal's number.
fn plainly_written(format: &str, values: &Values) -> Result<Vec<u8>, u64> {
    let (list, mut record, mut length) = (values.as_bytes(), vec![0; 10_000], 0);
    let (format, room) = (format.as_bytes(), record.as_mut_ptr());
    // SAFETY: each slice is lent as its pointer and its length.
    let number = unsafe {
        digribbon_pack(format.as_ptr(), format.len(), list.as_ptr(), list.len(), room, record.len(), &mut length)
    };
    record.truncate(length as usize);
    if number == 0 { Ok(record) } else { Err(number) }
}

/// A record, its state, and how many values it used; or the refusal of a part, how many values the parts before it
/// used, and the position that it names.
type Written = Result<(Vec<u8>, State, usize), (Refusal, usize, Option<usize>)>;

fn written<'a>(parts: impl IntoIterator<Item = &'a str>, values: &ValueList) -> Written {
    let (mut writer, mut record, mut rest, mut used) = (Writer::new(), Vec::new(), &**values, 0);
    for part in parts {
        let state = writer.state();
        let done = writer
            .write(part, rest, &mut record)
            .map_err(|error: Error| (error.refusal(), used, error.value_position()))?;
        assert_eq!(state.length + done.written as u64, writer.state().length);
        assert_eq!((rest.len() - done.used, done.rest), (done.rest.len(), rest.after(done.used)));
        (rest, used) = (done.rest, used + done.used);
    }
    Ok((record, writer.state(), used))
}

/// The items, joined to parts at random places.
fn cut(random: &mut Random, items: &[&str]) -> Vec<String> {
    let mut parts = vec![String::new()];
    for item in items {
        if random.below(4) == 0 {
            parts.push(String::new());
        }
        parts.last_mut().expect("one is there").push_str(item);
    }
    parts
}

#[test]
fn parts_give_the_whole() {
    let mut random = Random(1);
    let (mut accepted, mut refused) = (0, 0);
    for round in 0..3000 {
        let items: Vec<&str> = (0..random.below(16)).map(|_| random.choose(&ITEMS)).collect();
        let mut values = suiting(&mut random, &items);
        for _ in 0..if round % 2 == 0 { 0 } else { 200 } {
            values.push(5).expect("an integer"); // such a list is not lent whole
        }
        let whole = pack(items.concat(), &values);
        assert_eq!(whole.clone().map_err(Error::number), plainly_written(&items.concat(), &values), "{items:?}");
        let one_by_one = written(items.iter().copied(), &values);
        let parts = cut(&mut random, &items);
        let in_parts = written(parts.iter().map(String::as_str), &values);
        match whole {
            Ok(record) => {
                accepted += 1;
                assert_eq!(one_by_one.as_ref().map(|(record, ..)| record), Ok(&record), "{items:?} {values:?}");
                assert_eq!(in_parts, one_by_one, "{parts:?} {values:?}");
            }
            Err(error) => {
                refused += 1;
                let (refusal, used, _) = one_by_one.expect_err("an item is refused");
                let position = (refusal.cause() == Cause::Supplier).then_some(used + 1);
                assert_eq!((error.refusal(), error.value_position()), (refusal, position), "{items:?} {values:?}");
                assert_eq!(pack_into(items.concat(), &values, &mut []), Err(error), "{items:?} {values:?}");
                let (refusal, used, in_part) = in_parts.expect_err("a part is refused");
                let position = in_part.map(|position| used + position);
                assert_eq!((error.refusal(), error.value_position()), (refusal, position), "{parts:?} {values:?}");
            }
        }
    }
    assert!(accepted > 300 && refused > 300, "{accepted} accepted, {refused} refused");
}

#[test]
fn refusals_name_their_value() {
    let many = |count: usize| ValueList::from_values(vec![1; count]).expect("integers");
    let missing = pack("b".repeat(1000), &many(999)).expect_err("a value is missing");
    assert_eq!((missing.refusal(), missing.value_position()), (Refusal::NoValueLeft, Some(1000)));
    for position in [1, 2, 3, 499, 500, 501, 999, 1000] {
        let mut values = many(position - 1);
        values.push(200).expect("an integer");
        (0..5000).for_each(|_| values.push("text").expect("a short text"));
        let error = pack("i1".repeat(1000), &values).expect_err("200 is too large");
        assert_eq!((error.refusal(), error.value_position()), (Refusal::OutOfRange, Some(position)));
        let shown = format!("refusal 13 at value {position}: An integer is out of its option's range.");
        assert_eq!(error.to_string(), shown);
    }
}

#[test]
fn other_refusals_name_none() {
    let values = ValueList::from_values([1, 2, 3]).expect("integers");
    for format in ["bq", "b!3", "bXz", "bc", "bc9223372036854775807"] {
        let error = pack(format, &values).expect_err(format);
        assert_eq!((error.cause(), error.value_position()), (Cause::Author, None), "{format}");
    }
    let error = pack_into("bb", &values, &mut [0]).expect_err("two bytes");
    assert_eq!((error.refusal(), error.value_position()), (Refusal::ResultTooLong, None));
}

#[test]
fn slices_take_parts_as_vectors_do() {
    let mut random = Random(2);
    for _ in 0..1000 {
        let items: Vec<&str> = (0..random.below(16)).map(|_| random.choose(&ITEMS)).collect();
        let values = suiting(&mut random, &items);
        let parts = cut(&mut random, &items);
        let Ok((record, state, _)) = written(parts.iter().map(String::as_str), &values) else { continue };
        let mut chip = vec![0xEE; record.len() + 1];
        let (mut writer, mut rest, mut at) = (Writer::new(), &*values, 0);
        for part in &parts {
            let done = writer.write_into(part, rest, &mut chip[at..record.len()]).expect("a part");
            (rest, at) = (done.rest, at + done.written);
        }
        assert_eq!((&chip[..at], chip[at], writer.state()), (&record[..], 0xEE, state), "{parts:?}");
    }
}

#[test]
fn writers_go_on_from_a_state() {
    let values = ValueList::from_values([1, 2]).expect("integers");
    let mut record = vec![];
    let mut writer = Writer::from(State::new(Order::Big, 4, 1));
    let part = writer.write("h i", &values, &mut record).expect("two integers");
    assert_eq!((part.written, part.used, part.items, part.rest.len()), (7, 2, 2, 0));
    assert_eq!(record, [0, 0, 1, 0, 0, 0, 2]);
    assert_eq!(writer.state(), State::new(Order::Big, 4, 8));
    assert_eq!(Writer::new().state(), State::new(Order::Little, 1, 0));
}
