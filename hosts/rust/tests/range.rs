//! Record lengths before the texts are known: lengths worked out by hand, what is refused at which pair, and records of
//! texts within.

#[allow(dead_code)]
mod random;

use digribbon::{Refusal, Value, ValueList, pack, packsize, packsize_range};
use random::{ITEMS, Random};
use std::iter;
use std::ops::RangeInclusive;

const NONE: [RangeInclusive<u16>; 0] = [];
const LARGEST: u64 = i64::MAX as u64;

/// A range from which no length can be taken.
fn reversed(least: u16, greatest: u16) -> RangeInclusive<u16> {
    assert!(least > greatest);
    RangeInclusive::new(least, greatest)
}

/// The refusal's number, and the pair that it is about.
fn refused(format: &str, lengths: impl IntoIterator<Item = RangeInclusive<u16>>) -> (u64, Option<usize>) {
    let error = packsize_range(format, lengths).expect_err(format);
    assert_eq!((error.value_position(), error.record_position()), (None, None), "{format}");
    (error.number(), error.pair_position())
}

#[test]
fn texts_count_with_their_zero_and_their_length() {
    assert_eq!(packsize_range("z", [0..=0]), Ok(1..=1));
    assert_eq!(packsize_range("z", [0..=20]), Ok(1..=21));
    assert_eq!(packsize_range("z", [1..=256]), Ok(2..=257));
    assert_eq!(packsize_range("z", [0..=65_535]), Ok(1..=65_536));
    assert_eq!(packsize_range("s1", [0..=255]), Ok(1..=256));
    assert_eq!(packsize_range("s", [0..=3]), Ok(8..=11));
    assert_eq!(packsize_range("s16", [0..=65_535]), Ok(16..=65_551));
    assert_eq!(packsize_range("zs1", [1..=2, 10..=20]), Ok(13..=24));
    assert_eq!(packsize_range("zs1", [0..=256, 0..=255]), Ok(2..=513));
}

#[test]
fn padding_goes_by_the_length_so_far() {
    assert_eq!(packsize_range("b s4", [0..=1]), Ok(5..=6));
    assert_eq!(packsize_range("<!4 b s4", [0..=1]), Ok(8..=9));
    assert_eq!(packsize_range("<!2 b s4", [0..=1]), Ok(6..=7));
    assert_eq!(packsize_range("!2 s2 s2", [0..=1, 0..=1]), Ok(4..=7));
    assert_eq!(packsize_range("!4 z i", [0..=3]), Ok(8..=8));
    assert_eq!(packsize_range("!4 z i", [0..=4]), Ok(8..=12));
    assert_eq!(packsize_range("!8 z d z", [0..=8, 2..=3]), Ok(19..=28));
}

#[test]
fn ranges_come_in_every_form() {
    let owned = vec![0..=3, 1..=2];
    assert_eq!(packsize_range("zz", &owned), Ok(3..=7));
    assert_eq!(packsize_range(b"zz", owned.iter().rev()), Ok(3..=7));
    assert_eq!(packsize_range("zz", owned), Ok(3..=7));
    assert_eq!(packsize_range("z b z", (1..3).map(|length| length..=length)), Ok(6..=6));
    assert_eq!(packsize_range("zzz", iter::repeat(0..=20)), Ok(3..=63), "a range for every text");
    assert_eq!(packsize_range("", iter::repeat(0..=20)), Ok(0..=0));
}

#[test]
fn ranges_that_are_left_over_are_ignored() {
    for format in ["", "b", "<!8bn", "c9223372036854775807"] {
        let length = packsize(format).expect(format);
        assert_eq!(packsize_range(format, NONE), Ok(length..=length), "{format}");
        assert_eq!(packsize_range(format, [reversed(5, 1)]), Ok(length..=length), "{format}");
        assert_eq!(packsize_range(format, vec![reversed(5, 1); 50]), Ok(length..=length), "{format}");
    }
    assert_eq!(packsize_range("z  ", [0..=1, reversed(1, 0)]), Ok(1..=2));
}

#[test]
fn format_refusals_come() {
    let formats = ["q", "c18446744073709551616", "s17", "!17", "!3", "!4s3", "Xz", "c", "c9223372036854775807b"];
    for (number, format) in (1..).zip(formats) {
        assert_eq!(refused(format, NONE), (number, None), "{format}");
        assert_eq!(refused(format, [0..=1]), (number, None), "{format}");
        assert_eq!(refused(format, [reversed(3, 2)]), (number, None), "{format}");
    }
    assert_eq!(refused("c9223372036854775807bq", NONE), (9, None));
    assert_eq!(refused("bq", NONE), (1, None));
    assert_eq!(refused("zq", [0..=1, reversed(1, 0)]), (1, None));
}

/// At an item 11, 27, 15 and 9 come in this order, and every item is checked before the next.
#[test]
fn range_refusals_come() {
    assert_eq!(refused("z", NONE), (11, Some(1)));
    assert_eq!(refused("zq", NONE), (11, Some(1)));
    assert_eq!(refused("zz", [0..=1]), (11, Some(2)));
    assert_eq!(refused("c9223372036854775807z", NONE), (11, Some(1)));
    assert_eq!(refused("z", [reversed(3, 2)]), (27, Some(1)));
    assert_eq!(refused("z", [reversed(256, 255)]), (27, Some(1)));
    assert_eq!(refused("zz", [reversed(1, 0)]), (27, Some(1)));
    assert_eq!(refused("zz", [0..=1, reversed(1, 0)]), (27, Some(2)));
    assert_eq!(refused("s1", [reversed(257, 256)]), (27, Some(1)));
    assert_eq!(refused("c9223372036854775807z", [reversed(1, 0)]), (27, Some(1)));
    assert_eq!(refused("s1", [0..=256]), (15, Some(1)));
    assert_eq!(refused("s1z", [0..=256, reversed(1, 0)]), (15, Some(1)));
    assert_eq!(refused("zs1", [0..=255, 0..=256]), (15, Some(2)));
    assert_eq!(refused("c9223372036854775807s1", [0..=256]), (15, Some(1)));
    assert_eq!(refused("c9223372036854775807s1", [0..=255]), (9, None));
    assert_eq!(refused("c9223372036854775806z", [0..=1]), (9, None));
    assert_eq!(packsize_range("c9223372036854775806z", [0..=0]), Ok(LARGEST..=LARGEST));
    assert_eq!(packsize_range("c9223372036854710271z", [0..=65_535]), Ok(LARGEST - 65_535..=LARGEST));
}

#[test]
fn pairs_are_named_whatever_stands_around_them() {
    assert_eq!(refused("<!4 b z x s1 zz", [0..=9, 0..=9, 0..=9]), (11, Some(4)));
    assert_eq!(refused("<!4 b z x s1 zz", [0..=9, 0..=9, reversed(2, 1)]), (27, Some(3)));
    assert_eq!(refused("<!4 b z x s1 zz", [0..=256, 0..=256, 0..=9]), (15, Some(2)));
    assert_eq!(refused("zs1zz", [0..=1, 0..=256, reversed(1, 0), reversed(1, 0)]), (15, Some(2)));
    assert_eq!(refused("zzzz", iter::once(0..=1).chain(iter::repeat(reversed(1, 0)))), (27, Some(2)));
    assert_eq!(refused("s1  c9", vec![0..=256; 50]), (15, Some(1)));
}

#[test]
fn pairs_are_named_among_many() {
    for count in [0, 1, 2, 256, 299] {
        assert_eq!(refused(&"z".repeat(300), vec![0..=1; count]), (11, Some(count + 1)));
    }
    for position in [1, 2, 149, 150, 151, 256, 257, 299, 300] {
        let mut lengths = vec![0..=1; 300];
        lengths[position - 1] = reversed(1, 0);
        assert_eq!(refused(&"z".repeat(300), lengths.clone()), (27, Some(position)));
        assert_eq!(refused(&"z".repeat(1000), lengths.clone()), (27, Some(position)), "more texts than pairs");
        lengths[position - 1] = 0..=256;
        assert_eq!(refused(&"s1".repeat(300), lengths), (15, Some(position)));
    }
}

#[test]
fn errors_say_their_pair() {
    let error = packsize_range("zz", [0..=1, reversed(3, 2)]).expect_err("3 is above 2");
    assert_eq!(error.to_string(), "refusal 27 at pair 2: A least text length is above its greatest.");
    let error = packsize_range("z", NONE).expect_err("no pair");
    assert_eq!(error.to_string(), "refusal 11 at pair 1: No value is left, or no pair of text lengths.");
    let error = packsize_range("b!3", NONE).expect_err("3 is no power of two");
    assert_eq!(error.to_string(), "refusal 5: The limit of ! is no power of two.");
    let error = pack("z", &ValueList::new()).expect_err("no value");
    assert_eq!((error.value_position(), error.pair_position()), (Some(1), None));
}

const TEXT_ITEMS: [&str; 5] = ["z", "s1", "s", "s2", "s3"];

fn some_item(random: &mut Random) -> &'static str {
    if random.below(2) == 0 { random.choose(&TEXT_ITEMS) } else { random.choose(&ITEMS) }
}

fn some_range(random: &mut Random) -> RangeInclusive<u16> {
    let least = random.below(20) as u16;
    match random.below(20) {
        0 => reversed(least + 1, least),
        1 => least..=256,
        _ => least..=least + random.below(20) as u16,
    }
}

fn takes_value(item: &str) -> bool {
    !item.starts_with(['x', 'X', '<', '>', '!', ' '])
}

/// Which pair belongs to the text that is this value, from 1.
fn pair_of_value(items: &[&str], value: usize) -> usize {
    let takers = items.iter().filter(|item| takes_value(item));
    takers.take(value).filter(|item| item.starts_with(['z', 's'])).count()
}

/// For three records, values that suit the items: the texts have the least lengths, some between, the greatest. The
/// lists end before the first text whose range is missing or reversed.
fn three_lists(random: &mut Random, items: &[&str], lengths: &[RangeInclusive<u16>]) -> [ValueList; 3] {
    let (mut lists, mut lengths, text) = ([(); 3].map(|()| ValueList::new()), lengths.iter(), [b't'; 256]);
    for item in items.iter().filter(|item| takes_value(item)) {
        let values = match item.as_bytes()[0] {
            b'z' | b's' => match lengths.next() {
                Some(range) if !range.is_empty() => {
                    let (least, greatest) = (usize::from(*range.start()), usize::from(*range.end()));
                    let between = least + random.below(greatest - least + 1);
                    [least, between, greatest].map(|length| Value::Text(&text[..length]))
                }
                _ => break,
            },
            b'c' => [Value::Text(b""); 3],
            _ => [Value::Integer(1); 3],
        };
        for (list, value) in lists.iter_mut().zip(values) {
            list.push(value).expect("a short text");
        }
    }
    lists
}

/// What is expected of a range comes from records that are written, or from why they can't be.
#[test]
fn records_lie_between_and_both_lengths_are_reached() {
    let (mut random, mut seen) = (Random(5), [0; 28]);
    for _ in 0..20_000 {
        let items: Vec<&str> = (0..random.below(6)).map(|_| some_item(&mut random)).collect();
        let lengths: Vec<_> = (0..random.below(6)).map(|_| some_range(&mut random)).collect();
        let format = items.concat();
        let records = three_lists(&mut random, &items, &lengths).map(|list| pack(&format, &list));
        let expected = match records.map(|record| record.map(|record| record.len() as u64)) {
            [Ok(least), Ok(between), Ok(greatest)] => {
                assert!((least..=greatest).contains(&between), "{format} {lengths:?}");
                Ok(least..=greatest)
            }
            [_, _, result] => {
                let error = result.expect_err("longer texts than were refused");
                let is_reversed = error == Refusal::NoValueLeft && lengths.iter().any(RangeInclusive::is_empty);
                let refusal = if is_reversed { Refusal::LeastAboveGreatest } else { error.refusal() };
                Err((refusal, error.value_position().map(|value| pair_of_value(&items, value))))
            }
        };
        let answer = packsize_range(&format, &lengths).map_err(|error| (error.refusal(), error.pair_position()));
        assert_eq!(answer, expected, "{format} {lengths:?}");
        seen[expected.err().map_or(0, |(refusal, _)| refusal.number()) as usize] += 1;
    }
    assert!([0, 6, 11, 15, 27].iter().all(|&number: &usize| seen[number] > 50), "{seen:?}");
}
