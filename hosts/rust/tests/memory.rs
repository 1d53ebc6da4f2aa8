//! How much memory the calls take, keep and can do without, by an allocator that counts and that refuses.

use digribbon::{
    Refusal, ValueList, Values, Writer, list_bound, pack, pack_into, pack_tray, pack_tray_into, packsize,
    packsize_range, unpack, unpack_into,
};
use std::alloc::{GlobalAlloc, Layout, System};
use std::cell::Cell;
use std::{iter, ptr};

/// What a thread's blocks come to, and what it may have.
#[derive(Clone, Copy)]
struct Memory {
    /// Below 0 where a thread frees what another one made.
    held: isize,
    /// How many blocks were asked for.
    asked: usize,
    largest_block: usize,
    /// For all blocks together.
    limit: isize,
}

thread_local! {
    static MEMORY: Cell<Memory> =
        const { Cell::new(Memory { held: 0, asked: 0, largest_block: usize::MAX, limit: isize::MAX }) };
}

/// Moves a block to shrink or grow it, so that both blocks are held meanwhile: `realloc` is the default one.
struct Counting;

// SAFETY: blocks are the system's, or null.
unsafe impl GlobalAlloc for Counting {
    unsafe fn alloc(&self, layout: Layout) -> *mut u8 {
        let mut memory = MEMORY.get();
        memory.asked += 1;
        let held = memory.held.saturating_add_unsigned(layout.size());
        if layout.size() > memory.largest_block || held > memory.limit {
            MEMORY.set(memory);
            return ptr::null_mut();
        }
        let block = unsafe { System.alloc(layout) };
        if !block.is_null() {
            memory.held = held;
        }
        MEMORY.set(memory);
        block
    }

    unsafe fn dealloc(&self, block: *mut u8, layout: Layout) {
        let mut memory = MEMORY.get();
        memory.held = memory.held.saturating_sub_unsigned(layout.size());
        MEMORY.set(memory);
        unsafe { System.dealloc(block, layout) };
    }
}

#[global_allocator]
static COUNTING: Counting = Counting;

/// What `work` gives, and how much more memory is held after it.
fn held_by<T>(work: impl FnOnce() -> T) -> (T, usize) {
    let before = MEMORY.get().held;
    let result = work();
    (result, (MEMORY.get().held - before).try_into().expect("no less memory is held"))
}

/// What `work` gives, and how many blocks it asks for.
fn asked_by<T>(work: impl FnOnce() -> T) -> (T, usize) {
    let before = MEMORY.get().asked;
    let result = work();
    (result, MEMORY.get().asked - before)
}

/// Runs `work` where no block is longer.
fn with_blocks_up_to<T>(largest_block: usize, work: impl FnOnce() -> T) -> T {
    MEMORY.set(Memory { largest_block, ..MEMORY.get() });
    let result = work();
    MEMORY.set(Memory { largest_block: usize::MAX, ..MEMORY.get() });
    result
}

/// Runs `work` where all blocks together may be so much longer than now.
fn with_memory_of<T>(bytes: usize, work: impl FnOnce() -> T) -> T {
    MEMORY.set(Memory { limit: MEMORY.get().held.saturating_add_unsigned(bytes), ..MEMORY.get() });
    let result = work();
    MEMORY.set(Memory { limit: isize::MAX, ..MEMORY.get() });
    result
}

fn texts(length: usize, count: usize) -> ValueList {
    let text = vec![b't'; length];
    ValueList::from_values((0..count).map(|_| &text[..])).expect("short texts")
}

fn integers(count: i64) -> ValueList {
    ValueList::from_values(0..count).expect("integers")
}

/// Formats, values for them, and how long the record is: on and around what fits the stack, and far beyond it.
fn records() -> Vec<(String, ValueList, usize)> {
    let mut records = vec![
        (String::new(), integers(5), 0),
        ("b".into(), integers(100_000), 1),
        ("z".into(), texts(0, 100_000), 1),
        ("c100000".into(), texts(1, 1), 100_000),
        ("c5000000 z s1".into(), texts(3, 1000), 5_000_008),
        ("!16 x i16".into(), integers(1), 32),
        ("b".repeat(5000), integers(90_000), 5000),
        ("i16".repeat(3000), integers(3000), 48_000),
        ("c9999".repeat(300), texts(0, 300), 2_999_700),
        ("x".repeat(100), texts(9, 1000), 100),
    ];
    for length in [2045, 2046, 2047, 5000, 65_535] {
        records.push(("s2".into(), texts(length, 100), length + 2));
    }
    records
}

/// Formats, data, and how long the list is.
fn readings() -> Vec<(String, Vec<u8>, usize)> {
    let mut readings = vec![
        (String::new(), vec![0; 5], 0),
        ("z".into(), vec![0; 1 << 20], 3),
        ("b".into(), vec![0; 1 << 20], 11),
        ("B".repeat(5000), vec![7; 5000], 55_000),
        ("z".repeat(5000), vec![0; 1 << 20], 15_000),
        ("c65535".into(), vec![7; 1 << 20], 65_538),
    ];
    for length in [2044, 2045, 2046, 5000] {
        readings.push((format!("c{length}"), vec![7; 1 << 20], 3 + length));
    }
    readings
}

fn is_too_long<T, E: PartialEq<Refusal>>(result: Result<T, E>) -> bool {
    result.is_err_and(|error| error == Refusal::ResultTooLong)
}

#[test]
fn results_hold_what_they_need() {
    let data = vec![0; 1 << 20];
    let mut lists = Vec::with_capacity(1000);
    let ((), held) = held_by(|| lists.extend((0..1000).map(|_| unpack("z", &data, 1).expect("an empty text"))));
    assert_eq!((held, lists.len()), (3000, 1000));

    for (format, values, length) in records() {
        let (record, held) = held_by(|| pack(&format, &values).expect("a record"));
        assert_eq!((record.len(), held), (length, length), "{} bytes of format", format.len());
    }
    for (format, data, length) in readings() {
        let ((list, _), held) = held_by(|| unpack(&format, &data, 1).expect("a list"));
        assert_eq!((list.as_bytes().len(), held), (length, length), "{} bytes of format", format.len());
    }
}

#[test]
fn records_of_parts_hold_at_most_twice_what_they_need() {
    let values = texts(3000, 1000);
    let (mut writer, mut record, mut rest) = (Writer::new(), Vec::new(), &*values);
    let ((), asked) = asked_by(|| {
        for part in ["s1c5000", "bbb", "s2", "c4"].iter().cycle().take(1000) {
            let before = record.capacity();
            match writer.write(part, rest, &mut record) {
                Ok(part) => rest = part.rest,
                Err(_) => assert_eq!(record.capacity(), before),
            }
            assert!(record.capacity() <= record.len().max(2 * before), "{} of {}", record.len(), record.capacity());
        }
    });
    assert_eq!(record.len(), 250 * 3002);
    assert!(asked < 100, "{asked} blocks were asked for");
}

#[test]
fn results_need_no_block_longer_than_themselves() {
    for (format, values, length) in records() {
        let record = with_blocks_up_to(length, || pack(&format, &values));
        assert_eq!(record.expect("a record").len(), length);
        assert!(length == 0 || with_blocks_up_to(length - 1, || is_too_long(pack(&format, &values))));
    }
    for (format, data, length) in readings() {
        let list = with_blocks_up_to(length, || unpack(&format, &data, 1));
        assert_eq!(list.expect("a list").0.as_bytes().len(), length);
        assert!(length == 0 || with_blocks_up_to(length - 1, || is_too_long(unpack(&format, &data, 1))));
    }
}

#[test]
fn results_need_no_more_memory_than_their_own() {
    for (format, values, length) in records() {
        let record = with_memory_of(length, || pack(&format, &values));
        assert_eq!(record.expect("a record").len(), length);
        assert!(length == 0 || with_memory_of(length - 1, || is_too_long(pack(&format, &values))));
    }
    for (format, data, length) in readings() {
        let list = with_memory_of(length, || unpack(&format, &data, 1));
        assert_eq!(list.expect("a list").0.as_bytes().len(), length);
        assert!(length == 0 || with_memory_of(length - 1, || is_too_long(unpack(&format, &data, 1))));
    }
}

/// Formats, lists for them, and how long the tray is.
fn trays() -> [(&'static str, Vec<ValueList>, usize); 4] {
    [
        ("b", vec![integers(1); 3], 3),
        ("s2", vec![texts(3, 1); 1000], 5000),
        ("c5000", vec![texts(3, 1); 300], 1_500_000),
        ("<!8 b j", vec![integers(2); 500], 8000),
    ]
}

#[test]
fn trays_hold_what_they_need() {
    for (format, lists, length) in trays() {
        let (tray, held) = held_by(|| pack_tray(format, &lists).expect("a tray"));
        assert_eq!((tray.len(), held), (length, length), "{format}");
        let (number, held) = held_by(|| pack_tray("!3", &lists).expect_err("3 is no limit").refusal());
        assert_eq!((number, held), (Some(Refusal::LimitNoPower), 0), "{format}");
    }
}

/// While a tray is written, there is a copy of its lists, which grows as vectors do.
#[test]
fn trays_need_memory_for_their_lists_too() {
    for (format, lists, length) in trays() {
        let copy = lists.iter().map(|list| 2 + list.as_bytes().len()).sum::<usize>();
        let tray = with_memory_of(3 * copy + length, || pack_tray(format, &lists));
        assert_eq!(tray.map(|tray| tray.len()), Ok(length), "{format}");
        for memory in [0, 1, copy - 1, copy + length - 1] {
            assert!(with_memory_of(memory, || is_too_long(pack_tray(format, &lists))), "{format} {memory}");
        }
        let mut chip = vec![0; length];
        assert_eq!(with_memory_of(3 * copy, || pack_tray_into(format, &lists, &mut chip)), Ok(length), "{format}");
        let (nothing, asked) = asked_by(|| pack_tray_into(format, &lists[..0], &mut chip));
        assert_eq!((nothing, asked), (Ok(0), 0), "{format}");
    }
}

/// There is a copy of the ranges, four bytes for each, which grows as vectors do. More than the format takes are not
/// looked at.
#[test]
fn ranges_need_memory_for_a_copy() {
    let (format, ranges) = ("z".repeat(1000), || iter::repeat(0..=20));
    let (lengths, held) = held_by(|| packsize_range(&format, ranges()));
    assert_eq!((lengths, held), (Ok(1000..=21_000), 0));
    assert_eq!(with_memory_of(3 * 4000, || packsize_range(&format, ranges())), Ok(1000..=21_000));
    for memory in [0, 1, 3999] {
        assert!(with_memory_of(memory, || is_too_long(packsize_range(&format, ranges()))), "{memory}");
    }
    assert_eq!(with_memory_of(64, || packsize_range("b", ranges())), Ok(1..=1));
    let (nothing, asked) = asked_by(|| packsize_range("<!8bn", ranges().take(0)));
    assert_eq!((nothing, asked), (Ok(16..=16), 0));
}

/// Where a longer block can be had but not a copy of what is in it, the longer one is kept.
#[test]
fn results_need_no_memory_to_give_back() {
    for (format, values, length) in records() {
        let record = with_memory_of(length + length / 2, || pack(&format, &values));
        assert_eq!(record.expect("a record").len(), length);
    }
    for (format, data, length) in readings() {
        let list = with_memory_of(length + length / 2, || unpack(&format, &data, 1));
        assert_eq!(list.expect("a list").0.as_bytes().len(), length);
    }
}

#[test]
fn parts_need_no_block_longer_than_the_record() {
    for (format, values, length) in records() {
        let mut record = vec![7; 3000];
        let part = with_blocks_up_to(3000 + length, || Writer::new().write(&format, &values, &mut record).map(|_| ()));
        assert_eq!((part, record.len()), (Ok(()), 3000 + length));

        let mut record = vec![7; 3000];
        let part = with_blocks_up_to((3000 + length).saturating_sub(1), || {
            Writer::new().write(&format, &values, &mut record).map(|_| ())
        });
        assert!(length == 0 || is_too_long(part));
        assert!(length == 0 || (record.capacity() == 3000 && record == [7; 3000]));
    }
}

#[test]
fn spare_memory_is_used_first() {
    for (format, values, length) in records() {
        let mut record = Vec::with_capacity(length + 4096);
        let (part, asked) = asked_by(|| Writer::new().write(&format, &values, &mut record).map(|_| ()));
        assert_eq!((part, record.len(), asked), (Ok(()), length, 0));
    }
}

#[test]
fn refusals_do_not_depend_on_memory() {
    let values = ValueList::from_values(["A", "B"]).expect("texts");
    let refused = ["c9223372036854775807q", "c5000000b", "!3", &"c5".repeat(1000), &"q".repeat(1000)];
    let numbers = |format: &str| pack(format, &values).map(|_| ()).map_err(|error| error.number());
    for format in refused {
        let (number, held) = held_by(|| numbers(format));
        assert!(number.is_err_and(|number| number != 22) && held == 0, "{format}");
        assert_eq!(with_blocks_up_to(0, || numbers(format)), number, "{format}");
    }
}

#[test]
fn lent_buffers_are_all_that_is_used() {
    let (values, mut chip) = (integers(1000), vec![0; 100_000]);
    let ((), asked) = asked_by(|| {
        assert_eq!(packsize("c2000000000"), Ok(2_000_000_000));
        assert_eq!(list_bound("z", 100), Ok(103));
        assert_eq!(pack_into("<i4 b", &values, &mut chip), Ok(5));
        assert!(is_too_long(pack_into("c2000000000z", two_empty_texts(), &mut chip)));
        assert!(pack_into("i1 z", &values, &mut chip).is_err_and(|error| error.value_position() == Some(2)));
        assert_eq!(Writer::new().write_into("<i4 b", &values, &mut chip).map(|part| part.written), Ok(5));
        assert_eq!(unpack_into("z", b"A\0", 1, &mut chip).map(|(list, _)| list.len()), Ok(1));
    });
    assert_eq!(asked, 0);
}

/// In no memory of its own.
fn two_empty_texts() -> &'static Values {
    Values::from_bytes(&[3, 0, 0, 3, 0, 0]).expect("two empty texts")
}
