//! The original's answers to a fixed list of calls, as the text that our program `conformance` reads: its src/recorded.rt
//! begins with their form, its src/reader.rt with that of bytes.
//!
//! A replay compares refusals only as refusals, those of trays by their place, and those of ranges by their number. No case has a
//! NaN from reading f, so all else is the same to the bit.

use crate::domain::{self, Verdict};
use crate::r#gen::{self, Random, Use};
use crate::items::items;
use crate::original::{Original, Outcome};
use crate::prefixes::{self, Answered};
use crate::range::{self, as_pairs};
use crate::read::some_readings;
use crate::report::Named;
use crate::tray::{self, Stop, Tray, as_run};
use crate::value::{Value, decode, encode};
use crate::write::Written;
use std::collections::{BTreeSet, HashSet};
use std::fs;
use std::process::ExitCode;
use std::slice;

const HEADER: &str = "\
# Recorded answers of the original, crates/luars/src/stdlib/string/pack.rs of lua-rs, unchanged.
# Made by: compare/run record FILE, then tools/section r <FILE
";

pub fn run(path: &str) -> ExitCode {
    let mut recording = Recording { text: HEADER.to_string(), ..Recording::default() };
    measured(&mut recording);
    written(&mut recording);
    read(&mut recording);
    trays(&mut recording);
    prefixed(&mut recording);
    ranges(&mut recording);
    for (call, unmeasured) in [("m", "zs"), ("w", ""), ("r", "")] {
        let lacks =
            |option: &char| !recording.options.contains(&(call, *option as u8)) && !unmeasured.contains(*option);
        let missing: Vec<char> = OPTIONS.chars().filter(lacks).collect();
        assert!(missing.is_empty(), "an accepted case of {call} has each option, but not {missing:?}");
    }
    if let Err(why) = fs::write(path, &recording.text) {
        eprintln!("compare: {path} can't be written: {why}");
        return ExitCode::FAILURE;
    }
    println!("{path}: {} cases, {} accepted", recording.lines.len(), recording.accepted);
    ExitCode::SUCCESS
}

/// The marks of an answer, and of a refusal.
const ACCEPTED: &str = "=";
const REFUSED: &str = "!";

const OPTIONS: &str = "bBhHiIlLjJTfdnczsxX<>=! ";

/// The longest run of bytes in a case: the buffers of the program are longer, so that it sees bytes behind a result.
const LONGEST: usize = 400;

/// The cases so far, each once, and the options that stand in an accepted one of each call.
#[derive(Default)]
struct Recording {
    original: Original,
    text: String,
    lines: HashSet<String>,
    accepted: usize,
    options: BTreeSet<(&'static str, u8)>,
}

impl Recording {
    fn group(&mut self, name: &str) {
        self.text += &format!("# {name}\n");
    }

    /// The parts of the answer stand behind its mark, apart by /; a refused tray has its place as the second.
    fn add(&mut self, call: &'static str, format: &[u8], arguments: &[String], mark: &str, answer: &[String]) {
        let text = text_of(format);
        let mut words = vec![call, &text];
        words.extend(arguments.iter().flat_map(|argument| ["/", argument]));
        words.push(mark);
        words.extend(answer.iter().enumerate().flat_map(|(i, part)| [if i > 0 { "/" } else { "" }, part]));
        words.retain(|word| !word.is_empty());
        let line = words.join(" ");
        if !self.lines.insert(line.clone()) {
            return;
        }
        self.text += &format!("{line}\n");
        if mark == ACCEPTED {
            self.accepted += 1;
            self.options.extend(items(format).iter().map(|item| (call, item.option)));
        }
    }

    fn measure(&mut self, format: &[u8]) {
        if format.len() > LONGEST || !matches!(domain::measuring(&mut self.original, format), Verdict::Inside) {
            return;
        }
        match self.original.packsize(format) {
            Outcome::Accepted(size) => self.add("m", format, &[], ACCEPTED, &[size.to_string()]),
            Outcome::Refused => self.add("m", format, &[], REFUSED, &[]),
            Outcome::Panicked => {}
        }
    }

    fn write(&mut self, format: &[u8], values: &[Value]) {
        let list = encode(values);
        let inside = domain::writing(&mut self.original, format, &list, values, LONGEST as u64);
        if format.len().max(list.len()) > LONGEST || !matches!(inside, Verdict::Inside) {
            return;
        }
        let arguments = [list_of(values)];
        match self.original.pack(format, values) {
            Outcome::Accepted(record) if record.len() > LONGEST => {}
            Outcome::Accepted(record) => self.add("w", format, &arguments, ACCEPTED, &[bytes_of(&record)]),
            Outcome::Refused => self.add("w", format, &arguments, REFUSED, &[]),
            Outcome::Panicked => {}
        }
    }

    fn read(&mut self, format: &[u8], data: &[u8], start: i64) {
        let inside = domain::reading(&mut self.original, format, data, start);
        if format.len().max(data.len()) > LONGEST || !matches!(inside, Verdict::Inside) {
            return;
        }
        let arguments = [bytes_of(data), start.to_string()];
        let single = items(format).iter().any(|item| item.option == b'f');
        match self.original.unpack(format, data, start) {
            Outcome::Accepted((values, _)) if single && values.iter().any(Value::is_nan) => {}
            Outcome::Accepted((values, _)) if encode(&values).len() > LONGEST => {}
            Outcome::Accepted((values, next)) => {
                self.add("r", format, &arguments, ACCEPTED, &[list_of(&values), next.to_string()]);
            }
            Outcome::Refused => self.add("r", format, &arguments, REFUSED, &[]),
            Outcome::Panicked => {}
        }
    }

    /// The records are the original's. A damaged run, and a malformed list in its turn, are refused without it.
    fn tray(&mut self, format: &[u8], run: &[u8]) {
        if format.len().max(run.len()) > LONGEST {
            return;
        }
        let malformed = [domain::Clause::Refused21.place()];
        let place = match tray::read_by_original(&mut self.original, format, run, LONGEST as u64) {
            Tray::Written(tray) if tray.len() > LONGEST => return,
            Tray::Written(tray) => return self.add("t", format, &[run_of(run)], ACCEPTED, &[bytes_of(&tray)]),
            Tray::DamagedRun => 0,
            Tray::Refused(Stop::Refused, place) => place,
            Tray::Refused(Stop::Excluded(clauses), place) if clauses == malformed => place,
            _ => return,
        };
        self.add("t", format, &[run_of(run)], REFUSED, &[String::new(), place.to_string()]);
    }

    /// Both lengths, or the refusal's number, are the plain reading's.
    fn range(&mut self, format: &[u8], pairs: &[u8]) {
        if format.len().max(pairs.len()) > LONGEST {
            return;
        }
        let arguments = [pairs_of(pairs)];
        match range::read(format, pairs) {
            Ok(lengths) => self.add("l", format, &arguments, ACCEPTED, &lengths.map(|length| length.to_string())),
            Err(number) => self.add("l", format, &arguments, REFUSED, &[number.to_string()]),
        }
    }
}

// ---- bytes in the notation of our programs

fn is_plain(byte: &u8) -> bool {
    matches!(byte, b' '..=b'~') && *byte != b'"'
}

/// Bytes as a text between quotes, with those that it can't have in hexadecimal.
fn text_of(bytes: &[u8]) -> String {
    let pieces = bytes.chunk_by(|a, b| is_plain(a) && is_plain(b)).map(|piece| match piece {
        [byte] if !is_plain(byte) => format!("{byte:02X}"),
        _ => format!("\"{}\"", String::from_utf8_lossy(piece)),
    });
    if bytes.is_empty() { "\"\"".to_string() } else { pieces.collect::<Vec<_>>().join(" ") }
}

/// Bytes in hexadecimal, five or more equal ones by their number.
fn bytes_of(bytes: &[u8]) -> String {
    let pieces = bytes.chunk_by(|a, b| a == b).flat_map(|piece| match piece.len() {
        0..5 => piece.iter().map(|byte| format!("{byte:02X}")).collect(),
        count => vec![format!("{:02X}*{count}", piece[0])],
    });
    pieces.collect::<Vec<_>>().join(" ")
}

/// The value list of some values: integers as numbers, other fields by their bytes, a text in quotes where it can be.
fn list_of(values: &[Value]) -> String {
    let fields = values.iter().map(|value| match value {
        Value::Integer(integer) => format!("i{integer}"),
        Value::Float(bits) => format!("02 00 08 {bits:016X}"),
        Value::Text(text) if !text.is_empty() && text.len() < 64 && text.iter().all(is_plain) => {
            format!("{} {}", bytes_of(&encode(slice::from_ref(value))[..3]), text_of(text))
        }
        _ => bytes_of(&encode(slice::from_ref(value))),
    });
    fields.collect::<Vec<_>>().join(" ")
}

/// A run: each list behind its length, a malformed one and a damaged run by their bytes.
fn run_of(run: &[u8]) -> String {
    let Some(lists) = tray::lists(run) else { return bytes_of(run) };
    let fields = |list: &[u8]| decode(list).map_or_else(|| bytes_of(list), |values| list_of(&values));
    let listed = |list: &[u8]| format!("{:04X} {}", list.len(), fields(list)).trim_end().to_string();
    lists.into_iter().map(listed).collect::<Vec<_>>().join(" ")
}

/// Pairs: each number by its two bytes, and the bytes of a part.
fn pairs_of(pairs: &[u8]) -> String {
    pairs
        .chunks(2)
        .map(|bytes| bytes.iter().map(|byte| format!("{byte:02X}")).collect::<String>())
        .collect::<Vec<_>>()
        .join(" ")
}

// ---- formats that bring up each option, size, alignment, limit and refusal

/// Each option by itself, and each size of those that have one.
fn each_option() -> Vec<String> {
    let mut all: Vec<String> = "bBhHiIlLjJTfdnzsx".chars().map(String::from).collect();
    all.extend(["c0", "c1", "c5", "c000012"].map(String::from));
    for size in 1..=16 {
        all.extend(["i", "s"].map(|option| format!("{option}{size}")));
    }
    for size in [1, 3, 8, 16] {
        all.extend(["I", "l", "L"].map(|option| format!("{option}{size}")));
    }
    all
}

/// Each alignment that X can ask for.
fn each_alignment() -> Vec<String> {
    let mut all: Vec<String> = "bBhHiIlLjJTfdnq5".chars().map(|next| format!("X{next}")).collect();
    all.extend(["Xf99999999999999999999999", "Xi016", "X\0", "X\x0B", "X\x7F"].map(String::from));
    all.extend([1, 2, 3, 4, 8, 12, 16].map(|size| format!("Xi{size}")));
    all
}

const LIMITS: [&str; 6] = ["", "!2", "!4", "!", "!8", "!16"];

/// What takes a numeral, with numerals at every limit.
fn each_numeral() -> Vec<String> {
    let mut numerals: Vec<String> = (0..=18).map(|n| n.to_string()).collect();
    numerals.extend([32, 255, 256, u64::MAX - 1, u64::MAX].map(|n| n.to_string()));
    numerals.extend(["000", "0016", "00000000000000000000000001", "18446744073709551616"].map(String::from));
    numerals.extend(["18446744073709551617", "99999999999999999999", "100000000000000000000000000"].map(String::from));
    let takers = ["i", "I", "l", "L", "s", "!", "c", "Xi", "XI", "Xl", "XL", "Xf"];
    takers.iter().flat_map(|taker| numerals.iter().map(move |numeral| format!("{taker}{numeral}"))).collect()
}

/// Formats that are refused, or are just not.
const EDGES: &[&str] = &[
    "",
    " \t\n\r",
    "q",
    "5",
    "\x0B",
    "\x0C",
    "\0",
    "\x7F",
    "b4",
    "i 4",
    "i0",
    "i000",
    "i17",
    "I0",
    "I17",
    "l0",
    "L17",
    "i0000000000000000000000016",
    "i18446744073709551615",
    "i18446744073709551616",
    "I99999999999999999999999999",
    "s0",
    "s17",
    "s18446744073709551616",
    "!0",
    "!000",
    "!1",
    "!01",
    "!3",
    "!6",
    "!15",
    "!16",
    "!17",
    "!18",
    "!18446744073709551616",
    "c",
    "c b",
    "c000",
    "c18446744073709551616",
    "c99999999999999999999",
    "X",
    "X ",
    "X\t",
    "X\n",
    "X\r",
    "XX",
    "X<",
    "X>",
    "X=",
    "X!",
    "Xc1",
    "Xs",
    "Xz",
    "Xx",
    "X55",
    "Xd8",
    "XT8",
    "Xs99999999999999999999",
    "!4i17",
    "!4bXi17",
    "!8i12",
    "!2i3",
    "bq",
    "qz",
    "zq",
    "!2!4!8!16bi16",
    "<b>b=b<i2>i2=i2",
    "bxxxXi4",
    "!4bxXi4xXh",
];

// ---- measuring

fn measured(recording: &mut Recording) {
    recording.group("measuring: each option at each limit and offset");
    for (limit, before) in LIMITS.iter().flat_map(|limit| ["", "b", "bbb"].map(|before| (limit, before))) {
        for item in each_option().iter().chain(&each_alignment()) {
            recording.measure(format!("{limit}{before}{item}").as_bytes());
        }
    }
    recording.group("measuring: each byte, alone, behind b and behind X");
    for byte in 0..128 {
        for before in [&b""[..], b"b", b"X", b"!4bX"] {
            recording.measure(&[before, &[byte]].concat());
        }
    }
    recording.group("measuring: pairs of items");
    let items = ["b", "h", "i", "i3", "l16", "j", "f", "d", "c3", "x", "Xi", "Xd", "<", ">", "=", " ", "!2", "!"];
    for (first, second) in items.iter().flat_map(|first| items.map(|second| (first, second))) {
        recording.measure(format!("!4b{first}{second}").as_bytes());
    }
    recording.group("measuring: numerals, and what is refused");
    for format in each_numeral().iter().map(String::as_str).chain(EDGES.iter().copied()) {
        recording.measure(format.as_bytes());
    }
    recording.group("measuring: lengths about 2^63-1");
    for more in ["", "b", "x", "c0", "c1", "h", "Xi", "!8Xd", "!2Xh", "i16", "q", "!4i3"] {
        for less in [0, 1, 2, 15, 16] {
            recording.measure(format!("c{}{more}", i64::MAX - less).as_bytes());
        }
    }
    for second in [(1_u64 << 62) - 1, 1 << 62] {
        recording.measure(format!("c{}c{second}", 1_u64 << 62).as_bytes());
    }
    recording.group("measuring: random formats");
    let mut random = Random::new(1);
    for _ in 0..400 {
        recording.measure(&r#gen::format(&mut random, Use::Measuring));
    }
}

// ---- writing

/// Integers at the limits of n bytes.
fn limits_of(size: u32) -> Vec<i64> {
    let signed = if size < 8 { 1_i64 << (8 * size - 1) } else { i64::MAX };
    let unsigned = if size < 8 { 1_i64 << (8 * size) } else { i64::MAX };
    let mut all = vec![0, -1, signed - 1, signed, -signed, (-signed).saturating_sub(1), unsigned - 1, unsigned];
    all.dedup();
    all
}

fn floats() -> Vec<Value> {
    let bits = [
        0x8000_0000_0000_0000,
        0x0000_0000_0000_0001,
        0x3FF0_0000_0000_0000,
        0xBFE0_0000_0000_0000,
        0x3FF8_0000_0000_0001,
        0x43B0_0000_1000_0000,
        0x43B0_0000_3000_0000,
        0x43E0_0000_0000_0000,
        0xC3E0_0000_0000_0000,
        0x43DF_FFFF_FFFF_FFFF,
        0x43F0_0000_0000_0000,
        0xC3F0_0000_0000_0001,
        0xC08F_FC00_0000_0000,
        0xC090_0200_0000_0000,
        0x47EF_FFFF_E000_0000,
        0x47EF_FFFF_EFFF_FFFF,
        0x47EF_FFFF_F000_0000,
        0x36A0_0000_0000_0000,
        0x3690_0000_0000_0000,
        0x3690_0000_0000_0001,
        0x7E37_E43C_8800_759C,
        0x7FF0_0000_0000_0000,
        0xFFF0_0000_0000_0000,
    ];
    bits.map(Value::Float).to_vec()
}

fn nans() -> Vec<Value> {
    [0x7FF8_0000_0000_0000, 0x7FF0_0000_0000_0001, 0xFFF5_5555_5555_5555].map(Value::Float).to_vec()
}

fn text(bytes: &[u8]) -> Value {
    Value::Text(bytes.to_vec())
}

/// Each integer option and size, with the integers at its limits.
fn integer_writes() -> Vec<(String, Value)> {
    let mut all = Vec::new();
    for option in ["<b", ">B", "<h", ">h", "<H", ">H", "<j", ">J", "<T", ">T"] {
        for integer in [1, 2, 8].into_iter().flat_map(limits_of) {
            all.push((option.to_string(), Value::Integer(integer)));
        }
    }
    for size in 1..=16 {
        for (option, order) in [("i", "<"), ("I", ">"), ("l", ">"), ("L", "<")] {
            let limits = limits_of(size.min(8)).into_iter();
            all.extend(limits.map(|integer| (format!("{order}{option}{size}"), Value::Integer(integer))));
        }
    }
    for option in ["i", "I", "l", "L"] {
        all.extend(limits_of(4).into_iter().map(|integer| (option.to_string(), Value::Integer(integer))));
    }
    all
}

/// Floats for each option that takes numbers, and integers for those that make floats of them.
fn float_writes() -> Vec<(String, Value)> {
    let mut all = Vec::new();
    for option in ["<f", ">f", "<d", ">n", ">j", "<J", "<T", ">T"] {
        all.extend(floats().into_iter().chain(nans()).map(|float| (option.to_string(), float)));
    }
    for integer in [0, 1, -1, 1_152_921_573_326_323_713, i64::MAX, i64::MIN, (1 << 53) + 1] {
        all.extend(["f", "d", ">n"].map(|option| (option.to_string(), Value::Integer(integer))));
    }
    for float in [0.0, -0.0, 1.0, -1.0, 200.0, 0.5, 65_536.0, 9.3e18] {
        let options = ["b", "B", "h", "H", "i1", "I2", "i", "L", "l9", "j", "J", "T"];
        all.extend(options.map(|option| (option.to_string(), Value::float(float))));
    }
    all
}

fn text_writes() -> Vec<(String, Value)> {
    let texts: [&[u8]; 5] = [b"", b"A", b"AB", b"A\0B", b"\xFF\x80ABC"];
    let mut all = Vec::new();
    for format in ["c0", "c1", "c2", "c3", "c7", "z", "s", "s1", "<s2", ">s2", "<s9", ">s16", "s3z"] {
        all.extend(texts.map(|bytes| (format.to_string(), text(bytes))));
    }
    all.extend([254, 255, 256, 257].map(|length| ("s1".to_string(), text(&vec![b'x'; length]))));
    all.extend([255, 256].map(|length| (">s2".to_string(), text(&vec![b'y'; length]))));
    all.extend([255, 256, 257].map(|length| ("c256".to_string(), text(&vec![b'z'; length]))));
    all
}

/// Each option at each limit, behind one byte and behind three, with a byte after it.
fn aligned_writes() -> Vec<(String, Vec<Value>)> {
    let mut all = Vec::new();
    for (limit, before) in LIMITS.iter().flat_map(|limit| ["b", "c3"].map(|before| (limit, before))) {
        let first = if before == "b" { Value::Integer(7) } else { text(b"ABC") };
        for item in each_option() {
            let value = if item.starts_with(['c', 'z', 's']) { text(b"") } else { Value::Integer(1) };
            let values = if item == "x" { vec![] } else { vec![value] };
            all.push((
                format!("{limit}{before}{item}b"),
                [vec![first.clone()], values, vec![Value::Integer(-1)]].concat(),
            ));
        }
        for alignment in each_alignment() {
            all.push((format!("{limit}{before}{alignment}B"), vec![first.clone(), Value::Integer(254)]));
        }
    }
    all
}

/// Each kind of value for each option, and none.
fn kind_writes() -> Vec<(String, Vec<Value>)> {
    let options =
        "bBhHiIlLjJTfdnczs".chars().map(|option| if option == 'c' { "c4".into() } else { option.to_string() });
    let kinds = [text(b"A"), Value::Integer(1), Value::float(0.5), Value::float(1.0), Value::Other];
    let lists = kinds.map(|kind| vec![kind]).into_iter().chain([vec![]]);
    options.flat_map(|option| lists.clone().map(move |list| (option.clone(), list))).collect()
}

/// Several values, too few and too many, orders, numerals and what is refused.
fn other_writes() -> Vec<(String, Vec<Value>)> {
    let integers = |count: i64| (1..=count).map(Value::Integer).collect::<Vec<_>>();
    let mut all: Vec<(String, Vec<Value>)> = Vec::new();
    for format in each_numeral().iter().map(String::as_str).chain(EDGES.iter().copied()) {
        let textual = format.starts_with(['c', 's']);
        all.push((format.to_string(), if textual { vec![text(b"AB")] } else { integers(6) }));
        all.push((format.to_string(), vec![]));
    }
    all.extend(["bb", "bbb", "<i2>i2=i2", "!4i3", "!4b i3"].map(|format| (format.to_string(), integers(2))));
    all.push(("<i2>i2=i2".to_string(), integers(3)));
    all.push(("zs1c2".to_string(), vec![text(b"A"), text(b"B"), text(b"C"), Value::Other]));
    all.push(("s2 z c64".to_string(), vec![text(b"name"), text(b"place"), text(b"profile")]));
    all
}

fn written(recording: &mut Recording) {
    let groups = [
        ("writing: integers at the limits of each size", integer_writes()),
        ("writing: floats, and numbers of the other kind", float_writes()),
        ("writing: texts", text_writes()),
    ];
    for (name, writes) in groups {
        recording.group(name);
        writes.into_iter().for_each(|(format, value)| recording.write(format.as_bytes(), &[value]));
    }
    let groups = [
        ("writing: each kind of value for each option", kind_writes()),
        ("writing: each option at each limit and offset", aligned_writes()),
        ("writing: numerals, and what is refused", other_writes()),
    ];
    for (name, writes) in groups {
        recording.group(name);
        writes.iter().for_each(|(format, values)| recording.write(format.as_bytes(), values));
    }
    recording.group("writing: random formats and values");
    let mut random = Random::new(2);
    for _ in 0..600 {
        let case = Written::random(&mut random, Use::Writing);
        recording.write(&case.format, &case.values);
    }
}

// ---- reading

/// Data of each size, at the limits of signed and unsigned integers.
fn integer_data() -> Vec<(String, Vec<u8>)> {
    let mut all = Vec::new();
    for size in 1..=8_usize {
        for (high, low) in [(0xFF, 0xFF), (0x80, 0), (0x7F, 0xFF), (0, 1), (0x12, 0x34)] {
            let mut data = vec![low; size];
            data[0] = high;
            all.extend(["i", "I"].map(|option| (format!(">{option}{size}"), data.clone())));
            data.reverse();
            all.extend(["l", "L"].map(|option| (format!("<{option}{size}"), data.clone())));
        }
    }
    for option in ["j", "J", "T", "d", "n", ">j", ">d", "b", "B", "h", "H", "i", "I", "l", "L"] {
        all.push((option.to_string(), vec![0xFF; 8]));
        all.push((option.to_string(), vec![0x80, 0, 0, 0, 0, 0, 0, 1]));
    }
    all
}

fn float_data() -> Vec<(String, Vec<u8>)> {
    let singles = [0_u32, 0x8000_0000, 1, 0x007F_FFFF, 0x0080_0000, 0x3F80_0001, 0x5D80_0001, 0x7F7F_FFFF, 0x7F80_0000];
    let mut all = Vec::new();
    for bits in singles.into_iter().chain([0xFF80_0000]) {
        all.push(("<f".to_string(), bits.to_le_bytes().to_vec()));
        all.push((">f".to_string(), bits.to_be_bytes().to_vec()));
    }
    for float in floats().into_iter().chain(nans()) {
        let Value::Float(bits) = float else { continue };
        all.push(("<d".to_string(), bits.to_le_bytes().to_vec()));
        all.push((">n".to_string(), bits.to_be_bytes().to_vec()));
    }
    all
}

fn text_data() -> Vec<(String, Vec<u8>)> {
    let all: [(&str, &[u8]); 14] = [
        ("z", b"AB\0C"),
        ("z", b"AB"),
        ("z", b""),
        ("zz", b"\0A\0"),
        ("s1", b"\x02AB"),
        ("s1", b"\x03AB"),
        ("s1", b""),
        (">s2", b"\0\x01A"),
        ("<s2", b"\x01\0A"),
        ("s2", b"\x01"),
        ("s", b"\x01\0\0\0\0\0\0\0A"),
        ("c3", b"AB"),
        ("c3", b"AB\0"),
        ("c65536", b"AB"),
    ];
    all.map(|(format, data)| (format.to_string(), data.to_vec())).to_vec()
}

/// Reads the records of some writes, each whole, cut by a byte, and behind 16 other bytes.
fn read_back(recording: &mut Recording, writes: &[(String, Vec<Value>)]) {
    for (format, values) in writes {
        let (format, list) = (format.as_bytes(), encode(values));
        let inside = domain::writing(&mut recording.original, format, &list, values, LONGEST as u64);
        let (true, Outcome::Accepted(record)) =
            (matches!(inside, Verdict::Inside), recording.original.pack(format, values))
        else {
            continue;
        };
        recording.read(format, &record, 1);
        recording.read(format, &record[..record.len().saturating_sub(1)], 1);
        recording.read(format, &[&[0xEE; 16][..], &record].concat(), 17);
    }
}

fn read(recording: &mut Recording) {
    let groups = [
        ("reading: integers of each size", integer_data()),
        ("reading: floats", float_data()),
        ("reading: texts", text_data()),
    ];
    for (name, readings) in groups {
        recording.group(name);
        readings.iter().for_each(|(format, data)| recording.read(format.as_bytes(), data, 1));
    }
    recording.group("reading: each start");
    for (start, format) in (-3..=4).flat_map(|start| ["", "b", "z", "i2", "!4i", "c1", "x", "!2h"].map(|f| (start, f)))
    {
        recording.read(format.as_bytes(), &[1, 2, 0], start);
    }
    recording.group("reading: what was written, whole, cut, and at an offset");
    read_back(recording, &aligned_writes());
    let texts = text_writes().into_iter().map(|(format, value)| (format, vec![value]));
    read_back(recording, &texts.collect::<Vec<_>>());
    recording.group("reading: numerals, and what is refused");
    for format in each_numeral().iter().map(String::as_str).chain(EDGES.iter().copied()) {
        recording.read(format.as_bytes(), &[1; 24], 1);
        recording.read(format.as_bytes(), &[], 1);
    }
    recording.group("reading: random formats and data");
    let mut writer = Original::default();
    // each drawn by itself: what is drawn goes by the record, so a case that leaves the list leaves the others as they are
    for seed in 3000..3800 {
        for case in some_readings(&mut Random::new(seed), &mut writer) {
            recording.read(&case.format, &case.data, case.start);
        }
    }
}

// ---- trays

/// A format, and the list of the record at a place.
type Profile = (&'static str, fn(i64) -> Vec<Value>);

/// In some, a record that started where the one before ended, or with its order or limit, would be another.
const PROFILES: [Profile; 9] = [
    ("x", |_| vec![]),
    ("b", |place| vec![Value::Integer(place)]),
    (">I2I2B", |place| vec![Value::Integer(500 + place), Value::Integer(place), Value::Integer(1)]),
    ("<!4 b i h I4 s1", |place| {
        let integers = [1, -2 - place, 300, 70_000].map(Value::Integer);
        [&integers[..], &[text(&b"holder"[..place as usize])]].concat()
    }),
    ("h>!8", |place| vec![Value::Integer(place)]),
    ("!8d b", |place| vec![Value::float(place as f64 / 2.0), Value::Integer(-place)]),
    ("b Xi4 !4", |place| vec![Value::Integer(place)]),
    ("z", |place| vec![text(&b"station"[..place as usize])]),
    ("s2 c3", |place| vec![text(&b"name"[place as usize % 4..]), text(&b"ABC"[..place as usize % 4])]),
];

/// The lists of a profile, from place 1 on.
fn lists_of((_, list): Profile, count: i64) -> Vec<Vec<u8>> {
    (1..=count).map(|place| encode(&list(place))).collect()
}

/// Runs with a list at one place that is refused, and with another behind it.
fn refused_trays(recording: &mut Recording) {
    let other_kind = encode(&[Value::Other]);
    for profile in &PROFILES[1..] {
        let lists = lists_of(*profile, 4);
        for place in 0..lists.len() {
            for refused in [&[][..], &other_kind, &[3, 0, 2, b'A']] {
                let mut lists = lists.clone();
                lists[place] = refused.to_vec();
                recording.tray(profile.0.as_bytes(), &as_run(&lists));
                if let Some(later) = lists.get_mut(place + 1) {
                    *later = vec![4];
                    recording.tray(profile.0.as_bytes(), &as_run(&lists));
                }
            }
        }
    }
}

/// A run cut at each byte, with a byte more, and with each length a byte off; a format that is refused comes after that.
fn damaged_runs(recording: &mut Recording) {
    for (format, profile) in [("b", PROFILES[1]), ("q", PROFILES[1]), ("z", PROFILES[7])] {
        let lists = lists_of(profile, 2);
        let (run, second) = (as_run(&lists), 2 + lists[0].len());
        (1..run.len()).for_each(|length| recording.tray(format.as_bytes(), &run[..length]));
        for byte in [0, 3] {
            recording.tray(format.as_bytes(), &[&run[..], &[byte]].concat());
        }
        for at in [0, 1, second, second + 1] {
            for more in [1, 255] {
                let mut changed = run.clone();
                changed[at] = changed[at].wrapping_add(more);
                recording.tray(format.as_bytes(), &changed);
            }
        }
    }
}

fn trays(recording: &mut Recording) {
    recording.group("trays: no list, and empty lists");
    let formats = ["", "x", "b", "z", "q", "c", "c0", "!3", "i17", "!4i3", "X", "c9223372036854775807", "!2x"];
    for (format, count) in formats.iter().flat_map(|format| [0, 1, 2, 3].map(|count| (format, count))) {
        recording.tray(format.as_bytes(), &as_run(vec![&[][..]; count]));
    }
    recording.group("trays: one list, and several");
    for (profile, count) in PROFILES.iter().flat_map(|profile| [1, 2, 3, 6].map(|count| (profile, count))) {
        recording.tray(profile.0.as_bytes(), &as_run(lists_of(*profile, count)));
    }
    recording.group("trays: a record refused at each place");
    refused_trays(recording);
    recording.group("trays: damaged runs");
    damaged_runs(recording);
    recording.group("trays: random formats and runs");
    let mut random = Random::new(4);
    for _ in 0..150 {
        let case = tray::some_tray(&mut random);
        recording.tray(&case.format, &case.run);
    }
}

// ---- length prefixes, which the original doesn't align

fn prefixed(recording: &mut Recording) {
    recording.group("length prefixes, written and read, by a plain reading of the request");
    for Answered { format, values, record, data } in prefixes::answered() {
        let mark = if record.is_some() { ACCEPTED } else { REFUSED };
        let written = record.map(|record| vec![bytes_of(&record)]).unwrap_or_default();
        let read = if written.is_empty() { vec![] } else { vec![list_of(&values), (data.len() + 1).to_string()] };
        recording.add("w", &format, &[list_of(&values)], mark, &written);
        recording.add("r", &format, &[bytes_of(&data), "1".to_string()], mark, &read);
    }
}

// ---- ranges of lengths, which the original doesn't have

fn ranges(recording: &mut Recording) {
    recording.group("ranges of lengths, by a plain reading: what the request says");
    range::SAID.iter().for_each(|(format, pairs, _)| recording.range(format.as_bytes(), pairs));
    recording.group("ranges of lengths: z and each s at each limit, and what aligns behind");
    for (limit, text) in
        LIMITS.iter().flat_map(|limit| ["z", "s", "s1", "s2", "s3", "s4", "s8", "s16"].map(|text| (limit, text)))
    {
        recording.range(format!("{limit}b{text}i").as_bytes(), &as_pairs([[2, 7]]));
    }
    recording.group("ranges of lengths: the checks of a text");
    let pairs = [[0, 255], [0, 256], [256, 255], [257, 256], [255, 65_535], [65_535, 0]];
    for (text, pair) in ["z", "s1", "s2", "s"].iter().flat_map(|text| pairs.map(|pair| (text, pair))) {
        recording.range(text.as_bytes(), &as_pairs([pair]));
    }
    recording.group("ranges of lengths: a refused item before a text and behind it");
    for item in ["q", "c", "i17", "i18446744073709551616", "!0", "!3", "!4i3", "X", "c9223372036854775808", "s17"] {
        for pairs in [as_pairs([]), as_pairs([[0, 1]]), as_pairs([[1, 0]]), vec![0, 1]] {
            recording.range(format!("{item} z").as_bytes(), &pairs);
            recording.range(format!("z{item}").as_bytes(), &pairs);
        }
    }
    recording.group("ranges of lengths: about 2^63-1");
    for (less, texts) in
        [0, 1, 3, 9, 17].iter().flat_map(|less| ["z", "zq", "s1", "s", "!4zXi", "!8 zd"].map(|texts| (less, texts)))
    {
        recording.range(format!("c{}{texts}", i64::MAX - less).as_bytes(), &as_pairs([[0, 2]]));
    }
    recording.group("ranges of lengths: random formats and pairs");
    for seed in 5000..5080 {
        let case = range::drawn(&mut Random::new(seed));
        recording.range(&case.format, &case.pairs);
    }
}
