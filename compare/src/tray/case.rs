//! Runs of value lists, short ones all and longer ones by chance, and how one that differs is made smaller.

use super::lists;
use crate::r#gen::{self, Random, Use};
use crate::report::{Case, shorter};
use crate::value::{Bytes, Value, Values, decode, encode};
use crate::write::{fewer_or_simpler, without, without_each_item};

/// One call.
#[derive(Clone)]
pub struct Trayed {
    pub format: Vec<u8>,
    pub run: Vec<u8>,
    /// Bytes that the longer buffer has too many and the shorter one too few.
    pub spare: usize,
    pub lacking: usize,
}

/// No c above this is filled by an accepted record here.
pub const CAP: u64 = 100_000;

/// The longest list that a run can hold.
const LONGEST_LIST: usize = 65_535;

/// The lists, each behind its length.
pub fn as_run<L: AsRef<[u8]>>(lists: impl IntoIterator<Item = L>) -> Vec<u8> {
    let mut run = Vec::new();
    for list in lists {
        let list = list.as_ref();
        let length = u16::try_from(list.len()).expect("a list of a run has at most 65,535 bytes");
        run.extend_from_slice(&length.to_be_bytes());
        run.extend_from_slice(list);
    }
    run
}

/// Every short run, then `random` ones.
pub fn all_cases(random: &mut Random, cases: u64, length: u32) -> impl Iterator<Item = Trayed> {
    every_short(length).chain((0..cases).map(|_| drawn(random)))
}

/// How many these are.
pub fn case_count(cases: u64, length: u32) -> u64 {
    let runs: u64 = short(length).iter().map(|(bytes, most)| r#gen::count_over(bytes.len(), *most)).sum();
    runs * FORMATS.len() as u64 + cases
}

// ---- every short run

/// Formats that an empty list, or one of empty texts, can satisfy, and some that are refused. In those with an alignment it
/// shows where a record starts, and with which limit.
const FORMATS: [&str; 13] = ["", "x", "b", "z", "q", "c0", "c1", "s1", "zz", "xq", "zb", "!4Xix", "Xix!4"];

/// Bytes, and up to how many of them a run has. Three bytes are a field: 00 00 00, or 03 00 00, an empty text.
fn short(length: u32) -> [(&'static [u8], u32); 2] {
    [(&[0, 1, 2, 3, 4, 255], length + 1), (&[0, 3], 3 * length)]
}

fn every_short(length: u32) -> impl Iterator<Item = Trayed> {
    let runs = short(length).into_iter().flat_map(|(bytes, most)| r#gen::every_over(bytes.to_vec(), most));
    runs.flat_map(|run| FORMATS.map(|format| Trayed { format: format.into(), run: run.clone(), spare: 1, lacking: 1 }))
}

// ---- random runs

/// A random run; every second one mostly means the same in Lua.
fn drawn(random: &mut Random) -> Trayed {
    let like_lua = random.one_in(2);
    trayed(random, like_lua)
}

/// A random run, whatever it means in Lua.
pub fn some_tray(random: &mut Random) -> Trayed {
    trayed(random, false)
}

fn trayed(random: &mut Random, like_lua: bool) -> Trayed {
    let count = match random.below(20) {
        0 => 0,
        1..4 => 1,
        _ => random.among(2, 6),
    };
    let format = format(random, count, like_lua);
    // long records take long to compare, and two show what six would
    let long = r#gen::room(&format, &[], CAP) > 4000;
    let count = if long { count.min(2) } else { count };
    let mut lists: Vec<Vec<u8>> = (0..count).map(|_| list(random, &format, like_lua)).collect();
    if count > 1 && random.one_in(8) {
        lists[count - 1] = lists[0].clone();
    }
    let mut run = as_run(&lists);
    if random.one_in(6) {
        damage(random, &mut run);
    }
    let spare = random.among(1, 40);
    let lacking = if random.one_in(2) { 1 } else { random.among(1, 40) };
    Trayed { format, run, spare, lacking }
}

fn format(random: &mut Random, count: usize, like_lua: bool) -> Vec<u8> {
    if random.one_in(12) {
        return long_format(random, count.max(1) as u128);
    }
    let format = r#gen::format(random, Use::Writing);
    if like_lua { r#gen::like_lua(random, &format) } else { format }
}

/// A format with a c so long that so many records are together about as long as 2^63 or 2^64, where a sum could wrap around.
fn long_format(random: &mut Random, count: u128) -> Vec<u8> {
    let sum = random.pick(&[1_u128 << 63, 1 << 64, 1 << 64]);
    let chars = (sum.div_ceil(count) + u128::from(random.below(6))).saturating_sub(u128::from(random.below(12)));
    let chars = if random.one_in(2) { chars.min((1 << 63) - 1) } else { chars.min((1 << 63) - 16) };
    format!("c{chars}{}", random.pick(&["", "", "z", "z", "s1", "x", "b", "!4b", "q", "i1"])).into_bytes()
}

/// A list for a format: as for single calls, and at times empty, malformed, with too few values or one of the wrong kind.
fn list(random: &mut Random, format: &[u8], like_lua: bool) -> Vec<u8> {
    let mut values = r#gen::values(random, format);
    if like_lua {
        r#gen::values_like_lua(random, format, &mut values);
    }
    let at = random.among(0, values.len());
    match random.below(60) {
        0 => values.clear(),
        1 => values.truncate(at),
        2 | 3 if at < values.len() => values[at] = Value::Other,
        4 if random.one_in(40) => values.push(text_up_to_the_longest(&values)),
        _ => {}
    }
    let mut list = encode(&values);
    if random.one_in(30) {
        malform(random, &mut list);
    }
    if list.len() > LONGEST_LIST {
        list.clear();
    }
    list
}

/// A text behind the values that makes their list as long as it can be.
fn text_up_to_the_longest(values: &[Value]) -> Value {
    let rest = LONGEST_LIST - Value::Other.field_length();
    Value::Text(vec![b't'; rest.saturating_sub(encode(values).len())])
}

fn malform(random: &mut Random, list: &mut Vec<u8>) {
    let at = random.among(0, list.len());
    match list.get_mut(at) {
        Some(byte) if random.one_in(2) => *byte ^= 1 << random.below(8),
        Some(_) => list.truncate(at),
        None => list.push(random.pick(&[0, 1, 2, 3, 4, 255])),
    }
}

fn damage(random: &mut Random, run: &mut Vec<u8>) {
    let at = random.among(0, run.len());
    let added = random.among(1, 3);
    match random.below(6) {
        0 => run.truncate(at),
        1 => run.extend(r#gen::bytes(random, added)),
        2 | 3 => change_length(random, run),
        4 => run.insert(at, random.pick(&[0, 1, 2, 3, 255])),
        _ if at < run.len() => run[at] ^= 1 << random.below(8),
        _ => {}
    }
}

/// Another length before one of the lists.
fn change_length(random: &mut Random, run: &mut [u8]) {
    let ends = ends(run);
    let at = random.pick(&ends);
    if let Some(length) = run.get_mut(at..at + 2) {
        let changed =
            u16::from_be_bytes([length[0], length[1]]).wrapping_add_signed(random.pick(&[-256, -2, -1, 1, 2, 256]));
        length.copy_from_slice(&changed.to_be_bytes());
    }
}

/// Where the lists at the front of a run end, from 0 on; the front ends where the run is damaged.
pub fn ends(run: &[u8]) -> Vec<usize> {
    let mut ends = vec![0];
    let mut at = 0;
    while let Some(length) = run[at..].first_chunk::<2>() {
        at += 2 + usize::from(u16::from_be_bytes(*length));
        if at > run.len() {
            break;
        }
        ends.push(at);
    }
    ends
}

// ---- smaller ones

impl Trayed {
    fn with(&self, format: &[u8], run: Vec<u8>) -> Trayed {
        Trayed { format: format.to_vec(), run, ..*self }
    }

    /// Without a list, or with a smaller one.
    fn with_less(&self, lists: &[&[u8]]) -> Vec<Trayed> {
        let mut all = Vec::new();
        for (at, list) in lists.iter().enumerate() {
            let with = |instead: &[&[u8]]| as_run([&lists[..at], instead, &lists[at + 1..]].concat());
            all.push(with(&[]));
            let smaller = match decode(list) {
                Some(values) => fewer_or_simpler(&values).iter().map(|values| encode(values)).collect(),
                None => shorter(list),
            };
            all.extend(smaller.iter().map(|list| with(&[list])));
        }
        all.into_iter().map(|run| self.with(&self.format, run)).collect()
    }

    /// Without an item of the format, and without its value in each list.
    fn without_items(&self, lists: &[&[u8]]) -> Vec<Trayed> {
        let less = |list: &&[u8], taken| match decode(list) {
            Some(values) => encode(&without(&values, taken)),
            None => list.to_vec(),
        };
        let all = without_each_item(&self.format).into_iter();
        all.map(|(format, taken)| self.with(&format, as_run(lists.iter().map(|list| less(list, taken))))).collect()
    }
}

impl Case for Trayed {
    fn weight(&self) -> usize {
        self.format.len() + self.run.len()
    }

    fn smaller(&self) -> Vec<Trayed> {
        let mut all = match lists(&self.run) {
            Some(lists) => [self.with_less(&lists), self.without_items(&lists)].concat(),
            None => shorter(&self.run).into_iter().map(|run| self.with(&self.format, run)).collect(),
        };
        all.extend(shorter(&self.format).iter().map(|format| self.with(format, self.run.clone())));
        all
    }

    fn show(&self) -> String {
        let shown = |list: &&[u8]| match decode(list) {
            Some(values) => Values(&values).to_string(),
            None => format!("malformed {}", Bytes(list)),
        };
        let lists = lists(&self.run).map_or("a damaged run".into(), |lists| {
            format!("[{}]", lists.iter().map(shown).collect::<Vec<_>>().join(", "))
        });
        format!("tray {} of {lists} (run {})", Bytes(&self.format), Bytes(&self.run))
    }
}
