//! Formats with pairs of text lengths: short ones all and longer ones by chance, and how a case that differs is made smaller.

use super::{SAID, pairs_of, read};
use crate::r#gen::{self, Random, Use};
use crate::items::{Item, items};
use crate::measure;
use crate::report::{Case, shorter};
use crate::value::{Bytes, LONGEST_TEXT};

/// One call.
#[derive(Clone)]
pub struct Ranged {
    pub format: Vec<u8>,
    pub pairs: Vec<u8>,
    /// The seed of texts between the least and the greatest.
    pub draw: u64,
}

impl Ranged {
    pub fn new(format: impl Into<Vec<u8>>, pairs: Vec<u8>) -> Ranged {
        Ranged { format: format.into(), pairs, draw: 0 }
    }

    /// How many pairs the format can take.
    pub fn texts(&self) -> usize {
        items(&self.format).iter().filter(|item| item.is_open()).count()
    }

    /// The pairs behind so many texts'.
    pub fn left_over(&self, texts: usize) -> impl ExactSizeIterator<Item = [u64; 2]> {
        let pairs = pairs_of(&self.pairs).unwrap_or_default();
        pairs.into_iter().skip(texts)
    }
}

/// Two bytes for each number, big-endian.
pub fn as_pairs(pairs: impl IntoIterator<Item = [u16; 2]>) -> Vec<u8> {
    pairs.into_iter().flatten().flat_map(u16::to_be_bytes).collect()
}

/// What the request says; every short format with some pairs, some formats with all short runs of pairs and of bytes; then `cases`
/// random ones.
pub fn all(random: &mut Random, cases: u64, length: u32) -> impl Iterator<Item = Ranged> {
    let said = SAID.iter().map(|(format, pairs, _)| Ranged::new(*format, pairs.to_vec()));
    let every = every_format(length).chain(every_pairs(length)).chain(every_bytes(length));
    said.chain(every).chain((0..cases).map(|_| drawn(random)))
}

// ---- every short one

/// The formats that measuring is asked about, with pairs for three texts: the second is too much for s1, the third refused.
fn every_format(length: u32) -> impl Iterator<Item = Ranged> {
    let pairs = as_pairs([[0, 3], [1, 256], [2, 1]]);
    measure::short_formats(length).map(move |format| Ranged::new(format, pairs.clone()))
}

/// Texts, what aligns behind them, limits, and what is refused.
const ALPHABET: &[u8] = b"zsbhixXc!1234 <q";

const PAIRS: [[u16; 2]; 5] = [[0, 0], [0, 3], [2, 1], [255, 256], [1, 65_535]];

/// Every format over the alphabet with all runs of these pairs: none to one more than it takes. Then with a part of a pair, behind
/// nothing and behind as many pairs as it takes.
fn every_pairs(length: u32) -> impl Iterator<Item = Ranged> {
    let formats = r#gen::every_over(ALPHABET.to_vec(), length);
    formats.flat_map(|format| {
        let texts = Ranged::new(&format[..], vec![]).texts();
        let places: Vec<u8> = (0..PAIRS.len() as u8).collect();
        let runs = r#gen::every_over(places, texts as u32 + 1);
        let runs = runs.map(|run| as_pairs(run.into_iter().map(|place| PAIRS[usize::from(place)])));
        let parts = [vec![], as_pairs(vec![PAIRS[1]; texts])].into_iter();
        let parts = parts.flat_map(|pairs| (1..4).map(move |part| [&pairs[..], &[0; 3][..part]].concat()));
        runs.chain(parts).map(move |pairs| Ranged::new(&format[..], pairs)).collect::<Vec<_>>()
    })
}

/// With texts, without, and refused; in some a text's least and greatest length are padded alike, in others not.
const FORMATS: [&str; 24] = [
    "", "b", "q", "z", "s1", "s2", "s", "zz", "zs1", "s1z", "bz", "zb", "zq", "qz", "!4s3", "s17", "Xz", "c2s1",
    "!2zh", "!2zs2", "!4zi", "!4zXi", "!zd", "!2s2s2",
];

/// Some formats with all runs of bytes, of which three in four have a part of a pair.
fn every_bytes(length: u32) -> impl Iterator<Item = Ranged> {
    let runs = r#gen::every_over(vec![0, 1, 2], 2 * length + 1);
    runs.flat_map(|run| FORMATS.map(|format| Ranged::new(format, run.clone())))
}

// ---- by chance

/// A random case.
pub fn drawn(random: &mut Random) -> Ranged {
    let mut format = r#gen::format(random, Use::Writing);
    let more = if random.one_in(50) { random.among(10, 150) } else { random.among(0, 3) };
    for _ in 0..more {
        let text = random.pick(&["z", "z", "z", "s", "s1", "s1", "s2", "s4", "s8", "s16", "s02", "s3"]);
        insert(random, &mut format, text.as_bytes());
    }
    let mut pairs = pairs(random, &format);
    if random.one_in(6) {
        lengthen(random, &mut format, &pairs);
    }
    damage(random, &mut pairs);
    Ranged { format, pairs, draw: random.next() }
}

/// Puts an item somewhere between the others.
fn insert(random: &mut Random, format: &mut Vec<u8>, item: &[u8]) {
    let starts = items(format).into_iter().map(|item| item.start);
    let places: Vec<usize> = starts.chain([format.len()]).collect();
    let at = random.pick(&places);
    format.splice(at..at, item.iter().copied());
}

/// A pair for each z and s, and seldom fewer, or some more.
fn pairs(random: &mut Random, format: &[u8]) -> Vec<u8> {
    let mut pairs: Vec<[u16; 2]> = Vec::new();
    for _ in items(format).iter().filter(|item| item.is_open()) {
        pairs.push(pair(random));
    }
    match random.below(24) {
        0 => pairs.truncate(random.among(0, pairs.len())),
        1..5 => (0..random.among(1, 3)).for_each(|_| pairs.push([random.next() as u16, random.next() as u16])),
        _ => {}
    }
    as_pairs(pairs)
}

/// Most are short, with a least that is not above the greatest.
fn pair(random: &mut Random) -> [u16; 2] {
    let greatest = match random.below(120) {
        0..4 => random.next() as u16,
        4..6 => random.among(LONGEST_TEXT - 3, LONGEST_TEXT) as u16,
        6..16 => random.among(250, 260) as u16,
        16..22 => random.among(0, 1000) as u16,
        _ => random.among(0, 40) as u16,
    };
    match random.below(60) {
        0 => [greatest.saturating_add(1), greatest],
        1 => [random.next() as u16, greatest],
        2..12 => [greatest, greatest],
        12..20 => [0, greatest],
        _ => [random.among(0, greatest.into()) as u16, greatest],
    }
}

/// Puts in a c so long that the greatest length comes about 2^63.
fn lengthen(random: &mut Random, format: &mut Vec<u8>, pairs: &[u8]) {
    let greatest = read(format, pairs).map_or(0, |[_, greatest]| greatest);
    let chars = (1 << 63) + random.below(32) - 24 - greatest.min(1 << 62);
    insert(random, format, format!("c{chars}").as_bytes());
}

/// Seldom a part of a pair, or a byte changed.
fn damage(random: &mut Random, pairs: &mut Vec<u8>) {
    let at = random.among(0, pairs.len());
    match random.below(60) {
        0 => pairs.truncate(at),
        1 => pairs.extend(vec![0; random.among(1, 3)]),
        2 if at < pairs.len() => pairs[at] ^= 1 << random.below(8),
        _ => {}
    }
}

// ---- smaller ones

impl Ranged {
    fn with(&self, format: &[u8], pairs: Vec<u8>) -> Ranged {
        Ranged { format: format.to_vec(), pairs, draw: self.draw }
    }

    /// Without an item of the format, and without its pair.
    fn without_items(&self) -> Vec<Ranged> {
        let mut texts = 0;
        let mut without = |item: Item| {
            let format = [&self.format[..item.start], &self.format[item.end..]].concat();
            let pair = (4 * texts).min(self.pairs.len())..(4 * (texts + 1)).min(self.pairs.len());
            texts += usize::from(item.is_open());
            let pair = if item.is_open() { pair } else { 0..0 };
            self.with(&format, [&self.pairs[..pair.start], &self.pairs[pair.end..]].concat())
        };
        items(&self.format).into_iter().map(&mut without).collect()
    }

    /// With a byte of the pairs that is smaller.
    fn with_smaller_bytes(&self) -> Vec<Ranged> {
        let mut all = Vec::new();
        for (at, byte) in self.pairs.iter().enumerate().filter(|(_, byte)| **byte > 0) {
            for smaller in [0, byte / 2, byte - 1] {
                let mut pairs = self.pairs.clone();
                pairs[at] = smaller;
                all.push(self.with(&self.format, pairs));
            }
        }
        all
    }
}

impl Case for Ranged {
    fn weight(&self) -> usize {
        self.format.len() + self.pairs.len()
    }

    fn smaller(&self) -> Vec<Ranged> {
        let mut all = self.without_items();
        all.extend(shorter(&self.format).iter().map(|format| self.with(format, self.pairs.clone())));
        all.extend(shorter(&self.pairs).into_iter().map(|pairs| self.with(&self.format, pairs)));
        all.extend(self.with_smaller_bytes());
        all
    }

    fn show(&self) -> String {
        let (whole, part) = self.pairs.as_chunks::<4>();
        let pairs = pairs_of(whole.as_flattened()).unwrap_or_default();
        let shown: Vec<String> = pairs.iter().map(|[least, greatest]| format!("{least} to {greatest}")).collect();
        let part = if part.is_empty() { String::new() } else { format!(" and the bytes {}", Bytes(part)) };
        format!("range of {} with [{}]{part}", Bytes(&self.format), shown.join(", "))
    }
}
