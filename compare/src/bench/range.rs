//! What the least and greatest length of a record cost beside two measurings: the same format with c in place of its texts, once
//! with the least and once with the greatest.

use crate::items::{Item, items};
use crate::ours;
use crate::range::{as_pairs, with_chars};

/// What the call may cost at most, in instructions, as a part of what the two measurings cost.
pub const GOAL: f64 = 1.3;

/// The least and the greatest length of each text.
pub const TEXTS: [u16; 2] = [1, 40];

/// A format with its pairs, ready to be asked about, and what is measured beside.
pub struct Ranges {
    /// As on a page, formats between backquotes.
    pub name: String,
    format: Vec<u8>,
    pairs: Vec<u8>,
    measured: [Vec<u8>; 2],
}

pub fn all() -> Vec<Ranges> {
    let once = |format: &str| Ranges::new(format!("`{format}`"), format.to_string());
    let times = |before: &str, format: &str, count: usize| {
        Ranges::new(format!("`{before}{format}` {count} times"), [before, &format.repeat(count)].concat())
    };
    vec![
        once("z"),
        once(">I2I2Bz"),
        once("<!4 b i h I4 s1"),
        once("<!4 b i h I4 c9"),
        times("", "zs1s2s4", 16),
        times("<!4", " b i s1 h I4 z", 64),
    ]
}

impl Ranges {
    fn new(name: String, format: String) -> Ranges {
        let format = format.into_bytes();
        let texts = items(&format).into_iter().filter(Item::is_open).count();
        let pairs = as_pairs(vec![TEXTS; texts]);
        let measured = TEXTS.map(|text| with_chars(&format, &vec![text.into(); texts]));
        Ranges { name, format, pairs, measured }
    }

    /// Our call; format and pairs lie ready.
    pub fn ours(&self) -> impl FnMut() + '_ {
        || assert!(ours::packsize_range(&self.format, &self.pairs).is_ok())
    }

    /// Both measurings.
    pub fn measurings(&self) -> impl FnMut() + '_ {
        || self.measured.iter().for_each(|format| assert!(ours::packsize(format).is_ok()))
    }

    /// Both ways give the same lengths: a cost of something else would say nothing.
    pub fn agrees(&self) -> bool {
        let [least, greatest] = self.measured.each_ref().map(|format| ours::packsize(format));
        ours::packsize_range(&self.format, &self.pairs).map(|lengths| lengths.map(Ok)) == Ok([least, greatest])
    }
}
