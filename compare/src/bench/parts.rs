//! What a record costs that is written in parts, by the calls under C names and by the writers of the Rust crate and of the
//! Lua module.

use super::workloads::mixed_items;
use crate::ours::{self, START};
use crate::value::{Value, encode};
use digribbon::{Values, Writer};

/// How many mixed items the record has.
pub const ITEMS: usize = 1000;

/// In so many parts it is written.
pub const COUNTS: [usize; 4] = [1, 10, 100, 1000];

/// How the parts are written here. (By the Lua module, lua.rs writes them.) A call walks over the list that it is lent.
#[derive(Clone, Copy)]
pub enum Way {
    /// Each part is lent all values that are left.
    Rest,
    /// Each part is lent as many of them as its format has bytes: it can't take more.
    Takeable,
    /// By `Writer::write` of the Rust crate.
    Writer,
}

impl Way {
    pub const ALL: [Way; 3] = [Way::Rest, Way::Takeable, Way::Writer];

    pub fn name(self) -> &'static str {
        match self {
            Way::Rest => "C, lent all values left",
            Way::Takeable => "C, lent as many as it can take",
            Way::Writer => "Rust's `Writer`",
        }
    }
}

/// A record's parts, each a format, and the value list.
pub struct Parts {
    pub count: usize,
    formats: Vec<String>,
    /// The values that each part takes.
    values: Vec<Vec<Value>>,
    list: Vec<u8>,
}

pub fn all() -> Vec<Parts> {
    COUNTS.map(Parts::new).into()
}

impl Parts {
    fn new(count: usize) -> Parts {
        let (items, values): (Vec<_>, Vec<Option<Value>>) = mixed_items(ITEMS, true).into_iter().unzip();
        let formats = items.chunks(ITEMS / count).map(<[&str]>::concat).collect();
        let values: Vec<Vec<Value>> =
            values.chunks(ITEMS / count).map(|values| values.iter().flatten().cloned().collect()).collect();
        let list = encode(&values.concat());
        Parts { count, formats, values, list }
    }

    /// Each part's format, and the values that it takes.
    pub fn with_values(&self) -> impl Iterator<Item = (&str, &[Value])> {
        self.formats.iter().map(String::as_str).zip(self.values.iter().map(Vec::as_slice))
    }

    /// The record by plain writing.
    pub fn record(&self) -> Vec<u8> {
        let format = self.formats.concat();
        let mut record = vec![0; self.list.len() + 16 * format.len()];
        let length = ours::pack(format.as_bytes(), &self.list, &mut record).expect("the record is accepted");
        record.truncate(length as usize);
        record
    }

    /// Writes all parts; formats, value list and buffer lie ready.
    pub fn written(&self, way: Way) -> Box<dyn FnMut() + '_> {
        let mut record = self.record();
        match way {
            Way::Rest => Box::new(move || self.write_by_calls(&mut record, |_, list| list)),
            Way::Takeable => Box::new(move || self.write_by_calls(&mut record, takeable)),
            Way::Writer => {
                let values = self.values();
                Box::new(move || write_by_writer(&self.formats, values, &mut record))
            }
        }
    }

    fn values(&self) -> &Values {
        Values::from_bytes(&self.list).expect("a value list")
    }

    fn write_by_calls(&self, record: &mut [u8], lent: impl for<'a> Fn(&str, &'a [u8]) -> &'a [u8]) {
        let (mut state, mut rest, mut written) = (START, &self.list[..], 0);
        for format in &self.formats {
            let list = lent(format, rest);
            let answer = ours::pack_continued(state, format.as_bytes(), list, &mut record[written..]);
            let answer = answer.expect("each part is accepted");
            state = answer.next;
            written += answer.written as usize;
            rest = &rest[after(rest, answer.used)..];
        }
    }

    /// Each way gives the record of plain writing: a cost of something else would say nothing.
    pub fn agrees(&self) -> bool {
        let expected = self.record();
        let by_calls = |lent: for<'a> fn(&str, &'a [u8]) -> &'a [u8]| {
            let mut record = vec![0; expected.len()];
            self.write_by_calls(&mut record, lent);
            record == expected
        };
        let mut by_writer = vec![];
        write_by_writer(&self.formats, self.values(), &mut by_writer);
        by_calls(|_, list| list) && by_calls(takeable) && by_writer == expected
    }
}

fn write_by_writer(formats: &[String], mut rest: &Values, record: &mut Vec<u8>) {
    record.clear();
    let mut writer = Writer::new();
    for format in formats {
        rest = writer.write(format, rest, record).expect("each part is accepted").rest;
    }
}

fn takeable<'a>(format: &str, list: &'a [u8]) -> &'a [u8] {
    &list[..after(list, format.len() as u64)]
}

fn after(list: &[u8], fields: u64) -> usize {
    ours::list_after(list, fields).expect("this call is never refused") as usize
}
