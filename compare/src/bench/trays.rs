//! What a tray of records costs beside a single call for each of them, by ours, by the original and by Lua.

use super::workloads::{Kind, Workload, issue, small};
use crate::original::lua_vm::LuaState;
use crate::original::{Call, Original, Outcome};
use crate::ours;
use crate::tray::as_run;
use crate::value::{Value, encode};

/// So many records show how cost grows.
pub const COUNTS: [usize; 5] = [1, 10, 100, 1_000, 10_000];

/// Of these, so many are held against the others and the goal.
pub const RECORDS: usize = 100;

/// What a tray may cost at most, as a part of what our single calls cost.
pub const GOAL: f64 = 0.95;

/// A tray of equal records, ready to be written.
pub struct Trays {
    pub format: &'static str,
    pub count: usize,
    values: Vec<Value>,
    list: Vec<u8>,
    run: Vec<u8>,
    /// The record, by the original.
    record: Vec<u8>,
}

/// For each format, a tray of each of these numbers of records.
pub fn all() -> Vec<Trays> {
    let formats = [("<!4 b i h I4 s1", small()), (">I2I2B", issue())];
    formats.into_iter().flat_map(|(format, values)| COUNTS.map(|count| Trays::new(format, &values, count))).collect()
}

impl Trays {
    fn new(format: &'static str, values: &[Value], count: usize) -> Trays {
        let Outcome::Accepted(record) = Original::default().pack(format.as_bytes(), values) else {
            panic!("the original refuses {format}");
        };
        let list = encode(values);
        let run = as_run(vec![&list; count]);
        Trays { format, count, values: values.to_vec(), list, run, record }
    }

    pub fn title(&self) -> String {
        format!("tray of {} `{}`", self.count, self.format)
    }

    /// It is held against the original and Lua too.
    pub fn has_goal(&self) -> bool {
        self.count == RECORDS
    }

    /// The work of one record, which the original and Lua do as often as there are records.
    pub fn single(&self) -> Workload {
        let (name, format) = (format!("`{}`", self.format), self.format.to_string());
        Workload { kind: Kind::Writing, name, format, values: self.values.clone(), goal: None }
    }

    fn room(&self) -> Vec<u8> {
        vec![0; self.count * self.record.len()]
    }

    fn pack_tray(&self, tray: &mut [u8]) {
        let length = tray.len() as u64;
        assert!(ours::pack_tray(self.format.as_bytes(), &self.run, tray) == (Ok(length), 0));
    }

    /// Each record goes behind the one before.
    fn pack_each(&self, tray: &mut [u8]) {
        for record in tray.chunks_exact_mut(self.record.len()) {
            assert!(ours::pack(self.format.as_bytes(), &self.list, record).is_ok());
        }
    }

    /// Our call for all records; format, run and buffer lie ready.
    pub fn ours(&self) -> impl FnMut() + '_ {
        let mut tray = self.room();
        move || self.pack_tray(&mut tray)
    }

    /// Our calls for each record.
    pub fn ours_each(&self) -> impl FnMut() + '_ {
        let mut tray = self.room();
        move || self.pack_each(&mut tray)
    }

    /// The original's calls for each record, and freeing what each gives.
    pub fn original_each(&self, call: Call, state: &mut LuaState) {
        for _ in 0..self.count {
            assert!(call(state).is_ok());
            state.clear();
        }
    }

    /// Both ways give the original's records: a cost of something else would say nothing.
    pub fn agrees(&self) -> bool {
        let mut trays = [self.room(), self.room()];
        self.pack_tray(&mut trays[0]);
        self.pack_each(&mut trays[1]);
        trays.iter().all(|tray| *tray == self.record.repeat(self.count))
    }
}
