//! The calls whose cost is measured, and both sides of each, ready to run.

use crate::original::lua_vm::LuaState;
use crate::original::{Call, Original, Outcome, pack};
use crate::ours;
use crate::value::{Value, encode};

#[derive(Clone, Copy, PartialEq, Eq)]
pub enum Kind {
    Measuring,
    Writing,
    Reading,
}

impl Kind {
    pub const ALL: [Kind; 3] = [Kind::Measuring, Kind::Writing, Kind::Reading];

    pub fn name(self) -> &'static str {
        match self {
            Kind::Measuring => "measure",
            Kind::Writing => "write",
            Kind::Reading => "read",
        }
    }

    /// The same call in Lua.
    pub fn in_lua(self) -> &'static str {
        match self {
            Kind::Measuring => "string.packsize",
            Kind::Writing => "string.pack",
            Kind::Reading => "string.unpack",
        }
    }
}

/// What ours may cost at most, as a part of what the original costs.
#[derive(Clone, Copy)]
pub enum Goal {
    Instructions(f64),
    Time(f64),
}

pub struct Workload {
    pub kind: Kind,
    /// As on a page, formats between backquotes.
    pub name: String,
    pub format: String,
    pub values: Vec<Value>,
    pub goal: Option<Goal>,
}

/// Those of the first two tables, most of them with a goal.
pub fn with_goals() -> Vec<Workload> {
    let mut all = measured();
    for kind in [Kind::Writing, Kind::Reading] {
        all.extend(records(kind));
    }
    all
}

fn measured() -> Vec<Workload> {
    let add = |name: &str, format: &str, goal: Option<f64>| Workload {
        kind: Kind::Measuring,
        name: name.to_string(),
        format: format.to_string(),
        values: vec![],
        goal: goal.map(Goal::Instructions),
    };
    vec![
        add("`<!4 b i h I4 c9`", "<!4 b i h I4 c9", Some(0.55)),
        add("1,000 mixed items", &mixed(1000, false).0, Some(0.55)),
        add("`>I2I2B` 64 times", &issues(), Some(0.45)),
        add("64 f", &"f".repeat(64), Some(0.8)),
        add("`!8 i2i4i8 b` 64 times", &aligned(), None),
    ]
}

fn issues() -> String {
    format!(">{}", "I2I2B".repeat(64))
}

/// Three items of four that align.
fn aligned() -> String {
    format!("!8{}", " i2i4i8 b".repeat(64))
}

fn integers(integers: &[i64]) -> Vec<Value> {
    integers.iter().map(|integer| Value::Integer(*integer)).collect()
}

fn text(text: &str) -> Value {
    Value::Text(text.as_bytes().to_vec())
}

/// The values of `<!4 b i h I4 s1`.
pub fn small() -> Vec<Value> {
    [integers(&[1, -2, 300, 70_000]), vec![text("holder")]].concat()
}

/// The values of `>I2I2B`.
pub fn issue() -> Vec<Value> {
    integers(&[500, 3, 1])
}

/// For writing, or for reading what was written.
fn records(kind: Kind) -> Vec<Workload> {
    let goal = |writing: f64, reading: f64| Goal::Instructions(if kind == Kind::Writing { writing } else { reading });
    let without_goal = |name: &str, format: &str, values: Vec<Value>| Workload {
        kind,
        name: name.to_string(),
        format: format.to_string(),
        values,
        goal: None,
    };
    let add = |name: &str, format: &str, values: Vec<Value>, goal: Goal| Workload {
        goal: Some(goal),
        ..without_goal(name, format, values)
    };
    let wide = vec![Value::Integer(1), Value::float(2.5), Value::float(-0.1), Value::Integer(-9), Value::Integer(12)];
    let texts = vec![text("a holder's name"), text("a station"), text("a profile of a pass")];
    let (many, many_values) = mixed(1000, true);
    vec![
        add("`<!4 b i h I4 s1`", "<!4 b i h I4 s1", small(), goal(0.6, 0.75)),
        add("`!8 b d n j T`", "!8 b d n j T", wide, goal(0.6, 1.0)),
        add("`s2 z c64`", "s2 z c64", texts, goal(0.6, 0.75)),
        add("`>I2I2B` 64 times", &issues(), vec![issue(); 64].concat(), goal(0.6, 0.75)),
        add("1,000 mixed items", &many, many_values, goal(0.8, 1.0)),
        add("`s2`, a text of 60,000 bytes", "s2", vec![text(&"t".repeat(60_000))], Goal::Time(1.2)),
        without_goal("`!8 i2i4i8 b` 64 times", &aligned(), vec![integers(&[-2, 4, -8, 1]); 64].concat()),
    ]
}

/// So many mixed items show how cost grows.
pub const COUNTS: [usize; 6] = [1, 10, 100, 1_000, 10_000, 100_000];

/// For each kind of call, a workload for each of these counts.
pub fn growing() -> Vec<Workload> {
    let of = |kind: Kind, count: usize| {
        let (format, values) = mixed(count, kind != Kind::Measuring);
        Workload { kind, name: format!("mixed items: {count}"), format, values, goal: None }
    };
    Kind::ALL.into_iter().flat_map(|kind| COUNTS.map(|count| of(kind, count))).collect()
}

/// A format of mixed items, and their values.
fn mixed(count: usize, open: bool) -> (String, Vec<Value>) {
    let (items, values): (Vec<_>, Vec<_>) = mixed_items(count, open).into_iter().unzip();
    (items.concat(), values.into_iter().flatten().collect())
}

/// Items of every kind, each a part of the format and its value; z and s are for writing and reading only.
pub fn mixed_items(count: usize, open: bool) -> Vec<(&'static str, Option<Value>)> {
    let integer = Value::Integer;
    let cycle = [
        ("b", Some(integer(-5))),
        ("H", Some(integer(40_000))),
        ("i", Some(integer(-70_000))),
        ("I3", Some(integer(123_456))),
        ("c5", Some(Value::Text(b"zone".to_vec()))),
        ("j", Some(integer(-1 << 40))),
        ("f", Some(Value::float(1.25))),
        ("x", None),
        if open { ("s1", Some(Value::Text(b"holder".to_vec()))) } else { ("i2", Some(integer(300))) },
        ("d", Some(Value::float(0.1))),
        ("B", Some(integer(200))),
        ("h", Some(integer(-300))),
        ("I4", Some(integer(4_000_000_000))),
        if open { ("z", Some(Value::Text(b"station".to_vec()))) } else { ("I8", Some(integer(5))) },
        ("n", Some(Value::float(-2.5))),
        ("T", Some(integer(77))),
        ("J", Some(integer(1 << 50))),
        ("i7", Some(integer(-1))),
        ("c12", Some(Value::Text(b"profile".to_vec()))),
        ("Xi4", None),
    ];
    cycle.into_iter().cycle().take(count).collect()
}

impl Workload {
    pub fn title(&self) -> String {
        format!("{} {}", self.kind.name(), self.name)
    }

    /// One call takes long, so few of them say enough.
    pub fn is_large(&self) -> bool {
        self.format.len() > 10_000
    }

    /// The record, by the original.
    fn record(&self) -> Vec<u8> {
        match Original::default().pack(self.format.as_bytes(), &self.values) {
            Outcome::Accepted(record) => record,
            _ => panic!("the original refuses {}", self.format),
        }
    }

    /// The value list and the next position that reading the record gives, by the original.
    fn reading(&self) -> (Vec<u8>, i64) {
        match Original::default().unpack(self.format.as_bytes(), &self.record(), 1) {
            Outcome::Accepted((values, position)) => (encode(&values), position),
            _ => panic!("the original refuses {}", self.format),
        }
    }

    /// The arguments behind the format.
    pub fn arguments(&self) -> Vec<Value> {
        match self.kind {
            Kind::Measuring => vec![],
            Kind::Writing => self.values.clone(),
            Kind::Reading => vec![Value::Text(self.record()), Value::Integer(1)],
        }
    }

    /// Runs `work` with the original's call and a state that holds its arguments.
    pub fn with_original(&self, work: impl FnOnce(Call, &mut LuaState)) {
        let call: Call = match self.kind {
            Kind::Measuring => pack::string_packsize,
            Kind::Writing => pack::string_pack,
            Kind::Reading => pack::string_unpack,
        };
        let arguments = self.arguments();
        Original::default().with_arguments(self.format.as_bytes(), &arguments, |state| work(call, state));
    }

    /// Our call; format, value list and buffers lie ready.
    pub fn ours(&self) -> Box<dyn FnMut() + '_> {
        let format = self.format.as_bytes();
        match self.kind {
            Kind::Measuring => Box::new(move || assert!(ours::packsize(format).is_ok())),
            Kind::Writing => {
                let list = encode(&self.values);
                let mut record = vec![0; self.record().len()];
                Box::new(move || assert!(ours::pack(format, &list, &mut record).is_ok()))
            }
            Kind::Reading => {
                let record = self.record();
                let mut list = vec![0; self.reading().0.len()];
                Box::new(move || assert!(ours::unpack(format, &record, 1, &mut list).is_ok()))
            }
        }
    }

    /// Both answer the same: a cost of something else would say nothing.
    pub fn agrees(&self) -> bool {
        let format = self.format.as_bytes();
        match self.kind {
            Kind::Measuring => {
                Original::default().packsize(format) == Outcome::Accepted(ours::packsize(format).unwrap_or(0) as i64)
            }
            Kind::Writing => {
                let record = self.record();
                let mut buffer = vec![0; record.len()];
                let length = ours::pack(format, &encode(&self.values), &mut buffer);
                length == Ok(record.len() as u64) && buffer == record
            }
            Kind::Reading => {
                let (list, position) = self.reading();
                let mut buffer = vec![0; list.len()];
                let answer = ours::unpack(format, &self.record(), 1, &mut buffer);
                answer == Ok((list.len() as u64, position as u64)) && buffer == list
            }
        }
    }
}
