//! Random items of formats, and values for them.

use digribbon::{Value, ValueList};

/// Numbers that are the same in each run.
pub struct Random(pub u64);

impl Random {
    pub fn below(&mut self, end: usize) -> usize {
        self.0 = self.0.wrapping_mul(6_364_136_223_846_793_005).wrapping_add(1_442_695_040_888_963_407);
        (self.0 >> 33) as usize % end
    }

    pub fn choose<T: Copy>(&mut self, all: &[T]) -> T {
        all[self.below(all.len())]
    }
}

pub const ITEMS: [&str; 26] = [
    "b", "B", "h", "i", "i1", "I3", "i16", "l", "L2", "j", "J", "T", "f", "d", "n", "c0", "c5", "z", "s1", "s", "x",
    "Xi4", "<", ">", "!4", " ",
];

const VALUES: [Value; 12] = [
    Value::Integer(0),
    Value::Integer(100),
    Value::Integer(-1),
    Value::Integer(70_000),
    Value::Integer(i64::MIN),
    Value::Float(2.0),
    Value::Float(-0.5),
    Value::Text(b""),
    Value::Text(b"zone"),
    Value::Text(b"A\0B"),
    Value::Text(&[7; 300]),
    Value::Other,
];

/// Values most of which suit the items: the others are few, so that refusals come late as well as early.
pub fn suiting(random: &mut Random, items: &[&str]) -> ValueList {
    let mut values = ValueList::new();
    for item in items {
        let value = match item.as_bytes()[0] {
            _ if random.below(12) == 0 => random.choose(&VALUES),
            b'x' | b'X' | b'<' | b'>' | b'!' | b' ' => continue,
            b'c' | b'z' | b's' => Value::Text(b"zone"),
            _ => Value::Integer(100),
        };
        values.push(value).expect("short texts");
    }
    values
}
