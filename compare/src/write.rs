//! Writing: `string_pack` against ours, with every byte of the lent buffer.

use crate::beside::{Compared, beside_original};
use crate::domain;
use crate::r#gen::{self, Random, Use};
use crate::items::{Item, items};
use crate::lua::Module;
use crate::lua_domain::{self, Asked};
use crate::original::{Original, Outcome};
use crate::ours;
use crate::report::{Case, Check, Tally, lend, refusal_of, shorter, untouched};
use crate::value::{Bytes, Value, Values, decode, encode};
use std::process::ExitCode;

/// One call of writing. The list is the values', unless it was damaged.
#[derive(Clone)]
pub struct Written {
    pub format: Vec<u8>,
    pub values: Vec<Value>,
    pub list: Vec<u8>,
    /// Bytes that the longer buffer has too many and the shorter one too few.
    pub spare: usize,
    pub lacking: usize,
}

impl Written {
    pub fn new(format: Vec<u8>, values: Vec<Value>) -> Written {
        let list = encode(&values);
        Written { format, values, list, spare: 1, lacking: 1 }
    }

    pub fn random(random: &mut Random, purpose: Use) -> Written {
        let format = r#gen::format(random, purpose);
        let values = r#gen::values(random, &format);
        Written::in_some_room(random, format, values)
    }

    /// One that mostly means the same in Lua.
    pub fn like_lua(random: &mut Random) -> Written {
        let format = r#gen::format(random, Use::Writing);
        let format = r#gen::like_lua(random, &format);
        let mut values = r#gen::values(random, &format);
        r#gen::values_like_lua(random, &format, &mut values);
        Written::in_some_room(random, format, values)
    }

    fn in_some_room(random: &mut Random, format: Vec<u8>, values: Vec<Value>) -> Written {
        let spare = random.among(1, 40);
        let lacking = if random.one_in(2) { 1 } else { random.among(1, 40) };
        Written { spare, lacking, ..Written::new(format, values) }
    }

    /// One whose list is seldom malformed.
    fn damaged_at_times(random: &mut Random) -> Written {
        let mut case = Written::random(random, Use::Writing);
        if random.one_in(500) {
            case.damage(random);
        }
        case
    }

    /// Every second one mostly means the same in Lua.
    pub fn drawn(random: &mut Random) -> Written {
        if random.one_in(2) { Written::like_lua(random) } else { Written::damaged_at_times(random) }
    }

    fn damage(&mut self, random: &mut Random) {
        let at = random.among(0, self.list.len());
        match self.list.get_mut(at) {
            Some(byte) if random.one_in(2) => *byte ^= 1 << random.below(8),
            _ => self.list.truncate(at),
        }
        self.values = decode(&self.list).unwrap_or_default();
    }
}

/// The value made simpler, in a few ways.
fn simpler(value: &Value) -> Vec<Value> {
    match value {
        Value::Other | Value::Integer(0) | Value::Float(0) => vec![],
        // without its lowest bit that is set, so that few steps lead to 0
        Value::Integer(integer) => vec![Value::Integer(0), Value::Integer(integer & integer.wrapping_sub(1))],
        Value::Float(bits) => vec![Value::Float(0), Value::Float(bits & (bits - 1))],
        Value::Text(text) => shorter(text).into_iter().map(Value::Text).collect(),
    }
}

/// The format without each of its items, and the place of the value that the item takes.
pub fn without_each_item(format: &[u8]) -> Vec<(Vec<u8>, Option<usize>)> {
    let mut taken = 0;
    let mut without = |item: Item| {
        let value = item.has_value().then_some(taken);
        taken += usize::from(item.has_value());
        ([&format[..item.start], &format[item.end..]].concat(), value)
    };
    items(format).into_iter().map(&mut without).collect()
}

/// The values without one of them, where there is one at the place.
pub fn without(values: &[Value], place: Option<usize>) -> Vec<Value> {
    let kept = |at: &usize| Some(*at) != place;
    (0..values.len()).filter(kept).map(|at| values[at].clone()).collect()
}

/// The values without one of them, or with a simpler one.
pub fn fewer_or_simpler(values: &[Value]) -> Vec<Vec<Value>> {
    let mut all = Vec::new();
    for (at, value) in values.iter().enumerate() {
        let with = |instead: &[Value]| [&values[..at], instead, &values[at + 1..]].concat();
        all.push(with(&[]));
        all.extend(simpler(value).into_iter().map(|simpler| with(&[simpler])));
    }
    all
}

impl Case for Written {
    fn weight(&self) -> usize {
        self.format.len() + self.list.len()
    }

    fn smaller(&self) -> Vec<Written> {
        let with = |format: &[u8], values: Vec<Value>| Written {
            spare: self.spare,
            lacking: self.lacking,
            ..Written::new(format.to_vec(), values)
        };
        if decode(&self.list).is_none() {
            return vec![];
        }
        let mut all = Vec::new();
        for (format, taken) in without_each_item(&self.format) {
            all.push(with(&format, without(&self.values, taken)));
        }
        all.extend(shorter(&self.format).iter().map(|format| with(format, self.values.clone())));
        all.extend(fewer_or_simpler(&self.values).into_iter().map(|values| with(&self.format, values)));
        all
    }

    fn show(&self) -> String {
        format!("write {} of {} (list {})", Bytes(&self.format), Values(&self.values), Bytes(&self.list))
    }
}

/// `cases` random calls; c numerals above `cap` are kept from the original where it would fill them.
pub fn run(seed: u64, cases: u64, cap: u64) -> ExitCode {
    println!("write: the original is not run where it would fill a c of more than {cap} bytes");
    let mut original = Original::default();
    let mut random = Random::new(seed);
    let mut tally = Tally::beside::<domain::Clause, domain::Finding>("write", "the original");
    let mut check = |case: &Written| beside_original(case, &mut original, cap);
    (0..cases).all(|_| tally.examine(&Written::damaged_at_times(&mut random), &mut check));
    tally.finish()
}

impl Compared for Written {
    type Given = Vec<u8>;

    fn verdict(&self, original: &mut Original, cap: u64) -> domain::Verdict {
        domain::writing(original, &self.format, &self.list, &self.values, cap)
    }

    fn original(&self, original: &mut Original) -> Outcome<Vec<u8>> {
        original.pack(&self.format, &self.values)
    }

    fn asked(&self, cap: u64) -> Asked<'_> {
        lua_domain::writing(&self.format, &self.list, &self.values, cap)
    }

    fn against(&self, outcome: &Outcome<Vec<u8>>, whose: &str, cap: u64) -> Result<Check, String> {
        match outcome {
            Outcome::Accepted(record) => accepted(self, record, whose),
            Outcome::Refused => refused(self, whose, cap),
            Outcome::Panicked => Err(format!("{whose} panics")),
        }
    }

    fn refusal(&self) -> Result<Option<u64>, String> {
        let mut buffer = lend(self.spare);
        let answer = ours::pack(&self.format, &self.list, &mut buffer);
        refusal_of(answer, &buffer)
    }

    fn against_module(&self, module: &Module<Vec<u8>>, cap: u64) -> Result<(), String> {
        let room = match module {
            Module::Accepted(record) => record.len(),
            _ => r#gen::room(&self.format, &self.values, cap),
        };
        let mut buffer = lend(room);
        match (module, ours::pack(&self.format, &self.list, &mut buffer)) {
            (Module::Accepted(record), Ok(length)) if *record == buffer && length == room as u64 => Ok(()),
            (Module::Refused(theirs), Err(number)) if *theirs == number => Ok(()),
            (module, answer) => Err(format!("the module {module}, ours {answer:?}")),
        }
    }
}

/// Ours writes the record into a buffer as long and into a longer one, and gives 22 for a shorter one.
fn accepted(case: &Written, record: &[u8], whose: &str) -> Result<Check, String> {
    for room in [record.len(), record.len() + case.spare] {
        let mut buffer = lend(room);
        let answer = ours::pack(&case.format, &case.list, &mut buffer);
        if answer != Ok(record.len() as u64) {
            return Err(format!("room {room}: {whose} accepts {} bytes, ours {answer:?}", record.len()));
        }
        if buffer[..record.len()] != *record {
            let (theirs, ours) = (Bytes(record), Bytes(&buffer[..record.len()]));
            return Err(format!("room {room}: {whose} writes {theirs}, ours {ours}"));
        }
        if !untouched(&buffer, record.len()) {
            return Err(format!("room {room}: ours changed a byte behind the record"));
        }
    }
    let room = record.len().saturating_sub(case.lacking);
    let short = domain::result_too_long(record.len(), room);
    if short {
        let mut buffer = lend(room);
        let answer = ours::pack(&case.format, &case.list, &mut buffer);
        if answer != Err(22) || !untouched(&buffer, 0) {
            return Err(format!("room {room} of {}: ours {answer:?}, or it changed the buffer", record.len()));
        }
    }
    Ok(Check::Accepted { short })
}

/// Ours refuses too, by the same number whatever the room, and changes nothing. The room suffices, so 22 is wrong.
fn refused(case: &Written, whose: &str, cap: u64) -> Result<Check, String> {
    let mut answers = [Ok(0), Ok(0)];
    for (answer, room) in answers.iter_mut().zip([r#gen::room(&case.format, &case.values, cap), 0]) {
        let mut buffer = lend(room);
        *answer = ours::pack(&case.format, &case.list, &mut buffer);
        if !matches!(answer, Err(1..=21)) || !untouched(&buffer, 0) {
            return Err(format!("room {room}: {whose} refuses, ours {answer:?}, or it changed the buffer"));
        }
    }
    if answers[0] != answers[1] {
        return Err(format!("ours refuses by {:?} with room and {:?} without", answers[0], answers[1]));
    }
    Ok(Check::Refused)
}
