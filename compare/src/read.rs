//! Reading: `string_unpack` against ours, values and position.

use crate::beside::{Compared, beside_original};
use crate::domain::{self, Verdict};
use crate::r#gen::{self, Random, Use};
use crate::items::items;
use crate::lua::Module;
use crate::lua_domain::{self, Asked};
use crate::original::{Original, Outcome};
use crate::ours;
use crate::report::{Case, Check, Tally, lend, refusal_of, shorter, untouched};
use crate::value::{Bytes, Value, Values, decode, encode};
use crate::write::Written;
use std::process::ExitCode;

#[derive(Clone)]
pub struct Reading {
    pub format: Vec<u8>,
    pub data: Vec<u8>,
    pub start: i64,
    /// Bytes that the longer buffer has too many and the shorter one too few.
    pub spare: usize,
    pub lacking: usize,
}

impl Case for Reading {
    fn weight(&self) -> usize {
        self.format.len() + self.data.len()
    }

    fn smaller(&self) -> Vec<Reading> {
        let mut all = Vec::new();
        let with = |format: &[u8], data: &[u8], start: i64| Reading {
            format: format.to_vec(),
            data: data.to_vec(),
            start,
            ..self.clone()
        };
        if self.start != 1 {
            all.push(with(&self.format, &self.data, 1));
            let offset = usize::try_from(self.start - 1).unwrap_or(0).min(self.data.len());
            all.push(with(&self.format, &self.data[offset..], 1));
        }
        all.extend(items(&self.format).iter().map(|item| {
            with(&[&self.format[..item.start], &self.format[item.end..]].concat(), &self.data, self.start)
        }));
        all.extend(shorter(&self.format).iter().map(|format| with(format, &self.data, self.start)));
        all.extend(shorter(&self.data).iter().map(|data| with(&self.format, data, self.start)));
        for at in (0..self.data.len().min(64)).filter(|at| self.data[*at] != 0) {
            let mut data = self.data.clone();
            data[at] = 0;
            all.push(with(&self.format, &data, self.start));
        }
        all
    }

    fn show(&self) -> String {
        format!("read {} of {} from {}", Bytes(&self.format), Bytes(&self.data), self.start)
    }
}

pub fn run(seed: u64, cases: u64) -> ExitCode {
    let mut original = Original::default();
    let mut writer = Original::default();
    let mut random = Random::new(seed);
    let mut tally = Tally::beside::<domain::Clause, domain::Finding>("read", "the original");
    let mut check = |case: &Reading| beside_original(case, &mut original, u64::MAX);
    let mut done = 0;
    while done < cases {
        let drawn = some_readings(&mut random, &mut writer);
        done += drawn.len() as u64;
        if !drawn.iter().all(|case| tally.examine(case, &mut check)) {
            break;
        }
    }
    tally.finish()
}

/// A few readings; every second time they mostly mean the same in Lua.
pub fn drawn(random: &mut Random, writer: &mut Original) -> Vec<Reading> {
    let like_lua = random.one_in(2);
    readings(random, writer, like_lua)
}

pub fn some_readings(random: &mut Random, writer: &mut Original) -> Vec<Reading> {
    readings(random, writer, false)
}

/// A written record, whole, damaged or cut; or random data; or short data at every start.
fn readings(random: &mut Random, writer: &mut Original, like_lua: bool) -> Vec<Reading> {
    let spare = random.among(1, 40);
    let lacking = if random.one_in(2) { 1 } else { random.among(1, 40) };
    match random.below(60) {
        0..39 => {
            let (format, data, start) = from_record(random, writer, like_lua);
            vec![Reading { format, data, start, spare, lacking }]
        }
        39..58 => {
            let format = some_format(random, like_lua);
            let (data, start) = from_nothing(random);
            vec![Reading { format, data, start, spare, lacking }]
        }
        _ => {
            let format = some_format(random, like_lua);
            let length = random.among(0, 6);
            let data = r#gen::data(random, length);
            let end = length as i64;
            let far = random.pick(&[i64::MIN, i64::MIN + 1, i64::MAX - 1, i64::MAX]);
            let starts = (-end - 1..=end + 2).chain([far]);
            starts.map(|start| Reading { format: format.clone(), data: data.clone(), start, spare, lacking }).collect()
        }
    }
}

fn some_format(random: &mut Random, like_lua: bool) -> Vec<u8> {
    if !like_lua {
        return r#gen::format(random, Use::Reading);
    }
    let format = r#gen::format(random, Use::Writing);
    r#gen::like_lua(random, &format)
}

/// The longest c that a record is written with.
const CAP: u64 = 100_000;

fn from_record(random: &mut Random, writer: &mut Original, like_lua: bool) -> (Vec<u8>, Vec<u8>, i64) {
    let case = if like_lua { Written::like_lua(random) } else { Written::random(random, Use::Reading) };
    let Some(record) = record_of(&case, writer) else { return (case.format, r#gen::data(random, 24), 1) };
    let before = if random.one_in(2) { 0 } else { random.among(0, 33) };
    let after = if random.one_in(2) { 0 } else { random.among(0, 20) };
    let mut data = r#gen::data(random, before);
    data.extend_from_slice(&record);
    data.extend_from_slice(&r#gen::data(random, after));
    if random.one_in(3) && !data.is_empty() {
        for _ in 0..random.among(1, 3) {
            let at = random.among(0, data.len() - 1);
            data[at] = if random.one_in(2) { random.pick(&[0, 1, 0x7F, 0x80, 0xFF]) } else { random.next() as u8 };
        }
    }
    if random.one_in(5) {
        data.truncate(random.among(before, data.len()));
    }
    let start = before as i64 + 1;
    let from_end = start - data.len() as i64 - 1;
    (case.format, data, if from_end < 0 && random.one_in(4) { from_end } else { start })
}

/// The original's record; ours where the case is outside the domain of writing.
fn record_of(case: &Written, writer: &mut Original) -> Option<Vec<u8>> {
    match domain::writing(writer, &case.format, &case.list, &case.values, CAP) {
        Verdict::Inside => match writer.pack(&case.format, &case.values) {
            Outcome::Accepted(record) => Some(record),
            _ => None,
        },
        Verdict::Excluded(_) => {
            let mut buffer = vec![0; r#gen::room(&case.format, &case.values, CAP)];
            let length = ours::pack(&case.format, &case.list, &mut buffer).ok()?;
            buffer.truncate(usize::try_from(length).ok()?);
            Some(buffer)
        }
        Verdict::Known(_) => None,
    }
}

fn from_nothing(random: &mut Random) -> (Vec<u8>, i64) {
    let length = match random.below(1000) {
        0 => random.among(65_530, 70_000),
        1..50 => random.among(60, 400),
        _ => random.among(0, 60),
    };
    let mut data = r#gen::data(random, length);
    if length > 60_000 && random.one_in(2) {
        data.iter_mut().for_each(|byte| *byte |= 1);
        data[length - 1] = 0;
    }
    let start = match random.below(40) {
        0..20 => 1,
        20..30 => random.among(1, length + 1) as i64,
        30..39 => -(random.among(0, length) as i64),
        _ => random.among(0, length + 3) as i64,
    };
    (data, start)
}

impl Compared for Reading {
    type Given = (Vec<Value>, i64);

    fn verdict(&self, original: &mut Original, _cap: u64) -> domain::Verdict {
        domain::reading(original, &self.format, &self.data, self.start)
    }

    fn original(&self, original: &mut Original) -> Outcome<(Vec<Value>, i64)> {
        original.unpack(&self.format, &self.data, self.start)
    }

    fn asked(&self, _cap: u64) -> Asked<'_> {
        lua_domain::reading(&self.format, &self.data, self.start)
    }

    fn against(&self, outcome: &Outcome<(Vec<Value>, i64)>, whose: &str, _cap: u64) -> Result<Check, String> {
        match outcome {
            Outcome::Accepted((values, position)) => accepted(self, values, *position, whose),
            Outcome::Refused => refused(self, whose),
            Outcome::Panicked => Err(format!("{whose} panics")),
        }
    }

    fn refusal(&self) -> Result<Option<u64>, String> {
        let mut list = lend(self.spare);
        let answer = ours::unpack(&self.format, &self.data, self.start, &mut list);
        refusal_of(answer, &list)
    }

    fn against_module(&self, module: &Module<(Vec<Value>, i64)>, _cap: u64) -> Result<(), String> {
        let room = match module {
            Module::Accepted((values, _)) => values.iter().map(Value::field_length).sum(),
            _ => most_room(self),
        };
        let mut list = lend(room);
        let answer = ours::unpack(&self.format, &self.data, self.start, &mut list);
        match (module, answer) {
            (Module::Accepted((values, position)), Ok(answer))
                if answer == (room as u64, *position as u64) && encode(values) == list =>
            {
                Ok(())
            }
            (Module::Refused(theirs), Err(number)) if *theirs == number => Ok(()),
            (module, answer) => Err(format!("the module {module}, ours {answer:?}")),
        }
    }
}

/// Ours gives the same values and position with a buffer as long as the list and with a longer one, and 22 with a
/// shorter one.
fn accepted(case: &Reading, values: &[Value], position: i64, whose: &str) -> Result<Check, String> {
    let length: usize = values.iter().map(Value::field_length).sum();
    for room in [length, length + case.spare] {
        let mut list = lend(room);
        let answer = ours::unpack(&case.format, &case.data, case.start, &mut list);
        if answer != Ok((length as u64, position as u64)) {
            let theirs = Values(values);
            return Err(format!("room {room}: {whose} gives {theirs}, {length} bytes, to {position}, ours {answer:?}"));
        }
        if !untouched(&list, length) {
            return Err(format!("room {room}: ours changed a byte behind the list"));
        }
        same_values(&case.format, values, &list[..length], whose)?;
    }
    let room = length.saturating_sub(case.lacking);
    let short = domain::result_too_long(length, room);
    if short {
        let mut list = lend(room);
        let answer = ours::unpack(&case.format, &case.data, case.start, &mut list);
        if answer != Err(22) || !untouched(&list, 0) {
            return Err(format!("room {room} of {length}: ours {answer:?}, or it changed the buffer"));
        }
    }
    Ok(Check::Accepted { short })
}

/// "NaNs from f compare as NaN"; all else is the same to the bit.
fn same_values(format: &[u8], theirs: &[Value], list: &[u8], whose: &str) -> Result<(), String> {
    let Some(ours) = decode(list) else { return Err(format!("ours gives a malformed list {}", Bytes(list))) };
    let options = items(format).into_iter().filter(|item| item.has_value()).map(|item| item.option);
    let same = |((theirs, ours), option): ((&Value, &Value), u8)| {
        theirs == ours || (option == b'f' && theirs.is_nan() && ours.is_nan())
    };
    if theirs.len() == ours.len() && theirs.iter().zip(&ours).zip(options).all(same) {
        return Ok(());
    }
    Err(format!("{whose} gives {}, ours {}", Values(theirs), Values(&ours)))
}

/// As much room as any list of these data needs.
fn most_room(case: &Reading) -> usize {
    let values = items(&case.format).iter().filter(|item| item.has_value()).count();
    values * (11 + case.data.len())
}

/// Ours refuses too and changes nothing. The room suffices, so 22 is wrong.
fn refused(case: &Reading, whose: &str) -> Result<Check, String> {
    let mut answers = [Ok((0, 0)), Ok((0, 0))];
    for (answer, room) in answers.iter_mut().zip([most_room(case), 0]) {
        let mut list = lend(room);
        *answer = ours::unpack(&case.format, &case.data, case.start, &mut list);
        if !matches!(answer, Err(1..=21)) || !untouched(&list, 0) {
            return Err(format!("room {room}: {whose} refuses, ours {answer:?}, or it changed the buffer"));
        }
    }
    if answers[0] != answers[1] {
        return Err(format!("ours refuses by {:?} with room and {:?} without", answers[0], answers[1]));
    }
    Ok(Check::Refused)
}
