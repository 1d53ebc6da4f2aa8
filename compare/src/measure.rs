//! Measuring: `string_packsize` against ours.

use crate::beside::{Compared, beside_original};
use crate::domain;
use crate::r#gen::{self, Random, Use};
use crate::lua::Module;
use crate::lua_domain::{self, Asked};
use crate::original::{Original, Outcome};
use crate::ours;
use crate::report::{Case, Check, Tally, shorter};
use crate::value::Bytes;
use std::process::ExitCode;

/// The option letters, the digits 0 1 3 8 9, the blanks, and bytes that are no option.
const ALPHABET: &[u8] = b"bBhHiIlLjJTfdnczsxX<>=!01389 \t\n\rq\x00\x0B\x7F\x80";

#[derive(Clone)]
pub struct Measured(Vec<u8>);

impl Case for Measured {
    fn weight(&self) -> usize {
        self.0.len()
    }

    fn smaller(&self) -> Vec<Measured> {
        shorter(&self.0).into_iter().map(Measured).collect()
    }

    fn show(&self) -> String {
        format!("measure {}", Bytes(&self.0))
    }
}

/// Every short format, then `cases` random ones.
pub fn run(seed: u64, cases: u64, length: u32) -> ExitCode {
    let mut original = Original::default();
    let mut check = |case: &Measured| beside_original(case, &mut original, u64::MAX);
    let mut tally = Tally::beside::<domain::Clause, domain::Finding>("measure", "the original");
    let mut random = Random::new(seed);
    let drawn = (0..cases).map(|_| Measured(long_format(&mut random)));
    every_format(length).chain(drawn).all(|case| tally.examine(&case, &mut check));
    tally.finish()
}

/// Every format of up to two bytes, then every one of up to `length` bytes over the alphabet.
pub fn every_format(length: u32) -> impl Iterator<Item = Measured> {
    short_formats(length).map(Measured)
}

/// The same, for other calls.
pub fn short_formats(length: u32) -> impl Iterator<Item = Vec<u8>> {
    r#gen::every_over(every_byte(), 2).chain(r#gen::every_over(ALPHABET.to_vec(), length))
}

/// How many these are.
pub fn format_count(length: u32) -> u64 {
    r#gen::count_over(256, 2) + r#gen::count_over(ALPHABET.len(), length)
}

fn every_byte() -> Vec<u8> {
    (0..=255).collect()
}

/// A random format; every second one mostly means the same in Lua.
pub fn drawn(random: &mut Random) -> Measured {
    if random.one_in(2) {
        return Measured(long_format(random));
    }
    let format = if random.one_in(2) { long_format(random) } else { r#gen::format(random, Use::Measuring) };
    Measured(r#gen::like_lua(random, &format))
}

/// A format of which a c or two has a numeral at a limit, so that lengths around 2^63 come up.
fn long_format(random: &mut Random) -> Vec<u8> {
    let mut format = r#gen::format(random, Use::Measuring);
    for _ in 0..random.below(3) {
        let mut item = vec![b'c'];
        item.extend(std::iter::repeat_n(b'0', if random.one_in(4) { random.among(0, 40) } else { 0 }));
        item.extend_from_slice(limit_length(random).as_bytes());
        let end = random.among(0, format.len());
        let at = if random.one_in(2) { format.len() } else { end };
        format.splice(at..at, item);
        if random.one_in(2) {
            format.extend_from_slice(&r#gen::format(random, Use::Measuring));
        }
    }
    format
}

fn limit_length(random: &mut Random) -> String {
    match random.below(4) {
        0 => (i64::MAX as u64 - random.below(64)).to_string(),
        1 => (i64::MAX as u64 / 2 + random.below(64) - 32).to_string(),
        _ => r#gen::limit_numeral(random),
    }
}

impl Compared for Measured {
    type Given = i64;

    fn verdict(&self, original: &mut Original, _cap: u64) -> domain::Verdict {
        domain::measuring(original, &self.0)
    }

    fn original(&self, original: &mut Original) -> Outcome<i64> {
        original.packsize(&self.0)
    }

    fn asked(&self, _cap: u64) -> Asked<'_> {
        lua_domain::measuring(&self.0)
    }

    fn against(&self, outcome: &Outcome<i64>, whose: &str, _cap: u64) -> Result<Check, String> {
        match (outcome, ours::packsize(&self.0)) {
            (Outcome::Accepted(theirs), Ok(size)) if u64::try_from(*theirs) == Ok(size) => {
                Ok(Check::Accepted { short: false })
            }
            (Outcome::Refused, Err(1..=22)) => Ok(Check::Refused),
            (theirs, size) => Err(format!("{whose} {theirs:?}, ours {size:?}")),
        }
    }

    fn refusal(&self) -> Result<Option<u64>, String> {
        Ok(ours::packsize(&self.0).err())
    }

    fn against_module(&self, module: &Module<i64>, _cap: u64) -> Result<(), String> {
        match (module, ours::packsize(&self.0)) {
            (Module::Accepted(theirs), Ok(size)) if u64::try_from(*theirs) == Ok(size) => Ok(()),
            (Module::Refused(theirs), Err(number)) if *theirs == number => Ok(()),
            (module, size) => Err(format!("the module {module}, ours {size:?}")),
        }
    }
}
