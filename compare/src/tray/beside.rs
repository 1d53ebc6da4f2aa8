//! Trays beside the original and beside Lua: the plain reading goes over a run with the answer of one of them to each list.
//! The lists up to the first one that it refuses have to lie in its domain.

use super::single::room;
use super::{Alone, Tray, Trayed, called, lists, tray};
use crate::beside::Beside;
use crate::domain;
use crate::lua::{Answer, Lua};
use crate::lua_domain::{self, Asked};
use crate::original::{Original, Outcome};
use crate::report::{Check, Named, Verdict, hold};
use crate::value::{Bytes, Value, decode};

/// What ends the reading of a run at a list.
pub enum Stop {
    Refused,
    Panicked,
    /// The list lies outside the domain, by these clauses.
    Excluded(Vec<usize>),
    Known(Known),
}

/// A known finding, and by which number ours may answer there.
pub struct Known {
    finding: usize,
    name: &'static str,
    admits: Box<dyn Fn(Option<u64>) -> bool>,
}

/// A list inside the domain gives its outcome.
fn judged<C: Named, F: Named>(
    verdict: Verdict<C, F>,
    admits: fn(F, Option<u64>) -> bool,
    outcome: impl FnOnce() -> Outcome<Vec<u8>>,
) -> Alone<Stop> {
    let stop = match verdict {
        Verdict::Excluded(clauses) => Stop::Excluded(clauses.iter().map(|clause| clause.place()).collect()),
        Verdict::Known(finding) => Stop::Known(Known {
            finding: finding.place(),
            name: finding.name(),
            admits: Box::new(move |refusal| admits(finding, refusal)),
        }),
        Verdict::Inside => match outcome() {
            Outcome::Accepted(record) => return Alone::Record(record),
            Outcome::Refused => Stop::Refused,
            Outcome::Panicked => Stop::Panicked,
        },
    };
    Alone::Refused(stop)
}

/// The run by the original's records.
pub fn read_by_original(original: &mut Original, format: &[u8], run: &[u8], cap: u64) -> Tray<Stop> {
    tray(run, usize::MAX, |list| {
        let values = decode(list).unwrap_or_default();
        let verdict = domain::writing(original, format, list, &values, cap);
        judged(verdict, domain::Finding::admits, || original.pack(format, &values))
    })
}

/// A list alone, by Lua's answer.
fn by_lua(asked: &Asked, answer: Answer<Vec<u8>>) -> Alone<Stop> {
    let verdict = asked.verdict(&answer.fronts);
    judged(verdict, lua_domain::Finding::admits, || answer.whole.expect("inside the domain Lua is run"))
}

impl Beside for Trayed {
    fn by_original(&self, original: &mut Original, cap: u64) -> Check {
        let read = read_by_original(original, &self.format, &self.run, cap);
        let checked = against(self, read, "the original", domain::Clause::Refused23.place());
        checked.unwrap_or_else(|why| Check::Differs(format!("{why}{}", original.said())))
    }

    fn by_lua(batch: &[Trayed], lua: &mut Lua, cap: u64) -> Result<Vec<Check>, String> {
        let values: Vec<Vec<(&[u8], Vec<Value>)>> = batch.iter().map(with_values).collect();
        let asked: Vec<Vec<Asked>> = batch.iter().zip(&values).map(|(case, lists)| asked(case, lists, cap)).collect();
        let questions: Vec<_> = asked.iter().flatten().map(|asked| &asked.question).collect();
        let mut answers = lua.ask(&questions)?.into_iter();
        let mut checked = Vec::new();
        for (case, asked) in batch.iter().zip(&asked) {
            let mut each = asked.iter().zip(answers.by_ref()).collect::<Vec<_>>().into_iter();
            let read = tray(&case.run, usize::MAX, |_| {
                let (asked, answer) = each.next().expect("Lua is asked about each list");
                self::by_lua(asked, answer)
            });
            let check = against(case, read, "Lua", lua_domain::Clause::DamagedRun.place());
            checked.push(check.unwrap_or_else(Check::Differs));
        }
        Ok(checked)
    }
}

/// The lists of a run, with their values; a malformed one has none.
fn with_values(case: &Trayed) -> Vec<(&[u8], Vec<Value>)> {
    let lists = lists(&case.run).unwrap_or_default().into_iter();
    lists.map(|list| (list, decode(list).unwrap_or_default())).collect()
}

/// What Lua is asked about each list. Our module answers none of it: its single calls are compared elsewhere.
fn asked<'a>(case: &'a Trayed, lists: &'a [(&[u8], Vec<Value>)], cap: u64) -> Vec<Asked<'a>> {
    let ask = |(list, values): &'a (&[u8], Vec<Value>)| {
        let mut asked = lua_domain::writing(&case.format, list, values, cap);
        asked.question.module = false;
        asked
    };
    lists.iter().map(ask).collect()
}

/// Ours against the reading. `damaged` is the clause that excludes a damaged run, which has no lists to ask about.
fn against(case: &Trayed, read: Tray<Stop>, whose: &str, damaged: usize) -> Result<Check, String> {
    match read {
        Tray::Written(tray) => written(case, &tray, whose),
        Tray::Refused(Stop::Refused, place) => refused(case, place, whose),
        Tray::Refused(Stop::Known(known), place) => held(case, &known, place),
        Tray::Refused(Stop::Excluded(clauses), _) => Ok(Check::Excluded(clauses)),
        Tray::Refused(Stop::Panicked, place) => Err(format!("{whose} panics at place {place}")),
        Tray::DamagedRun => Ok(Check::Excluded(vec![damaged])),
        Tray::TooLong => unreachable!("no tray is too long for the room that the reading has"),
    }
}

/// Ours writes the records joined into a buffer as long and into a longer one, and gives 22 for a shorter one.
fn written(case: &Trayed, tray: &[u8], whose: &str) -> Result<Check, String> {
    for room in [tray.len(), tray.len() + case.spare] {
        let got = called(&case.format, &case.run, room)?;
        hold(got == Tray::Written(tray.to_vec()), || {
            format!("room {room}: {whose} writes {}, the tray {got:?}", Bytes(tray))
        })?;
    }
    let room = tray.len().saturating_sub(case.lacking);
    let short = domain::result_too_long(tray.len(), room);
    if short {
        let got = called(&case.format, &case.run, room)?;
        hold(got == Tray::TooLong, || format!("room {room} of {}: the tray {got:?}", tray.len()))?;
    }
    Ok(Check::Accepted { short })
}

/// Ours refuses at the same place, by the same number whatever the room.
fn refused(case: &Trayed, place: u64, whose: &str) -> Result<Check, String> {
    let [with, without] = [room(case), 0].map(|room| called(&case.format, &case.run, room));
    let (with, without) = (with?, without?);
    let same = with == without && matches!(with, Tray::Refused(_, at) if at == place);
    hold(same, || format!("{whose} refuses first at place {place}, ours {with:?} with room and {without:?} without"))?;
    Ok(Check::Refused)
}

/// Ours refuses this list by an admitted number, or a later one, or the whole by 22.
fn held(case: &Trayed, known: &Known, place: u64) -> Result<Check, String> {
    let got = called(&case.format, &case.run, case.spare)?;
    let admitted = match got {
        Tray::Refused(number, at) => {
            at == place && (known.admits)(Some(number)) || at > place && (known.admits)(Some(22))
        }
        Tray::TooLong => (known.admits)(Some(22)),
        _ => false,
    };
    hold(admitted, || format!("a known finding ({}) at place {place}, ours {got:?}", known.name))?;
    Ok(Check::Known(known.finding))
}
