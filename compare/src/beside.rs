//! Ours beside the original, beside Lua, and beside our module inside Lua, on a case of any call.

use crate::domain;
use crate::lua::{Answer, Given, Lua, Module};
use crate::lua_domain::Asked;
use crate::original::{Original, Outcome};
use crate::report::{Case, Check, Named, Verdict};
use std::slice;

/// A case that can be shown to the original, and with others to Lua.
pub trait Beside: Case {
    fn by_original(&self, original: &mut Original, cap: u64) -> Check;

    /// An error where Lua ends.
    fn by_lua(batch: &[Self], lua: &mut Lua, cap: u64) -> Result<Vec<Check>, String>;
}

/// A call that each of them can be asked about. `cap` is the longest c that may be filled.
pub trait Compared: Case {
    /// What an accepted call gives.
    type Given: Given;

    fn verdict(&self, original: &mut Original, cap: u64) -> domain::Verdict;
    fn original(&self, original: &mut Original) -> Outcome<Self::Given>;
    fn asked(&self, cap: u64) -> Asked<'_>;

    /// Ours against the outcome of another, with every lent byte; an error says what differs.
    fn against(&self, outcome: &Outcome<Self::Given>, whose: &str, cap: u64) -> Result<Check, String>;

    /// The number by which ours refuses in little room, none where it accepts; an error where a refusal changes a byte.
    fn refusal(&self) -> Result<Option<u64>, String>;

    /// Ours against the module, a refusal by its number.
    fn against_module(&self, module: &Module<Self::Given>, cap: u64) -> Result<(), String>;
}

pub fn beside_original<C: Compared>(case: &C, original: &mut Original, cap: u64) -> Check {
    let compared = match case.verdict(original, cap) {
        Verdict::Excluded(clauses) => return Check::excluded(&clauses),
        Verdict::Known(finding) => held(case, finding, |refusal| finding.admits(refusal)),
        Verdict::Inside => {
            let outcome = case.original(original);
            case.against(&outcome, "the original", cap)
        }
    };
    compared.unwrap_or_else(|why| Check::Differs(format!("{why}{}", original.said())))
}

/// By Lua's answer to what it was asked.
fn beside_lua<C: Compared>(case: &C, asked: &Asked, answer: &Answer<C::Given>, cap: u64) -> Check {
    if let Some(Err(why)) = answer.module.as_ref().map(|module| case.against_module(module, cap)) {
        return Check::Differs(why);
    }
    let compared = match asked.verdict(&answer.fronts) {
        Verdict::Excluded(clauses) => return Check::excluded(&clauses),
        Verdict::Known(finding) => held(case, finding, |refusal| finding.admits(refusal)),
        Verdict::Inside => match &answer.whole {
            Some(outcome) => case.against(outcome, "Lua", cap),
            None => Err("Lua was not run, and no clause says why".to_string()),
        },
    };
    compared.unwrap_or_else(Check::Differs)
}

impl<C: Compared> Beside for C {
    fn by_original(&self, original: &mut Original, cap: u64) -> Check {
        beside_original(self, original, cap)
    }

    fn by_lua(batch: &[C], lua: &mut Lua, cap: u64) -> Result<Vec<Check>, String> {
        let asked: Vec<Asked> = batch.iter().map(|case| case.asked(cap)).collect();
        let questions: Vec<_> = asked.iter().map(|asked| &asked.question).collect();
        let answers = lua.ask(&questions)?;
        let each = batch.iter().zip(&asked).zip(&answers);
        Ok(each.map(|((case, asked), answer)| beside_lua(case, asked, answer, cap)).collect())
    }
}

/// One case by Lua. A Lua that ends at it is a difference.
pub fn ask_lua<C: Beside>(case: &C, lua: &mut Lua, cap: u64) -> Check {
    match C::by_lua(slice::from_ref(case), lua, cap) {
        Ok(checked) => checked.into_iter().next().expect("each case is checked"),
        Err(why) => Check::Differs(lua.restart().err().unwrap_or(why)),
    }
}

/// Ours answers a known finding's input as docs/FORMAT.md says.
fn held<C: Compared>(case: &C, finding: impl Named, admits: impl Fn(Option<u64>) -> bool) -> Result<Check, String> {
    match case.refusal()? {
        refusal if admits(refusal) => Ok(Check::Known(finding.place())),
        Some(number) => Err(format!("a known finding ({}), and ours refuses by {number}", finding.name())),
        None => Err(format!("a known finding ({}), and ours accepts", finding.name())),
    }
}
