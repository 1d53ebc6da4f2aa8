//! All calls at scale: each case goes to ours, to the original and to Lua, and the summary into a page.

use crate::beside::{Beside, ask_lua};
use crate::dates;
use crate::r#gen::Random;
use crate::lua::Lua;
use crate::measure;
use crate::original::Original;
use crate::page;
use crate::prefixes;
use crate::properties;
use crate::range;
use crate::read;
use crate::report::{Check, Count, Tally, grouped};
use crate::tray;
use crate::write::Written;
use crate::{domain, lua_domain};
use std::fmt::Write;
use std::path::Path;
use std::process::ExitCode;
use std::time::{Duration, Instant};

pub struct Numbers {
    pub seed: u64,
    pub cases: u64,
    pub length: u32,
    pub cap: u64,
}

/// What each case is shown to, beside ours.
struct Others {
    original: Original,
    lua: Lua,
    cap: u64,
}

/// The part of a page that holds the summary.
const PART: &str = "runs";

/// Runs everything; the summary goes into `page` where one is given and nothing differs.
pub fn run(numbers: &Numbers, page: Option<&Path>, module: bool) -> ExitCode {
    let ready = page.map_or(Ok(()), |page| page::check(page, PART));
    match ready.and_then(|()| compare_all(numbers, module)) {
        Ok((tallies, version)) => conclude(numbers, &tallies, &version, page),
        Err(why) => {
            eprintln!("compare: {why}");
            ExitCode::from(2)
        }
    }
}

fn compare_all(numbers: &Numbers, module: bool) -> Result<(Vec<Tally>, String), String> {
    let version = Lua::version()?;
    let Numbers { seed, cases, length, cap } = *numbers;
    println!("all: seed {seed}, {version}, c filled up to {cap} bytes");
    let mut others = Others { original: Original::default(), lua: Lua::start(module)?, cap };
    let mut tallies = Vec::new();

    let mut random = Random::new(seed);
    let formats = measure::every_format(length).chain((0..cases).map(|_| measure::drawn(&mut random)));
    tallies.extend(compare("measure", formats, measure::format_count(length) + cases, &mut others));

    let mut random = Random::new(seed);
    let prefixed = prefixes::writings();
    let total = prefixed.len() as u64 + cases;
    let writings = prefixed.into_iter().chain((0..cases).map(|_| Written::drawn(&mut random)));
    tallies.extend(compare("write", writings, total, &mut others));

    let (mut random, mut writer) = (Random::new(seed), Original::default());
    let prefixed = prefixes::readings();
    let total = prefixed.len() as u64 + cases;
    let readings = std::iter::repeat_with(|| read::drawn(&mut random, &mut writer)).flatten();
    tallies.extend(compare("read", prefixed.into_iter().chain(readings.take(cases as usize)), total, &mut others));

    let mut random = Random::new(seed);
    let trays = tray::all_cases(&mut random, cases, length);
    tallies.extend(compare("tray", trays, tray::case_count(cases, length), &mut others));

    others.lua.finish()?;
    tallies.push(tray::against_single_calls(seed, cases, length));
    tallies.push(prefixes::run());
    tallies.push(range::against_reading(seed, cases, length));
    tallies.push(range::against_calls(seed, cases, length));
    tallies.push(dates::run(seed, cases));
    tallies.push(properties::run(seed, cases));
    Ok((tallies, version))
}

// ---- one call

/// So many cases are shown to Lua at a time.
const BATCH: usize = 500;

fn compare<C: Beside>(
    what: &'static str,
    mut cases: impl Iterator<Item = C>,
    total: u64,
    others: &mut Others,
) -> [Tally; 2] {
    let mut original = Tally::beside::<domain::Clause, domain::Finding>(what, "the original");
    let mut lua = Tally::beside::<lua_domain::Clause, lua_domain::Finding>(what, "Lua");
    let mut progress = Progress::new(what, total);
    while original.goes_on() && lua.goes_on() {
        let batch: Vec<C> = cases.by_ref().take(BATCH).collect();
        if batch.is_empty() {
            break;
        }
        compare_batch(&batch, others, &mut original, &mut lua);
        progress.show(&original, &lua);
    }
    original.end();
    lua.end();
    [original, lua]
}

fn compare_batch<C: Beside>(batch: &[C], others: &mut Others, by_original: &mut Tally, by_lua: &mut Tally) {
    let Others { original, lua, cap } = others;
    for case in batch {
        let checked = case.by_original(original, *cap);
        by_original.count(case, checked, &mut |case: &C| case.by_original(original, *cap));
    }
    for (case, checked) in batch.iter().zip(ask_batch(batch, lua, *cap)) {
        by_lua.count(case, checked, &mut |case: &C| ask_lua(case, lua, *cap));
    }
}

/// All at once; one by one where Lua ends, so that the case shows at which it does.
fn ask_batch<C: Beside>(batch: &[C], lua: &mut Lua, cap: u64) -> Vec<Check> {
    C::by_lua(batch, lua, cap).unwrap_or_else(|why| {
        lua.restart().expect(&why);
        batch.iter().map(|case| ask_lua(case, lua, cap)).collect()
    })
}

struct Progress {
    what: &'static str,
    total: u64,
    started: Instant,
    printed: Instant,
}

impl Progress {
    fn new(what: &'static str, total: u64) -> Progress {
        Progress { what, total, started: Instant::now(), printed: Instant::now() }
    }

    fn show(&mut self, original: &Tally, lua: &Tally) {
        if self.printed.elapsed() > Duration::from_secs(10) {
            self.printed = Instant::now();
            let differences = original.differences + lua.differences;
            let (cases, total) = (grouped(original.cases), grouped(self.total));
            let seconds = self.started.elapsed().as_secs();
            eprintln!("{}: {cases} of {total} cases, {differences} differences, {seconds} s", self.what);
        }
    }
}

// ---- the summary

fn conclude(numbers: &Numbers, tallies: &[Tally], version: &str, page: Option<&Path>) -> ExitCode {
    tallies.iter().for_each(|tally| print!("{}", tally.text()));
    if tallies.iter().any(|tally| tally.differences > 0) {
        return ExitCode::FAILURE;
    }
    let summary = summary(numbers, tallies, version);
    match page.map_or(Ok(()), |page| page::replace(page, PART, &summary)) {
        Ok(()) => ExitCode::SUCCESS,
        Err(why) => {
            eprintln!("compare: {why}");
            ExitCode::from(2)
        }
    }
}

/// The runs, and what each clause leaves out, as tables.
fn summary(numbers: &Numbers, tallies: &[Tally], version: &str) -> String {
    let Numbers { seed, cases, length, cap } = numbers;
    let mut text = format!(
        "{}, {version}, `compare/run all seed={seed} cases={cases} length={length} cap={cap}`:\n\n\
         | run | beside | cases | compared | outside the domain | findings | differences |\n|---|---|---|---|---|---|---|\n",
        page::today()
    );
    for tally in tallies {
        let numbers = [tally.cases, tally.compared(), tally.excluded, tally.known(), tally.differences];
        let beside = if tally.beside.is_empty() { "ours alone" } else { tally.beside };
        let _ = writeln!(text, "| {} | {beside} | {} |", tally.what, numbers.map(grouped).join(" | "));
    }
    for beside in ["the original", "Lua"] {
        let of: Vec<&Tally> = tallies.iter().filter(|tally| tally.beside == beside).collect();
        clause_table(&mut text, beside, &of);
    }
    text
}

fn clause_table(text: &mut String, beside: &str, tallies: &[&Tally]) {
    let head: Vec<&str> = tallies.iter().map(|tally| tally.what).collect();
    let _ = write!(text, "\n| outside beside {beside}, by clause | {} |\n|---|", head.join(" | "));
    let _ = writeln!(text, "{}", "---|".repeat(head.len()));
    rows(text, "", tallies, |tally| &tally.clauses);
    rows(text, "finding: ", tallies, |tally| &tally.findings);
}

fn rows(text: &mut String, mark: &str, tallies: &[&Tally], counts: impl Fn(&Tally) -> &[Count]) {
    for (at, count) in counts(tallies[0]).iter().enumerate() {
        let numbers: Vec<String> = tallies.iter().map(|tally| grouped(counts(tally)[at].count)).collect();
        let _ = writeln!(text, "| {mark}{} | {} |", count.name, numbers.join(" | "));
    }
}
