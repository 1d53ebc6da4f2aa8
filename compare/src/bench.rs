//! What a call costs, ours beside the original and Lua 5.4: instructions and time, as tables and as plots. Calls about dates have
//! other peers, and the range of lengths stands beside our own measuring.

mod count;
mod dates;
mod lua;
mod parts;
mod plot;
mod range;
mod table;
mod time;
mod trays;
mod workloads;

use crate::lua::Lua;
use crate::page;
use crate::value::Bytes;
use dates::Call;
use range::Ranges;
use std::fs;
use std::path::Path;
use std::process::ExitCode;
use trays::Trays;
use workloads::{Workload, growing, with_goals};

use count::TrayCounts;

pub use count::counted;

/// What one call costs each of the three.
#[derive(Clone, Copy)]
struct Costs {
    original: f64,
    ours: f64,
    lua: f64,
}

impl Costs {
    fn ratio(&self) -> f64 {
        self.ours / self.original
    }

    fn of_lua(&self) -> f64 {
        self.lua / self.original
    }
}

struct Row {
    workload: Workload,
    instructions: Costs,
    nanoseconds: Costs,
}

/// What a tray costs, and what it costs to write its records by single calls.
struct TrayCosts {
    tray: f64,
    each: f64,
    original: f64,
    lua: f64,
}

struct TrayRow {
    trays: Trays,
    instructions: TrayCosts,
    nanoseconds: TrayCosts,
}

/// What a call about dates costs each side.
struct DatesRow {
    instructions: [f64; 4],
    nanoseconds: [f64; 4],
}

/// What a range of lengths costs, and two measurings beside it.
struct RangeRow {
    ranges: Ranges,
    instructions: [f64; 2],
    nanoseconds: [f64; 2],
}

struct Report {
    /// The workloads with goals, then those that grow.
    goals: Vec<Row>,
    growth: Vec<Row>,
    /// Instructions for each number of parts, by each way to write them, and by the Lua module.
    parts: Vec<([f64; 3], f64)>,
    /// Trays that are held against the others.
    trays: Vec<TrayRow>,
    /// Instructions of all trays, and of as many single calls.
    growing_trays: Vec<(Trays, [f64; 2])>,
    /// For each call about dates.
    dates: Vec<DatesRow>,
    ranges: Vec<RangeRow>,
    stand_ins: Vec<(&'static str, f64)>,
    version: String,
}

/// The page of a folder, and its part, that the tables go into.
const PAGE: &str = "COST.md";
const PART: &str = "tables";

/// The page where a folder has none.
const NEW_PAGE: &str = "\
# Cost

![Cost per call, as a part of what the original costs](cost.svg)

![How cost grows with the number of items](growth.svg)

<!-- tables -->
<!-- end of tables -->
";

/// Prints the tables; with a folder, puts them into its page, and the plots beside it.
pub fn run(folder: Option<&Path>) -> ExitCode {
    let ready = folder.map_or(Ok(()), prepare);
    match ready.and_then(|()| report()).and_then(|report| publish(&report, folder)) {
        Ok(()) => ExitCode::SUCCESS,
        Err(why) => {
            eprintln!("compare: {why}");
            ExitCode::FAILURE
        }
    }
}

/// Sees to it that a folder has a page with the part: before the long run.
fn prepare(folder: &Path) -> Result<(), String> {
    let page = folder.join(PAGE);
    fs::create_dir_all(folder).map_err(|why| format!("{} can't be made: {why}", folder.display()))?;
    if !page.exists() {
        fs::write(&page, NEW_PAGE).map_err(|why| format!("{} can't be written: {why}", page.display()))?;
    }
    page::check(&page, PART)
}

fn report() -> Result<Report, String> {
    let (goals, growth) = (with_goals(), growing());
    if let Some(workload) = goals.iter().chain(&growth).find(|workload| !workload.agrees()) {
        return Err(format!("ours and the original answer differently: {}", Bytes(workload.format.as_bytes())));
    }
    if let Some(parts) = parts::all().iter().find(|parts| !parts.agrees()) {
        return Err(format!("{} parts give another record than the whole", parts.count));
    }
    if let Some(trays) = trays::all().iter().find(|trays| !trays.agrees()) {
        return Err(format!("a {} gives another record than the original", trays.title()));
    }
    if !dates::agree() {
        return Err("ours and the peers answer differently about dates".to_string());
    }
    if let Some(ranges) = range::all().iter().find(|ranges| !ranges.agrees()) {
        return Err(format!("the range of {} has other lengths than are measured", ranges.name));
    }
    let version = Lua::version()?;
    let scratch = std::env::temp_dir().join(format!("digribbon-bench-{}", std::process::id()));
    fs::create_dir_all(&scratch).map_err(|why| format!("no folder for the counts can be made: {why}"))?;
    let report = measured(goals, growth, version, &scratch);
    let _ = fs::remove_dir_all(&scratch);
    report
}

fn measured(goals: Vec<Workload>, growth: Vec<Workload>, version: String, scratch: &Path) -> Result<Report, String> {
    eprintln!("bench: counting the instructions of ours and of the original");
    let counts = count::counts(goals.iter().chain(&growth), scratch)?;
    let mut counted = counts.workloads.iter();
    let mut row = |workload: Workload| {
        eprintln!("bench: {}", workload.title());
        let [original, ours] = *counted.next().expect("each workload is counted");
        let instructions = Costs { original, ours, lua: lua::count(&workload, scratch)? };
        let [original, ours] = time::times(&workload);
        let nanoseconds = Costs { original, ours, lua: lua::time(&workload, scratch)? };
        Ok::<Row, String>(Row { workload, instructions, nanoseconds })
    };
    let goals = goals.into_iter().map(&mut row).collect::<Result<_, _>>()?;
    let growth = growth.into_iter().map(&mut row).collect::<Result<_, _>>()?;
    let in_lua = parts::all().iter().map(|parts| lua::count_parts(parts, scratch)).collect::<Result<Vec<_>, _>>()?;
    let parts = counts.parts.into_iter().zip(in_lua).collect();
    let counted = || trays::all().into_iter().zip(&counts.trays);
    let rows = counted().filter(|(trays, _)| trays.has_goal()).map(|(trays, counts)| tray_row(trays, counts, scratch));
    let trays = rows.collect::<Result<_, _>>()?;
    let growing_trays = counted().map(|(trays, counts)| (trays, [counts.tray, counts.each])).collect();
    let dates = Call::ALL.into_iter().zip(counts.dates).map(dates_row).collect();
    let ranges = range::all().into_iter().zip(counts.ranges).map(range_row).collect();
    Ok(Report { goals, growth, parts, trays, growing_trays, dates, ranges, stand_ins: counts.stand_ins, version })
}

fn tray_row(trays: Trays, counts: &TrayCounts, scratch: &Path) -> Result<TrayRow, String> {
    eprintln!("bench: {}", trays.title());
    let (single, count) = (trays.single(), trays.count as f64);
    let instructions = TrayCosts {
        tray: counts.tray,
        each: counts.each,
        original: counts.original.expect("it is counted beside a goal"),
        lua: lua::count(&single, scratch)? * count,
    };
    let [tray, each, original] = time::times_of_tray(&trays);
    let nanoseconds = TrayCosts { tray, each, original, lua: lua::time(&single, scratch)? * count };
    Ok(TrayRow { trays, instructions, nanoseconds })
}

fn dates_row((call, instructions): (Call, [f64; 4])) -> DatesRow {
    eprintln!("bench: {}", call.name());
    DatesRow { instructions, nanoseconds: time::times_of_dates(call) }
}

fn range_row((ranges, instructions): (Ranges, [f64; 2])) -> RangeRow {
    eprintln!("bench: the range of {}", ranges.name);
    let nanoseconds = time::times_of_range(&ranges);
    RangeRow { ranges, instructions, nanoseconds }
}

fn publish(report: &Report, folder: Option<&Path>) -> Result<(), String> {
    let tables = table::tables(report);
    println!("{tables}");
    table::stand_ins(report);
    let Some(folder) = folder else { return Ok(()) };
    page::replace(&folder.join(PAGE), PART, &tables)?;
    for (name, plot) in [("cost.svg", plot::ratios(&report.goals)), ("growth.svg", plot::growth(&report.growth))] {
        let file = folder.join(name);
        fs::write(&file, plot).map_err(|why| format!("{} can't be written: {why}", file.display()))?;
    }
    Ok(())
}
