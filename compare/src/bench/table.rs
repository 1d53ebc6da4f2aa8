//! The costs as tables of a page.

use super::dates::{self, APART, Call, INPUTS, SIDES};
use super::parts::{self, Way};
use super::range;
use super::time::{LEAST, SAMPLES};
use super::trays::{GOAL, RECORDS, Trays};
use super::workloads::{COUNTS, Goal, Kind};
use super::{Costs, DatesRow, RangeRow, Report, Row, TrayCosts, TrayRow};
use crate::page;
use crate::report::grouped;
use std::fmt::Write;

/// All tables, each under a line that says what it holds.
pub fn tables(report: &Report) -> String {
    let mut text = format!("{}, {}, `compare/run bench docs`.\n", page::today(), report.version);
    instructions(&mut text, &report.goals);
    times(&mut text, &report.goals);
    growth(&mut text, &report.growth);
    in_parts(&mut text, &report.parts);
    trays(&mut text, &report.trays);
    growing_trays(&mut text, &report.growing_trays);
    dates(&mut text, &report.dates);
    ranges(&mut text, &report.ranges);
    text
}

fn instructions(text: &mut String, rows: &[Row]) {
    let _ = write!(
        text,
        "\nInstructions per call; a ratio in bold misses its goal:\n\n\
         | call and input | original | ours | ratio | goal | Lua 5.4 |\n|---|---|---|---|---|---|\n"
    );
    for row in rows {
        let goal = match row.workload.goal {
            Some(Goal::Instructions(goal)) => Some(goal),
            _ => None,
        };
        line(text, row, &row.instructions, goal, |count| grouped(count.round() as u64));
    }
}

fn times(text: &mut String, rows: &[Row]) {
    let _ = write!(
        text,
        "\nTime per call, the least of {SAMPLES} samples, each of as many calls as take {LEAST} µs of processor time:\n\n\
         | call and input | original | ours | ratio | goal | Lua 5.4 |\n|---|---|---|---|---|---|\n"
    );
    for row in rows {
        let goal = match row.workload.goal {
            Some(Goal::Time(goal)) => Some(goal),
            _ => None,
        };
        line(text, row, &row.nanoseconds, goal, duration);
    }
}

fn line(text: &mut String, row: &Row, costs: &Costs, goal: Option<f64>, shown: impl Fn(f64) -> String) {
    let missed = goal.is_some_and(|goal| costs.ratio() > goal);
    let mark = if missed { "**" } else { "" };
    let goal = goal.map_or(String::new(), |goal| format!("{goal:?}"));
    let [original, ours, lua] = [costs.original, costs.ours, costs.lua].map(shown);
    let (kind, name) = (row.workload.kind.name(), &row.workload.name);
    let ratio = costs.ratio();
    let _ = writeln!(text, "| {kind} {name} | {original} | {ours} | {mark}{ratio:.2}{mark} | {goal} | {lua} |");
}

/// For each kind of call, a row for each count of items.
fn growth(text: &mut String, rows: &[Row]) {
    let _ = write!(
        text,
        "\nHow cost grows with the number of mixed items:\n\n\
         | call | items | original | ours | Lua 5.4 | time: original | ours | Lua 5.4 |\n|---|---|---|---|---|---|---|---|\n"
    );
    for (kind, rows) in Kind::ALL.iter().zip(rows.chunks(COUNTS.len())) {
        for (items, row) in COUNTS.iter().zip(rows) {
            let counts = [row.instructions.original, row.instructions.ours, row.instructions.lua];
            let counts = counts.map(|count| grouped(count.round() as u64)).join(" | ");
            let times = [row.nanoseconds.original, row.nanoseconds.ours, row.nanoseconds.lua].map(duration).join(" | ");
            let _ = writeln!(text, "| {} | {} | {counts} | {times} |", kind.name(), grouped(*items as u64));
        }
    }
}

/// A row for each number of parts.
fn in_parts(text: &mut String, counts: &[([f64; 3], f64)]) {
    let items = grouped(parts::ITEMS as u64);
    let ways = Way::ALL.map(Way::name).join(" | ");
    let _ = write!(
        text,
        "\nInstructions to write a record of {items} mixed items in parts:\n\n\
         | parts | {ways} | Lua's `writer:pack` |\n|---|---|---|---|---|\n"
    );
    for (count, ([rest, takeable, writer], lua)) in parts::COUNTS.iter().zip(counts) {
        let costs = [rest, takeable, writer, lua].map(|cost| grouped(cost.round() as u64)).join(" | ");
        let _ = writeln!(text, "| {} | {costs} |", grouped(*count as u64));
    }
}

/// For each format a row of instructions and one of time.
fn trays(text: &mut String, rows: &[TrayRow]) {
    let _ = write!(
        text,
        "\nA tray of {RECORDS} records beside a single call for each; a ratio in bold misses its goal:\n\n\
         | records, cost | tray | our single calls | original's | Lua 5.4's | tray to our single calls | goal | to the original's |\n\
         |---|---|---|---|---|---|---|---|\n"
    );
    for row in rows {
        tray_line(text, row, "instructions", &row.instructions, |count| grouped(count.round() as u64));
        tray_line(text, row, "time", &row.nanoseconds, duration);
    }
}

fn tray_line(text: &mut String, row: &TrayRow, what: &str, costs: &TrayCosts, shown: impl Fn(f64) -> String) {
    let (by_each, by_original) = (costs.tray / costs.each, costs.tray / costs.original);
    let mark = if by_each > GOAL { "**" } else { "" };
    let shown = [costs.tray, costs.each, costs.original, costs.lua].map(shown).join(" | ");
    let format = row.trays.format;
    let _ = writeln!(text, "| `{format}`, {what} | {shown} | {mark}{by_each:.2}{mark} | {GOAL:?} | {by_original:.2} |");
}

/// For each format, a row for each number of records.
fn growing_trays(text: &mut String, rows: &[(Trays, [f64; 2])]) {
    let _ = write!(
        text,
        "\nInstructions of a tray, how they grow with its records, beside our single calls:\n\n\
         | format | records | tray | for each record | single calls | for each record |\n|---|---|---|---|---|---|\n"
    );
    for (trays, costs) in rows {
        let of_each = |cost: f64| grouped((cost / trays.count as f64).round() as u64);
        let costs = costs.map(|cost| format!("{} | {}", grouped(cost.round() as u64), of_each(cost))).join(" | ");
        let _ = writeln!(text, "| `{}` | {} | {costs} |", trays.format, grouped(trays.count as u64));
    }
}

/// For each call a row of instructions and one of time.
fn dates(text: &mut String, rows: &[DatesRow]) {
    let names = SIDES.map(|(name, _)| name).join(" | ");
    let _ = write!(
        text,
        "\nCalls about dates, the mean over {} inputs, each {APART} days apart; a ratio in bold misses its goal:\n\n\
         | call, cost | {names} | ours to the bare arithmetic | goal | to that with checks | to the C library |\n\
         |---|---|---|---|---|---|---|---|---|\n",
        grouped(INPUTS as u64)
    );
    for (call, row) in Call::ALL.into_iter().zip(rows) {
        dates_line(text, call, "instructions", &row.instructions, Some(dates::GOAL), small_count);
        dates_line(text, call, "time", &row.nanoseconds, None, |time| format!("{time:.1} ns"));
    }
}

fn dates_line(
    text: &mut String,
    call: Call,
    what: &str,
    costs: &[f64; 4],
    goal: Option<f64>,
    shown: impl Fn(f64) -> String,
) {
    let [ours, bare, checked, library] = *costs;
    let ratio = ours / bare;
    let mark = if goal.is_some_and(|goal| ratio > goal) { "**" } else { "" };
    let goal = goal.map_or(String::new(), |goal| format!("{goal:?}"));
    let costs = costs.map(shown).join(" | ");
    let (checked, library) = (ours / checked, ours / library);
    let name = call.name();
    let _ =
        writeln!(text, "| {name}, {what} | {costs} | {mark}{ratio:.2}{mark} | {goal} | {checked:.2} | {library:.2} |");
}

/// For each format a row of instructions and one of time.
fn ranges(text: &mut String, rows: &[RangeRow]) {
    let [least, greatest] = range::TEXTS;
    let _ = write!(
        text,
        "\nThe least and greatest length of a record whose texts have {least} to {greatest} bytes, beside two measurings of it with \
         `c` in place of the texts; a ratio in bold misses its goal:\n\n\
         | format, cost | range | two measurings | ratio | goal |\n|---|---|---|---|---|\n"
    );
    for row in rows {
        range_line(text, row, "instructions", row.instructions, Some(range::GOAL), |count| {
            grouped(count.round() as u64)
        });
        range_line(text, row, "time", row.nanoseconds, None, duration);
    }
}

fn range_line(
    text: &mut String,
    row: &RangeRow,
    what: &str,
    costs: [f64; 2],
    goal: Option<f64>,
    shown: impl Fn(f64) -> String,
) {
    let ratio = costs[0] / costs[1];
    let mark = if goal.is_some_and(|goal| ratio > goal) { "**" } else { "" };
    let goal = goal.map_or(String::new(), |goal| format!("{goal:?}"));
    let costs = costs.map(shown).join(" | ");
    let _ = writeln!(text, "| {}, {what} | {costs} | {mark}{ratio:.2}{mark} | {goal} |", row.ranges.name);
}

/// A mean, with a digit behind the point where it is small.
fn small_count(count: f64) -> String {
    if count < 100.0 { format!("{count:.1}") } else { grouped(count.round() as u64) }
}

/// Three digits or so, with a unit.
fn duration(nanoseconds: f64) -> String {
    match nanoseconds {
        ..1e3 => format!("{nanoseconds:.0} ns"),
        1e3..1e4 => format!("{:.2} µs", nanoseconds / 1e3),
        1e4..1e6 => format!("{:.1} µs", nanoseconds / 1e3),
        _ => format!("{:.2} ms", nanoseconds / 1e6),
    }
}

/// Prints what the original's count has of the stand-ins.
pub fn stand_ins(report: &Report) {
    println!("Instructions of the original that are the stand-ins':");
    for (name, count) in &report.stand_ins {
        println!("{count:>8.1}  {name}");
    }
}
