//! Instructions per call of ours and of the original.
//!
//! This program is started once more under `valgrind --tool=callgrind`, which counts only inside `bench_measured` and
//! writes a file at each `bench_mark`; so both are counted in one run, after two calls that warm up. What the counting
//! itself costs is counted by an empty call in the way of each, and taken off.
//!
//! Counted of the original: its call with what it allocates, and the stand-ins' part (`STAND_INS`). Not counted: putting
//! the arguments onto its stack, freeing its results. What allocating costs depends on the heap, so other blocks come and
//! go between its calls, as in a host at work. Counted of ours: the call with its arguments.
//!
//! Callgrind counts `rep movsb` as an instruction for each byte, so the C library is told to copy by vectors.

use super::dates::{self, Call, Work};
use super::parts::{self, Way};
use super::range;
use super::trays::{self, Trays};
use super::workloads::{Workload, growing, with_goals};
use crate::r#gen::Random;
use crate::original::lua_vm::LuaState;
use crate::original::{LuaValue, Original};
use crate::ours::Dates;
use crate::value::Value;
use std::fs;
use std::hint::black_box;
use std::path::{Path, PathBuf};
use std::process::Command;

// ---- under valgrind

/// Callgrind counts in here.
#[unsafe(no_mangle)]
#[inline(never)]
extern "C" fn bench_measured(call: &mut Counted) {
    (call.0)();
}

struct Counted<'a>(&'a mut dyn FnMut());

/// Callgrind writes its counts and starts anew after this.
#[unsafe(no_mangle)]
#[inline(never)]
extern "C" fn bench_mark() {
    black_box(());
}

/// Warms up, counts, marks. `reset` runs between, uncounted.
fn count<S>(repeats: u64, state: &mut S, mut call: impl FnMut(&mut S), mut reset: impl FnMut(&mut S)) {
    for _ in 0..2 {
        call(state);
        reset(state);
    }
    for _ in 0..repeats {
        bench_measured(&mut Counted(&mut || call(state)));
        reset(state);
    }
    bench_mark();
}

const REPEATS: u64 = 64;
const DATES: u64 = dates::INPUTS as u64;

fn repeats(workload: &Workload) -> u64 {
    if workload.is_large() { 2 } else { REPEATS }
}

/// A heap in use: blocks of 8 to 255 bytes, of which some come and some go.
struct Heap {
    random: Random,
    blocks: Vec<Vec<u8>>,
}

impl Heap {
    fn change(&mut self) {
        for _ in 0..5 {
            let size = self.random.among(8, 255);
            if self.blocks.is_empty() || self.random.one_in(2) {
                self.blocks.push(vec![0; size]);
            } else {
                self.blocks.swap_remove(size % self.blocks.len());
            }
        }
    }
}

/// The counted program: two empty calls, then each workload by the original and by ours, then records in parts, then trays,
/// then dates, then ranges of lengths, then the stand-ins.
pub fn counted() {
    count(REPEATS, &mut (), |()| (), |()| ());
    count_ours(REPEATS, &mut || ());
    for workload in with_goals().iter().chain(&growing()) {
        let repeats = repeats(workload);
        count_original(repeats, workload);
        count_ours(repeats, &mut workload.ours());
    }
    for parts in parts::all() {
        Way::ALL.into_iter().for_each(|way| count_ours(REPEATS, &mut parts.written(way)));
    }
    for trays in trays::all() {
        if trays.has_goal() {
            count_original(trays.count as u64, &trays.single());
        }
        count_ours(tray_repeats(&trays), &mut trays.ours_each());
        count_ours(tray_repeats(&trays), &mut trays.ours());
    }
    for call in Call::ALL {
        count_dates(call, dates::EMPTY);
        dates::SIDES.into_iter().for_each(|(_, side)| count_dates(call, side));
    }
    for ranges in range::all() {
        count_ours(REPEATS, &mut ranges.ours());
        count_ours(REPEATS, &mut ranges.measurings());
    }
    STAND_INS.iter().for_each(|(_, stand_in)| count_stand_in(*stand_in));
}

fn count_original(repeats: u64, workload: &Workload) {
    let mut heap = Heap { random: Random::new(1), blocks: vec![] };
    workload.with_original(|call, state| {
        let mut reset = |state: &mut LuaState| {
            state.clear();
            heap.change();
        };
        count(repeats, state, |state| assert!(call(state).is_ok()), &mut reset);
    });
}

/// Ours costs the same each time, so large trays are counted twice only.
fn tray_repeats(trays: &Trays) -> u64 {
    if trays.count > 100 { 2 } else { REPEATS }
}

fn count_ours(repeats: u64, mut ours: &mut dyn FnMut()) {
    count(repeats, &mut ours, |ours| black_box(ours)(), |_| ());
}

/// Each input once.
fn count_dates(call: Call, side: Dates) {
    let mut work = Work::new(side);
    match call {
        Call::DayNumber => count(DATES, &mut work, |work| work.call(Call::DayNumber), Work::next),
        Call::Date => count(DATES, &mut work, |work| work.call(Call::Date), Work::next),
        Call::LastDay => count(DATES, &mut work, |work| work.call(Call::LastDay), Work::next),
    }
}

type StandIn = fn(&mut LuaState);

const TIMES: usize = 1000;

/// What the stand-ins add to the original's count, each a thousand times.
const STAND_INS: [(&str, StandIn); 4] = [
    ("an argument as an integer", |state| {
        for _ in 0..TIMES {
            black_box(black_box(&*state).get_arg(2).and_then(|value| value.as_integer()));
        }
    }),
    ("an argument as bytes", |state| {
        for _ in 0..TIMES {
            black_box(black_box(&*state).get_arg(3).map(|value| value.as_bytes().map(<[u8]>::len)));
        }
    }),
    ("a result pushed", |state| {
        for _ in 0..TIMES {
            let _ = black_box(&mut *state).push_value(LuaValue::integer(1));
        }
    }),
    ("a text of 8 bytes made", |state| {
        for _ in 0..TIMES {
            let _ = black_box(black_box(&mut *state).create_bytes(black_box(b"eight by")));
        }
    }),
];

fn count_stand_in(stand_in: StandIn) {
    let arguments = [Value::Integer(7), Value::Text(b"text".to_vec())];
    Original::default().with_arguments(b"b", &arguments, |state| count(REPEATS, state, stand_in, LuaState::clear));
}

// ---- the counts

#[derive(Default)]
pub struct Counts {
    /// For each workload, of the original and of ours.
    pub workloads: Vec<[f64; 2]>,
    /// For each number of parts, of each way to write them.
    pub parts: Vec<[f64; 3]>,
    /// For each of the trays.
    pub trays: Vec<TrayCounts>,
    /// For each call about dates, of each side.
    pub dates: Vec<[f64; 4]>,
    /// For each range, of ours and of the two measurings.
    pub ranges: Vec<[f64; 2]>,
    /// The stand-ins' parts by name, of one use.
    pub stand_ins: Vec<(&'static str, f64)>,
}

pub struct TrayCounts {
    pub tray: f64,
    /// Of as many single calls.
    pub each: f64,
    /// Of the original's, where they are counted.
    pub original: Option<f64>,
}

/// Runs the counted program; the workloads are those of `counted`, in its order.
pub fn counts<'a>(workloads: impl Iterator<Item = &'a Workload>, folder: &Path) -> Result<Counts, String> {
    let mut files = files(folder)?.into_iter();
    let mut next = || files.next().ok_or_else(|| "valgrind gave too few counts.".to_string());
    let mut per_call = |repeats: u64| next().map(|count| count as f64 / repeats as f64);
    let (empty, empty_ours) = (per_call(REPEATS)?, per_call(REPEATS)?);
    let mut all = Counts::default();
    for workload in workloads {
        let repeats = repeats(workload);
        all.workloads.push([per_call(repeats)? - empty, per_call(repeats)? - empty_ours]);
    }
    for _ in parts::COUNTS {
        all.parts.push([per_call(REPEATS)?, per_call(REPEATS)?, per_call(REPEATS)?].map(|count| count - empty_ours));
    }
    for trays in trays::all() {
        let (repeats, count) = (tray_repeats(&trays), trays.count as u64);
        let original = if trays.has_goal() { Some((per_call(count)? - empty) * count as f64) } else { None };
        let [each, tray] = [per_call(repeats)?, per_call(repeats)?].map(|count| count - empty_ours);
        all.trays.push(TrayCounts { tray, each, original });
    }
    for _ in Call::ALL {
        let empty = per_call(DATES)?;
        let sides = [per_call(DATES)?, per_call(DATES)?, per_call(DATES)?, per_call(DATES)?];
        all.dates.push(sides.map(|count| count - empty));
    }
    for _ in range::all() {
        all.ranges.push([per_call(REPEATS)?, per_call(REPEATS)?].map(|count| count - empty_ours));
    }
    for (name, _) in STAND_INS {
        all.stand_ins.push((name, (per_call(REPEATS)? - empty) / TIMES as f64));
    }
    Ok(all)
}

pub fn valgrind() -> Command {
    let never = 1_u64 << 40;
    let mut command = Command::new("valgrind");
    command.args(["-q", "--tool=callgrind"]).env(
        "GLIBC_TUNABLES",
        format!("glibc.cpu.x86_rep_movsb_threshold={never}:glibc.cpu.x86_rep_stosb_threshold={never}"),
    );
    command
}

/// The totals of the counted program's marks, in its order.
fn files(folder: &Path) -> Result<Vec<u64>, String> {
    let out = folder.join("counts");
    let program = std::env::current_exe().map_err(|why| format!("this program has no path: {why}"))?;
    let status = valgrind()
        .args(["--toggle-collect=bench_measured", "--dump-after=bench_mark"])
        .arg(format!("--callgrind-out-file={}", out.display()))
        .arg(program)
        .arg("bench-counted")
        .status();
    match status {
        Ok(status) if status.success() => {}
        other => return Err(format!("the counted program does not run under valgrind: {other:?}")),
    }
    Ok((1..).map_while(|part| total(&PathBuf::from(format!("{}.{part}", out.display())))).collect())
}

/// The instructions that a file of callgrind has.
pub fn total(file: &Path) -> Option<u64> {
    let text = fs::read_to_string(file).ok()?;
    let line = text.lines().find_map(|line| line.strip_prefix("totals: ").or(line.strip_prefix("summary: ")))?;
    line.trim().parse().ok()
}
