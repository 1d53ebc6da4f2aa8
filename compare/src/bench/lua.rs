//! Cost of the same calls in Lua 5.4: many calls, less as many of select with the same arguments. In the same way, that of
//! records which the writer of our Lua module writes in parts.
//!
//! Instructions are those of whole runs of Lua under callgrind, garbage collection stopped. Time is processor time by
//! os.clock, sampled as in time.rs, with garbage collection. A call that costs no more than select costs 0.

use super::count::{total, valgrind};
use super::parts::Parts;
use super::time::{LEAST, SAMPLES};
use super::workloads::Workload;
use crate::lua::LUA;
use crate::value::Value;
use std::fmt::Write;
use std::fs;
use std::path::Path;
use std::process::Command;

/// Instructions per call.
pub fn count(workload: &Workload, folder: &Path) -> Result<f64, String> {
    let long = workload.format.len() > 300 || workload.values.iter().any(|value| value.field_length() > 300);
    let times = if workload.is_large() {
        2
    } else if long {
        10
    } else {
        200
    };
    let preamble = preamble(workload);
    let [with, without] = [CALLED, PASSED].map(|work| total_of(&preamble, work, times, folder));
    let counts = with.and_then(|with| Ok((with, without?)));
    let (with, without) = counts.map_err(|why| format!("{}: {why}", workload.title()))?;
    Ok(with.saturating_sub(without) as f64 / times as f64)
}

/// Where hosts/lua/test puts our module.
const MODULE: &str = concat!(env!("CARGO_MANIFEST_DIR"), "/../hosts/lua/target/?.so");

/// Instructions to write all parts of a record by the writer of our module.
pub fn count_parts(parts: &Parts, folder: &Path) -> Result<f64, String> {
    const TIMES: u64 = 10;
    const WRITTEN: &str = "local w = writer() for i = 1, #f do w:pack(f[i], unpack(v[i])) end";
    const PASSED: &str = "local w = writer() for i = 1, #f do select('#', f[i], unpack(v[i])) end";
    let (mut formats, mut values) = (String::new(), String::new());
    for (format, taken) in parts.with_values() {
        let _ = write!(formats, "{format:?},");
        let _ = write!(values, "{{{}}},", literals(taken));
    }
    let preamble = format!(
        "package.cpath = {MODULE:?}\n\
         local f, v, record = {{{formats}}}, {{{values}}}, {}\n\
         local unpack, select, writer = table.unpack, select, require('digribbon').writer\n\
         local w, joined = writer(), {{}}\n\
         for i = 1, #f do joined[i] = w:pack(f[i], unpack(v[i])) end\n\
         assert(table.concat(joined) == record)\n",
        literal(&Value::Text(parts.record()))
    );
    let [with, without] = [WRITTEN, PASSED].map(|work| total_of(&preamble, work, TIMES, folder));
    Ok(with?.saturating_sub(without?) as f64 / TIMES as f64)
}

/// `called` is the call; both lines stand in a loop.
const CALLED: &str = "called(f, unpack(v))";
const PASSED: &str = "select('#', f, unpack(v))";

/// Makes `f` the format, `v` the other arguments, `called` the call.
fn preamble(workload: &Workload) -> String {
    let mut script = String::new();
    let _ = writeln!(script, "local f = {}", literal(&Value::Text(workload.format.clone().into_bytes())));
    let _ = writeln!(script, "local v = {{{}}}", literals(&workload.arguments()));
    let _ = writeln!(script, "local unpack, select, called = table.unpack, select, {}", workload.kind.in_lua());
    script
}

/// The instructions of a whole run of Lua that does `work` some times.
fn total_of(preamble: &str, work: &str, times: u64, folder: &Path) -> Result<u64, String> {
    let script = format!("collectgarbage('stop')\n{preamble}for i = 1, {times} do {work} end\n");
    let (file, out) = (folder.join("script.lua"), folder.join("lua"));
    fs::write(&file, script).map_err(|why| format!("a script can't be written: {why}"))?;
    let status = valgrind().arg(format!("--callgrind-out-file={}", out.display())).arg(LUA).arg(&file).status();
    match status {
        Ok(status) if status.success() => total(&out).ok_or_else(|| "callgrind writes no total.".to_string()),
        other => Err(format!("{LUA} does not run {} under valgrind: {other:?}", file.display())),
    }
}

/// Nanoseconds per call.
pub fn time(workload: &Workload, folder: &Path) -> Result<f64, String> {
    let least = LEAST as f64 / 1e6;
    let script = format!(
        "{}\
         local clock = os.clock\n\
         local function calls(n) local start = clock() for i = 1, n do {CALLED} end return clock() - start end\n\
         local function passes(n) local start = clock() for i = 1, n do {PASSED} end return clock() - start end\n\
         local n = 1\n\
         while calls(n) < {least} do n = n * 2 end\n\
         local call, pass = math.huge, math.huge\n\
         for i = 1, {SAMPLES} do call, pass = math.min(call, calls(n)), math.min(pass, passes(n)) end\n\
         print(math.max(call - pass, 0) / n * 1e9)\n",
        preamble(workload)
    );
    let file = folder.join("script.lua");
    fs::write(&file, script).map_err(|why| format!("a script can't be written: {why}"))?;
    let output = Command::new(LUA).arg(&file).output().map_err(|why| format!("{LUA} can't be started: {why}"))?;
    let text = String::from_utf8_lossy(&output.stdout).into_owned();
    text.trim().parse().map_err(|_| {
        format!("{LUA} does not time {}: {text}{}", workload.title(), String::from_utf8_lossy(&output.stderr))
    })
}

fn literals(values: &[Value]) -> String {
    values.iter().map(literal).collect::<Vec<_>>().join(",")
}

fn literal(value: &Value) -> String {
    match value {
        Value::Other => "nil".to_string(),
        Value::Integer(integer) => integer.to_string(),
        Value::Float(bits) => format!("{:?}", f64::from_bits(*bits)),
        Value::Text(text) => format!("\"{}\"", text.iter().map(|byte| format!("\\{byte:03}")).collect::<String>()),
    }
}
