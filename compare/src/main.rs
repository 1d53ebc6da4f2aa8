//! Holds our library against the original, pack.rs, and against itself.

mod bench;
mod beside;
mod dates;
mod domain;
mod r#gen;
mod items;
mod lua;
mod lua_domain;
mod measure;
mod original;
mod ours;
mod page;
mod prefixes;
mod properties;
mod range;
mod read;
mod record;
mod report;
mod scale;
mod tray;
mod value;
mod write;

// What pack.rs expects at its crate's top.
use original::{LuaValue, lua_vm};

use std::collections::HashMap;
use std::path::Path;
use std::process::ExitCode;

const USAGE: &str = include_str!("../usage.txt");

/// What a command is given.
struct Arguments {
    numbers: HashMap<&'static str, u64>,
    /// A page or a folder.
    place: Option<String>,
}

fn main() -> ExitCode {
    original::silence_panics();
    let arguments: Vec<String> = std::env::args().skip(1).collect();
    let Some((command, rest)) = arguments.split_first() else { return usage("a command is missing") };
    let (numbers, places): (&[(&str, u64)], _) = match command.as_str() {
        "all" => (&[("seed", 1), ("cases", 1_000_000), ("length", 4), ("cap", 100_000), ("module", 0)], 0..=1),
        "measure" => (&[("seed", 1), ("cases", 2_000_000), ("length", 4)], 0..=0),
        "write" => (&[("seed", 1), ("cases", 6_000_000), ("cap", 100_000)], 0..=0),
        "read" => (&[("seed", 1), ("cases", 6_000_000)], 0..=0),
        "tray" => (&[("seed", 1), ("cases", 1_000_000), ("length", 4), ("cap", 100_000)], 0..=0),
        "prefixes" => (&[], 0..=0),
        "range" => (&[("seed", 1), ("cases", 1_000_000), ("length", 4)], 0..=0),
        "dates" => (&[("seed", 1), ("cases", 1_000_000)], 0..=0),
        "properties" => (&[("seed", 1), ("cases", 1_000_000)], 0..=0),
        "record" => (&[], 1..=1),
        "bench" => (&[], 0..=1),
        "bench-counted" => (&[], 0..=0),
        _ => return usage(&format!("no such command: {command}")),
    };
    match given(rest, numbers) {
        Ok(arguments) if places.contains(&usize::from(arguments.place.is_some())) => run(command, &arguments),
        Ok(_) => usage(&format!("{command} has a place too many or too few")),
        Err(argument) => usage(&format!("{command} doesn't take {argument}")),
    }
}

/// The numbers, with their defaults, and the place; or an argument that fits neither.
fn given(arguments: &[String], defaults: &[(&'static str, u64)]) -> Result<Arguments, String> {
    let mut numbers: HashMap<&str, u64> = defaults.iter().copied().collect();
    let mut place = None;
    for argument in arguments {
        let Some((name, number)) = argument.split_once('=') else {
            if place.replace(argument.clone()).is_some() {
                return Err(argument.clone());
            }
            continue;
        };
        match (numbers.get_mut(name), number.parse()) {
            (Some(place), Ok(number)) => *place = number,
            _ => return Err(argument.clone()),
        }
    }
    Ok(Arguments { numbers, place })
}

fn run(command: &str, arguments: &Arguments) -> ExitCode {
    let number = |name: &str| arguments.numbers[name];
    match (command, &arguments.place) {
        ("all", page) => {
            let length = number("length") as u32;
            let numbers = scale::Numbers { seed: number("seed"), cases: number("cases"), length, cap: number("cap") };
            scale::run(&numbers, page.as_deref().map(Path::new), number("module") != 0)
        }
        ("measure", _) => measure::run(number("seed"), number("cases"), number("length") as u32),
        ("write", _) => write::run(number("seed"), number("cases"), number("cap")),
        ("read", _) => read::run(number("seed"), number("cases")),
        ("tray", _) => tray::run(number("seed"), number("cases"), number("length") as u32, number("cap")),
        ("prefixes", _) => prefixes::run().finish(),
        ("range", _) => range::run(number("seed"), number("cases"), number("length") as u32),
        ("dates", _) => dates::run(number("seed"), number("cases")).finish(),
        ("properties", _) => properties::run(number("seed"), number("cases")).finish(),
        ("record", Some(directory)) => record::run(directory),
        ("bench-counted", _) => {
            bench::counted();
            ExitCode::SUCCESS
        }
        (_, folder) => bench::run(folder.as_deref().map(Path::new)),
    }
}

fn usage(why: &str) -> ExitCode {
    eprint!("compare: {why}\n{USAGE}");
    ExitCode::from(2)
}
