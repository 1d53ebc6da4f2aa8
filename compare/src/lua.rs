//! Real Lua, as a process that answers questions over a pipe (`serve.lua`).
//!
//! Questions go out in a batch, and the answers come back in one; each is its length in four bytes, then its parts. All
//! numbers are little-endian. A text is its length in four bytes, then its bytes. A value is its tag as in a value list,
//! then nothing, eight bytes, or a text. A question is
//! - the call (0 measuring, 1 writing, 2 reading), two flags (`runs`, `module`), each a byte, and the format, a text;
//! - the number of its cuts in four bytes, and each cut in four;
//! - for writing the number of values in four bytes, and the values; for reading the data, a text, and the start in eight.
//!
//! An answer is
//! - for each cut, up to one whose front is refused, a byte 1, how far it came in eight bytes, and the length of the text
//!   that it gave last in four, or -1; or a byte 0 where it is refused;
//! - for the whole a byte: 0 refused, 1 accepted, 2 not run; behind a 1 what it gave: the size in eight bytes, or the
//!   record, a text, or the next position in eight bytes, the number of values in four, and the values;
//! - where the module was asked a byte: 0 and the refusal's number in eight bytes, 1 and what it gave, 2 and a message.

use crate::original::Outcome;
use crate::value::Value;
use std::env;
use std::fmt::{self, Debug, Display, Formatter};
use std::io::{Read, Write};
use std::process::{Child, ChildStdin, ChildStdout, Command, Stdio};

/// The interpreter, as Debian names it.
pub const LUA: &str = "lua5.4";

#[derive(Clone, Copy)]
pub enum Arguments<'a> {
    Measuring,
    Writing(&'a [Value]),
    Reading(&'a [u8], i64),
}

pub struct Question<'a> {
    pub format: &'a [u8],
    pub arguments: Arguments<'a>,
    /// Lengths of the format's fronts that are run first, in this order, up to one that is refused.
    pub cuts: Vec<usize>,
    /// The whole format is run where all fronts are accepted. Where one is refused it always is.
    pub runs: bool,
    /// The module may be asked too.
    pub module: bool,
}

/// What an accepted front of a format came to.
#[derive(Clone, Copy)]
pub struct Front {
    /// The size, the record's length, or the offset after what was read.
    pub length: u64,
    /// The length of the value read last, where that is a text.
    pub text: Option<usize>,
}

pub struct Answer<T> {
    /// None where a front is refused; it is the last.
    pub fronts: Vec<Option<Front>>,
    /// None where the whole was not run.
    pub whole: Option<Outcome<T>>,
    pub module: Option<Module<T>>,
}

/// What the Lua module `digribbon` answers.
pub enum Module<T> {
    Accepted(T),
    Refused(u64),
    /// An error that is no refusal.
    Failed(String),
}

impl<T: Debug> Display for Module<T> {
    fn fmt(&self, f: &mut Formatter<'_>) -> fmt::Result {
        match self {
            Module::Accepted(given) => write!(f, "gives {given:?}"),
            Module::Refused(number) => write!(f, "refuses by {number}"),
            Module::Failed(message) => write!(f, "fails: {message}"),
        }
    }
}

// ---- the process

pub struct Lua {
    child: Child,
    input: Option<ChildStdin>,
    output: ChildStdout,
    /// The module `digribbon` answers too.
    module: bool,
}

impl Lua {
    /// With the module, Lua finds it by LUA_CPATH, and what LUA_PRELOAD names is loaded first.
    pub fn start(module: bool) -> Result<Lua, String> {
        let module_line = if module { "local module = require 'digribbon'" } else { "local module" };
        let mut command = Command::new(LUA);
        command.args(["-e", &format!("{module_line}\n{}", include_str!("serve.lua"))]);
        if let Some(library) = env::var_os("LUA_PRELOAD") {
            command.env("LD_PRELOAD", library);
        }
        let child = command.stdin(Stdio::piped()).stdout(Stdio::piped()).spawn();
        let mut child = child.map_err(|why| format!("{LUA} can't be started: {why}"))?;
        let input = child.stdin.take();
        let output = child.stdout.take().ok_or("Lua has no output")?;
        Ok(Lua { child, input, output, module })
    }

    /// Lua's name and version.
    pub fn version() -> Result<String, String> {
        let output = Command::new(LUA).arg("-v").output().map_err(|why| format!("{LUA} can't be started: {why}"))?;
        let text = String::from_utf8_lossy(&output.stdout).into_owned();
        let words: Vec<&str> = text.split_whitespace().take(2).collect();
        if words.len() == 2 { Ok(words.join(" ")) } else { Err(format!("{LUA} -v says no version: {text}")) }
    }

    /// The answers, in the questions' order. An error where Lua ends.
    pub fn ask<T: Given>(&mut self, questions: &[&Question]) -> Result<Vec<Answer<T>>, String> {
        if questions.is_empty() {
            // Lua would wait for the first byte of an empty batch
            return Ok(vec![]);
        }
        let mut batch = Vec::new();
        questions.iter().for_each(|question| put_question(&mut batch, question, self.module));
        let answers = self.exchange(&batch).map_err(|why| format!("{LUA} has ended: {why}"))?;
        let mut reader = Reader(&answers);
        Ok(questions.iter().map(|question| take_answer(&mut reader, question, self.module)).collect())
    }

    /// Starts anew, after Lua has ended.
    pub fn restart(&mut self) -> Result<(), String> {
        *self = Lua::start(self.module)?;
        Ok(())
    }

    fn exchange(&mut self, batch: &[u8]) -> std::io::Result<Vec<u8>> {
        let input = self.input.as_mut().expect("Lua's input is open");
        input.write_all(&length_bytes(batch.len()))?;
        input.write_all(batch)?;
        input.flush()?;
        let mut length = [0; 4];
        self.output.read_exact(&mut length)?;
        let mut answers = vec![0; u32::from_le_bytes(length) as usize];
        self.output.read_exact(&mut answers)?;
        Ok(answers)
    }

    /// Ends the process. A sanitizer's report is a status other than 0.
    pub fn finish(mut self) -> Result<(), String> {
        drop(self.input.take());
        match self.child.wait() {
            Ok(status) if status.success() => Ok(()),
            Ok(status) => Err(format!("{LUA} ended with {status}")),
            Err(why) => Err(format!("{LUA} can't be waited for: {why}")),
        }
    }
}

// ---- questions

fn length_bytes(length: usize) -> [u8; 4] {
    u32::try_from(length).expect("a batch is shorter than 2^32 bytes").to_le_bytes()
}

fn put_text(batch: &mut Vec<u8>, text: &[u8]) {
    batch.extend(length_bytes(text.len()));
    batch.extend(text);
}

fn put_value(batch: &mut Vec<u8>, value: &Value) {
    match value {
        Value::Other => batch.push(0),
        Value::Integer(integer) => {
            batch.push(1);
            batch.extend(integer.to_le_bytes());
        }
        Value::Float(bits) => {
            batch.push(2);
            batch.extend(bits.to_le_bytes());
        }
        Value::Text(text) => {
            batch.push(3);
            put_text(batch, text);
        }
    }
}

fn put_question(batch: &mut Vec<u8>, question: &Question, module: bool) {
    let call = match question.arguments {
        Arguments::Measuring => 0,
        Arguments::Writing(_) => 1,
        Arguments::Reading(..) => 2,
    };
    batch.extend([call, u8::from(question.runs), u8::from(question.module && module)]);
    put_text(batch, question.format);
    batch.extend(length_bytes(question.cuts.len()));
    question.cuts.iter().for_each(|cut| batch.extend(length_bytes(*cut)));
    match question.arguments {
        Arguments::Measuring => {}
        Arguments::Writing(values) => {
            batch.extend(length_bytes(values.len()));
            values.iter().for_each(|value| put_value(batch, value));
        }
        Arguments::Reading(data, start) => {
            put_text(batch, data);
            batch.extend(start.to_le_bytes());
        }
    }
}

// ---- answers

pub struct Reader<'a>(&'a [u8]);

impl Reader<'_> {
    fn take<const N: usize>(&mut self) -> [u8; N] {
        let (taken, rest) = self.0.split_first_chunk().expect("Lua's answer is whole");
        self.0 = rest;
        *taken
    }

    fn byte(&mut self) -> u8 {
        self.take::<1>()[0]
    }

    fn integer(&mut self) -> i64 {
        i64::from_le_bytes(self.take())
    }

    fn text(&mut self) -> Vec<u8> {
        let length = u32::from_le_bytes(self.take()) as usize;
        let (taken, rest) = self.0.split_at(length);
        self.0 = rest;
        taken.to_vec()
    }

    fn value(&mut self) -> Value {
        match self.byte() {
            1 => Value::Integer(self.integer()),
            2 => Value::Float(u64::from_le_bytes(self.take())),
            _ => Value::Text(self.text()),
        }
    }
}

/// What an accepted call gives.
pub trait Given: Sized {
    fn taken(reader: &mut Reader) -> Self;
}

impl Given for i64 {
    fn taken(reader: &mut Reader) -> i64 {
        reader.integer()
    }
}

impl Given for Vec<u8> {
    fn taken(reader: &mut Reader) -> Vec<u8> {
        reader.text()
    }
}

/// The values, and the next position.
impl Given for (Vec<Value>, i64) {
    fn taken(reader: &mut Reader) -> (Vec<Value>, i64) {
        let position = reader.integer();
        let count = u32::from_le_bytes(reader.take());
        ((0..count).map(|_| reader.value()).collect(), position)
    }
}

fn take_answer<T: Given>(reader: &mut Reader, question: &Question, module: bool) -> Answer<T> {
    let fronts = take_fronts(reader, question.cuts.len());
    let whole = match reader.byte() {
        0 => Some(Outcome::Refused),
        1 => Some(Outcome::Accepted(T::taken(reader))),
        _ => None,
    };
    let module = (question.module && module).then(|| match reader.byte() {
        0 => Module::Refused(reader.integer() as u64),
        1 => Module::Accepted(T::taken(reader)),
        _ => Module::Failed(String::from_utf8_lossy(&reader.text()).into_owned()),
    });
    Answer { fronts, whole, module }
}

fn take_fronts(reader: &mut Reader, cuts: usize) -> Vec<Option<Front>> {
    let mut fronts = Vec::new();
    while fronts.len() < cuts {
        if reader.byte() == 0 {
            fronts.push(None);
            break;
        }
        let length = reader.integer() as u64;
        fronts.push(Some(Front { length, text: usize::try_from(i32::from_le_bytes(reader.take())).ok() }));
    }
    fronts
}
