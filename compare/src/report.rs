//! Counts of a run, its progress, the smallest failing input, and the summary.

use std::fmt::Write;
use std::process::ExitCode;
use std::time::{Duration, Instant};

/// Clauses of a domain, or known findings, each with its name.
pub trait Named: Copy + 'static {
    const ALL: &'static [(Self, &'static str)];

    /// Another number for each.
    fn place(self) -> usize;

    fn name(self) -> &'static str {
        let found = Self::ALL.iter().find(|(named, _)| named.place() == self.place());
        found.map_or("no name", |(_, name)| name)
    }
}

/// Whether an input is compared. It is not where clauses put it outside the domain, nor at a known finding.
pub enum Verdict<C, F> {
    Inside,
    Excluded(Vec<C>),
    Known(F),
}

/// What came of one case. A clause or a finding is given by its place.
pub enum Check {
    /// `short`: a buffer that is too short was lent too, and held to 22.
    Accepted {
        short: bool,
    },
    Refused,
    Excluded(Vec<usize>),
    Known(usize),
    Differs(String),
}

impl Check {
    pub fn excluded(clauses: &[impl Named]) -> Check {
        Check::Excluded(clauses.iter().map(|clause| clause.place()).collect())
    }
}

/// An input that can be made smaller.
pub trait Case: Clone {
    fn weight(&self) -> usize;
    fn smaller(&self) -> Vec<Self>;
    fn show(&self) -> String;
}

/// How often something with a name came up.
#[derive(Clone)]
pub struct Count {
    pub name: &'static str,
    place: usize,
    pub count: u64,
}

fn counts<N: Named>() -> Vec<Count> {
    N::ALL.iter().map(|(named, name)| Count { name, place: named.place(), count: 0 }).collect()
}

fn add(counts: &mut [Count], place: usize) {
    if let Some(found) = counts.iter_mut().find(|count| count.place == place) {
        found.count += 1;
    }
}

pub struct Tally {
    pub what: &'static str,
    /// Whose answers ours are held against; empty where ours run alone.
    pub beside: &'static str,
    started: Instant,
    printed: Instant,
    /// How long the run took, once it has ended.
    took: Option<Duration>,
    pub cases: u64,
    accepted: u64,
    refused: u64,
    pub excluded: u64,
    pub clauses: Vec<Count>,
    pub findings: Vec<Count>,
    short_buffers: u64,
    pub differences: u64,
    smallest: Option<(usize, String)>,
}

/// A run stops here: what is wrong shows in fewer.
const MOST_DIFFERENCES: u64 = 30;

impl Tally {
    /// Of ours alone.
    pub fn alone(what: &'static str) -> Tally {
        Tally {
            what,
            beside: "",
            started: Instant::now(),
            printed: Instant::now(),
            took: None,
            cases: 0,
            accepted: 0,
            refused: 0,
            excluded: 0,
            clauses: vec![],
            findings: vec![],
            short_buffers: 0,
            differences: 0,
            smallest: None,
        }
    }

    /// Beside another, with the clauses of its domain and the known findings.
    pub fn beside<C: Named, F: Named>(what: &'static str, beside: &'static str) -> Tally {
        Tally { beside, clauses: counts::<C>(), findings: counts::<F>(), ..Tally::alone(what) }
    }

    /// Checks a case and counts it, and shows progress. False once there are too many differences.
    pub fn examine<C: Case>(&mut self, case: &C, check: &mut impl FnMut(&C) -> Check) -> bool {
        let checked = check(case);
        self.count(case, checked, check);
        self.progress();
        self.goes_on()
    }

    /// Counts a case. Where it differs it is made as small as it gets, by `check`.
    pub fn count<C: Case>(&mut self, case: &C, checked: Check, check: &mut impl FnMut(&C) -> Check) {
        self.cases += 1;
        match checked {
            Check::Accepted { short } => {
                self.accepted += 1;
                self.short_buffers += u64::from(short);
            }
            Check::Refused => self.refused += 1,
            Check::Excluded(clauses) => {
                self.excluded += 1;
                clauses.into_iter().for_each(|place| add(&mut self.clauses, place));
            }
            Check::Known(place) => add(&mut self.findings, place),
            Check::Differs(why) => self.differs(case, why, check),
        }
    }

    pub fn goes_on(&self) -> bool {
        self.differences < MOST_DIFFERENCES
    }

    fn differs<C: Case>(&mut self, case: &C, why: String, check: &mut impl FnMut(&C) -> Check) {
        self.differences += 1;
        let (case, why) = smallest(case.clone(), why, check);
        let weight = case.weight();
        if self.smallest.as_ref().is_none_or(|(least, _)| weight < *least) {
            self.smallest = Some((weight, format!("{}\n  {why}", case.show())));
        }
    }

    fn progress(&mut self) {
        if self.cases.is_multiple_of(1024) && self.printed.elapsed() > Duration::from_secs(10) {
            self.printed = Instant::now();
            let seconds = self.started.elapsed().as_secs();
            eprintln!("{}: {} cases, {} differences, {seconds} s", self.what, self.cases, self.differences);
        }
    }

    /// The run has ended.
    pub fn end(&mut self) {
        self.took = Some(self.started.elapsed());
    }

    pub fn compared(&self) -> u64 {
        self.accepted + self.refused + self.differences
    }

    pub fn known(&self) -> u64 {
        self.findings.iter().map(|finding| finding.count).sum()
    }

    pub fn finish(self) -> ExitCode {
        print!("{}", self.text());
        if self.differences == 0 { ExitCode::SUCCESS } else { ExitCode::FAILURE }
    }

    /// All counts, and the smallest failing input.
    pub fn text(&self) -> String {
        let beside = if self.beside.is_empty() { String::new() } else { format!(" beside {}", self.beside) };
        let seconds = self.took.unwrap_or_else(|| self.started.elapsed()).as_secs();
        let mut text = format!("{}{beside}: {} cases in {seconds} s\n", self.what, self.cases);
        let _ = writeln!(text, "  compared {}: {} accepted, {} refused", self.compared(), self.accepted, self.refused);
        if !self.clauses.is_empty() {
            self.domain_text(&mut text);
        }
        let _ = writeln!(text, "  differences {}", self.differences);
        if let Some((_, smallest)) = &self.smallest {
            let _ = writeln!(text, "smallest failing input:\n{smallest}");
        }
        text
    }

    fn domain_text(&self, text: &mut String) {
        let _ = writeln!(text, "  calls with a buffer that is too short, held to 22: {}", self.short_buffers);
        let _ =
            writeln!(text, "  outside the domain {}; by clause (an input can be outside by several):", self.excluded);
        for Count { name, count, .. } in &self.clauses {
            let _ = writeln!(text, "    {count:>9}  {name}");
        }
        let _ = writeln!(text, "  known findings {}:", self.known());
        for Count { name, count, .. } in &self.findings {
            let _ = writeln!(text, "    {count:>9}  {name}");
        }
    }
}

/// The most cases that are tried to make one smaller.
const MOST_TRIED: u32 = 20_000;

/// Takes a smaller case as long as one of them still differs.
fn smallest<C: Case>(mut case: C, mut why: String, check: &mut impl FnMut(&C) -> Check) -> (C, String) {
    let mut tried = 0;
    'smaller: while tried < MOST_TRIED {
        for candidate in case.smaller() {
            tried += 1;
            if let Check::Differs(reason) = check(&candidate) {
                (case, why) = (candidate, reason);
                continue 'smaller;
            }
        }
        break;
    }
    (case, why)
}

/// The bytes without a run of them: halves first, then shorter runs, in many bytes down to a 64th of them.
pub fn shorter(bytes: &[u8]) -> Vec<Vec<u8>> {
    let mut all = Vec::new();
    let mut run = bytes.len().div_ceil(2);
    while run > bytes.len() / 64 {
        for start in (0..bytes.len()).step_by(run) {
            let end = (start + run).min(bytes.len());
            all.push([&bytes[..start], &bytes[end..]].concat());
        }
        run /= 2;
    }
    all
}

/// A number with a comma before each group of three digits.
pub fn grouped(number: u64) -> String {
    let digits = number.to_string();
    let mut text = String::new();
    for (at, digit) in digits.char_indices() {
        if at > 0 && (digits.len() - at).is_multiple_of(3) {
            text.push(',');
        }
        text.push(digit);
    }
    text
}

// ---- what has to hold

/// An error says what doesn't.
pub type Held = Result<(), String>;

pub fn hold(condition: bool, why: impl FnOnce() -> String) -> Held {
    if condition { Ok(()) } else { Err(why()) }
}

// ---- lent buffers

/// A buffer filled with a pattern, so that a changed byte shows.
pub fn lend(length: usize) -> Vec<u8> {
    (0..length).map(pattern).collect()
}

fn pattern(at: usize) -> u8 {
    (at as u8).wrapping_mul(167) ^ (at >> 8) as u8 ^ 0x5A
}

/// The buffer's bytes from `start` on are as they were lent. All are looked at, which is faster than to stop at the first.
pub fn untouched(buffer: &[u8], start: usize) -> bool {
    let changed = |(at, byte): (usize, &u8)| *byte ^ pattern(at);
    (start..).zip(&buffer[start.min(buffer.len())..]).map(changed).fold(0, |all, changed| all | changed) == 0
}

/// The compiler may take lent bytes for unchanged, so they are read anew.
pub fn same_after(lent: &[u8], before: &[u8]) -> Held {
    hold(std::hint::black_box(lent) == before, || "a byte that was only lent for reading changed".to_string())
}

/// The number of a refusal that left all of the buffer as it was lent, none where the call accepted.
pub fn refusal_of<T>(answer: Result<T, u64>, buffer: &[u8]) -> Result<Option<u64>, String> {
    match answer {
        Ok(_) => Ok(None),
        Err(number @ 1..=22) if untouched(buffer, 0) => Ok(Some(number)),
        Err(number) => Err(format!("refusal {number}, or it changed the buffer")),
    }
}
