//! The costs as plots: text of SVG, for a light and for a dark page.

use super::workloads::{COUNTS, Goal, Kind};
use super::{Costs, Row};
use crate::report::grouped;
use std::fmt::Write;

const STYLE: &str = "\
text { font-family: sans-serif; font-size: 12px; fill: #1f2328 }
.title { font-size: 16px; font-weight: bold }
.head { font-weight: bold }
.small { font-size: 10px }
.value { paint-order: stroke; stroke: #ffffff; stroke-width: 3px }
.end { text-anchor: end }
.middle { text-anchor: middle }
.page { fill: #ffffff }
.grid { stroke: #d8dee4; stroke-width: 1 }
.axis { stroke: #59636e; stroke-width: 1.5 }
.goal { stroke: #1f2328; stroke-width: 2 }
.line { fill: none; stroke-width: 2 }
.original { fill: #818b98; stroke: #818b98 }
.ours { fill: #0969da; stroke: #0969da }
.lua { fill: #bc6c00; stroke: #bc6c00 }
.line.original, .line.ours, .line.lua { fill: none }
@media (prefers-color-scheme: dark) {
text { fill: #f0f6fc }
.value { stroke: #0d1117 }
.page { fill: #0d1117 }
.grid { stroke: #2f3742 }
.axis { stroke: #9198a1 }
.goal { stroke: #f0f6fc }
.ours { fill: #4493f8; stroke: #4493f8 }
.lua { fill: #e09b3d; stroke: #e09b3d }
}
";

struct Picture(String);

impl Picture {
    fn new(width: f64, height: f64, title: &str) -> Picture {
        let mut picture = Picture(format!(
            "<svg xmlns=\"http://www.w3.org/2000/svg\" viewBox=\"0 0 {width} {height}\" width=\"{width}\" \
             height=\"{height}\" role=\"img\">\n<title>{title}</title>\n<style>\n{STYLE}</style>\n\
             <rect class=\"page\" width=\"{width}\" height=\"{height}\" rx=\"8\"/>\n"
        ));
        picture.text("title", 20.0, 30.0, title);
        picture
    }

    fn text(&mut self, class: &str, x: f64, y: f64, text: &str) {
        let text = text.replace('&', "&amp;").replace('<', "&lt;").replace('>', "&gt;");
        let _ = writeln!(self.0, "<text class=\"{class}\" x=\"{x:.1}\" y=\"{y:.1}\">{text}</text>");
    }

    fn bar(&mut self, class: &str, x: f64, y: f64, width: f64, height: f64) {
        let (width, height) = (width.max(1.0), height.max(1.0));
        let _ = writeln!(
            self.0,
            "<rect class=\"{class}\" x=\"{x:.1}\" y=\"{y:.1}\" width=\"{width:.1}\" height=\"{height:.1}\"/>"
        );
    }

    fn line(&mut self, class: &str, from: (f64, f64), to: (f64, f64)) {
        let ((x1, y1), (x2, y2)) = (from, to);
        let _ =
            writeln!(self.0, "<line class=\"{class}\" x1=\"{x1:.1}\" y1=\"{y1:.1}\" x2=\"{x2:.1}\" y2=\"{y2:.1}\"/>");
    }

    fn curve(&mut self, class: &str, points: &[(f64, f64)]) {
        let points: Vec<String> = points.iter().map(|(x, y)| format!("{x:.1},{y:.1}")).collect();
        let _ = writeln!(self.0, "<polyline class=\"line {class}\" points=\"{}\"/>", points.join(" "));
    }

    /// A mark whose form tells the three apart without colour.
    fn mark(&mut self, class: &str, x: f64, y: f64) {
        let _ = match class {
            "ours" => writeln!(self.0, "<circle class=\"ours\" cx=\"{x:.1}\" cy=\"{y:.1}\" r=\"3.5\"/>"),
            "lua" => {
                let (left, right, low, high) = (x - 4.0, x + 4.0, y + 3.5, y - 4.0);
                let points = format!("{left:.1},{low:.1} {right:.1},{low:.1} {x:.1},{high:.1}");
                writeln!(self.0, "<polygon class=\"lua\" points=\"{points}\"/>")
            }
            _ => {
                let (left, top) = (x - 3.0, y - 3.0);
                writeln!(self.0, "<rect class=\"{class}\" x=\"{left:.1}\" y=\"{top:.1}\" width=\"6\" height=\"6\"/>")
            }
        };
    }

    fn end(mut self) -> String {
        self.0.push_str("</svg>\n");
        self.0
    }
}

// ---- the workloads with goals, as bars

const ROW: f64 = 30.0;
const GROUP: f64 = 26.0;
const TOP: f64 = 104.0;
/// Where each panel of bars starts, and how wide both are.
const PANELS: [f64; 2] = [236.0, 616.0];
const PANEL: f64 = 340.0;

pub fn ratios(rows: &[Row]) -> String {
    let bottom = TOP + 3.0 * GROUP + rows.len() as f64 * ROW;
    let mut picture = Picture::new(980.0, bottom + 40.0, "Cost per call, as a part of what the original costs");
    ratio_legend(&mut picture);
    let instructions = Panel::new(PANELS[0], "instructions", rows.iter().map(|row| &row.instructions));
    let time = Panel::new(PANELS[1], "time", rows.iter().map(|row| &row.nanoseconds));
    [&instructions, &time].into_iter().for_each(|panel| panel.axes(&mut picture, bottom));
    let mut y = TOP;
    for kind in Kind::ALL {
        picture.text("head", 20.0, y + 18.0, kind.name());
        y += GROUP;
        for row in rows.iter().filter(|row| row.workload.kind == kind) {
            picture.text("end", PANELS[0] - 12.0, y + 16.0, &row.workload.name.replace('`', ""));
            let (by_count, by_time) = match row.workload.goal {
                Some(Goal::Instructions(goal)) => (Some(goal), None),
                Some(Goal::Time(goal)) => (None, Some(goal)),
                None => (None, None),
            };
            instructions.bars(&mut picture, y, &row.instructions, by_count);
            time.bars(&mut picture, y, &row.nanoseconds, by_time);
            y += ROW;
        }
    }
    picture.end()
}

fn ratio_legend(picture: &mut Picture) {
    picture.bar("ours", 20.0, 47.0, 22.0, 10.0);
    picture.text("", 48.0, 56.0, "ours");
    picture.bar("lua", 100.0, 47.0, 22.0, 10.0);
    picture.text("", 128.0, 56.0, "Lua 5.4");
    picture.line("axis", (200.0, 44.0), (200.0, 60.0));
    picture.text("", 208.0, 56.0, "the original");
    picture.line("goal", (300.0, 44.0), (300.0, 60.0));
    picture.text("", 308.0, 56.0, "goal: ours should end before it");
}

struct Panel {
    left: f64,
    name: &'static str,
    /// The ratio at the right end.
    most: f64,
}

impl Panel {
    fn new<'a>(left: f64, name: &'static str, costs: impl Iterator<Item = &'a Costs>) -> Panel {
        let most = costs.fold(1.0, |most: f64, costs| most.max(costs.ratio()).max(costs.of_lua()));
        Panel { left, name, most: (most * 2.0 + 0.5).ceil() / 2.0 }
    }

    fn x(&self, ratio: f64) -> f64 {
        self.left + ratio / self.most * PANEL
    }

    fn axes(&self, picture: &mut Picture, bottom: f64) {
        picture.text("head", self.left, TOP - 14.0, self.name);
        let step = if self.most > 4.0 { 1.0 } else { 0.5 };
        for tick in (0..).map(|tick| f64::from(tick) * step).take_while(|tick| *tick <= self.most) {
            let class = if tick == 1.0 { "axis" } else { "grid" };
            picture.line(class, (self.x(tick), TOP), (self.x(tick), bottom));
            picture.text("small middle", self.x(tick), bottom + 16.0, &tick.to_string());
        }
    }

    fn bars(&self, picture: &mut Picture, y: f64, costs: &Costs, goal: Option<f64>) {
        let (ours, lua) = (self.x(costs.ratio()), self.x(costs.of_lua()));
        picture.bar("ours", self.left, y + 3.0, ours - self.left, 9.0);
        picture.bar("lua", self.left, y + 14.0, lua - self.left, 9.0);
        let mut end = ours;
        if let Some(goal) = goal.map(|goal| self.x(goal)) {
            picture.line("goal", (goal, y + 1.0), (goal, y + 13.0));
            if (ours - 4.0..ours + VALUE).contains(&goal) {
                end = goal;
            }
        }
        picture.text("small value", end + 5.0, y + 11.5, &format!("{:.2}", costs.ratio()));
        picture.text("small value", lua + 5.0, y + 22.5, &format!("{:.2}", costs.of_lua()));
    }
}

/// How wide a ratio is behind its bar.
const VALUE: f64 = 30.0;

// ---- growth, as curves

const CURVES: (f64, f64) = (236.0, 190.0);

/// A curve's class, and whose costs it shows.
type Side = (&'static str, fn(&Costs) -> f64);

const SIDES: [Side; 3] =
    [("original", |costs| costs.original), ("ours", |costs| costs.ours), ("lua", |costs| costs.lua)];

/// What is measured, where a row has it, and its unit.
type Measure = (&'static str, fn(&Row) -> &Costs, &'static str);

const MEASURES: [Measure; 2] = [("instructions", |row| &row.instructions, ""), ("time", |row| &row.nanoseconds, " ns")];

/// The cost of an item, by the number of items in a call: level where cost grows in proportion.
pub fn growth(rows: &[Row]) -> String {
    let mut picture = Picture::new(980.0, 610.0, "Cost per item, by the number of mixed items in a call");
    for (at, (class, name)) in [("original", "original"), ("ours", "ours"), ("lua", "Lua 5.4")].into_iter().enumerate()
    {
        let x = 20.0 + 110.0 * at as f64;
        picture.curve(class, &[(x, 52.0), (x + 26.0, 52.0)]);
        picture.mark(class, x + 13.0, 52.0);
        picture.text("", x + 34.0, 56.0, name);
    }
    for (down, (what, costs, unit)) in MEASURES.into_iter().enumerate() {
        let kinds: Vec<Vec<[f64; 3]>> =
            rows.chunks(COUNTS.len()).map(|rows| per_item(rows.iter().map(costs))).collect();
        let most = kinds.iter().flatten().flatten().fold(1.0, |most: f64, cost| most.max(*cost));
        for (across, (kind, curves)) in Kind::ALL.iter().zip(&kinds).enumerate() {
            let corner = (66.0 + 314.0 * across as f64, 96.0 + 262.0 * down as f64);
            let frame = Frame { corner, step: step(most), most, unit };
            picture.text("head", corner.0, corner.1 - 10.0, &format!("{}: {what} per item", kind.name()));
            frame.axes(&mut picture);
            SIDES.iter().enumerate().for_each(|(side, (class, _))| frame.curve(&mut picture, class, side, curves));
        }
    }
    picture.end()
}

/// For each count of items, what each of the three needs for one.
fn per_item<'a>(costs: impl Iterator<Item = &'a Costs>) -> Vec<[f64; 3]> {
    costs.zip(COUNTS).map(|(costs, count)| SIDES.map(|(_, side)| side(costs) / count as f64)).collect()
}

/// 1, 2 or 5 times a power of ten, of which at most ten lead to the most.
fn step(most: f64) -> f64 {
    let least = most / 10.0;
    let power = 10_f64.powf(least.log10().floor());
    [1.0, 2.0, 5.0, 10.0].map(|digit| digit * power).into_iter().find(|step| *step >= least).unwrap_or(most)
}

/// One panel of curves.
struct Frame {
    corner: (f64, f64),
    most: f64,
    step: f64,
    unit: &'static str,
}

impl Frame {
    fn x(&self, at: usize) -> f64 {
        self.corner.0 + CURVES.0 * at as f64 / (COUNTS.len() - 1) as f64
    }

    fn y(&self, cost: f64) -> f64 {
        self.corner.1 + CURVES.1 * (1.0 - cost / (self.most * 1.05))
    }

    fn axes(&self, picture: &mut Picture) {
        let (left, right) = (self.corner.0, self.corner.0 + CURVES.0);
        let (top, bottom) = (self.corner.1, self.corner.1 + CURVES.1);
        for cost in (0..).map(|tick| f64::from(tick) * self.step).take_while(|cost| *cost <= self.most * 1.05) {
            picture.line("grid", (left, self.y(cost)), (right, self.y(cost)));
            picture.text("small end", left - 6.0, self.y(cost) + 3.5, &format!("{cost}{}", self.unit));
        }
        for (at, count) in COUNTS.iter().enumerate() {
            picture.line("grid", (self.x(at), top), (self.x(at), bottom));
            picture.text("small middle", self.x(at), bottom + 14.0, &grouped(*count as u64));
        }
        picture.line("axis", (left, bottom), (right, bottom));
        picture.line("axis", (left, top), (left, bottom));
        picture.text("small middle", (left + right) / 2.0, bottom + 28.0, "items");
    }

    fn curve(&self, picture: &mut Picture, class: &str, side: usize, costs: &[[f64; 3]]) {
        let points: Vec<(f64, f64)> =
            costs.iter().enumerate().map(|(at, costs)| (self.x(at), self.y(costs[side]))).collect();
        picture.curve(class, &points);
        points.iter().for_each(|(x, y)| picture.mark(class, *x, *y));
    }
}
