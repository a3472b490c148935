//! The drawing of a run as an SVG. Each step has a column; the columns are
//! wide enough for the words that stand in them, and what a colour says, a
//! word or a shape says too.

use super::held::Held;
use super::run::{seconds, Mark, Run, Standing, Step};
use second::engine::{Cause, Phase};
use std::fmt::Write;

/// The height of a lane; in it the marks, the bar of the phase, and the line
/// of the live process, from its upper edge.
const LANE: usize = 74;
const MARK: usize = 22;
const BAR: usize = 32;
const BAR_HEIGHT: usize = 20;
const LIVE: usize = 54;

/// The band of what is held back, from the upper edge of a lane, and how much
/// higher a lane is that has one.
const HELD: usize = 63;
const HELD_HEIGHT: usize = 9;
const HELD_ROOM: usize = 22;

const INK: &str = "#24313c";
const PALE: &str = "#5b6770";
const BLUE: &str = "#1f4e8c";
const GREEN: &str = "#1b7a3d";
const RED: &str = "#b3261e";

/// The looks of a bar: its word, its colour, and its meaning in the legend.
const LOOKS: [(&str, &str, &str); 7] = [
    ("down", "#e4e7ea", "down"),
    ("aside", "#a9b1b8", "aside: down until a start"),
    ("waiting", "#f6dc7d", "waiting"),
    ("starting", "#a9dbe8", "starting"),
    ("up", "#7cc48a", "up"),
    ("closing", "#f2a65a", "closing: up, to be ended"),
    ("ending", "#e88a7f", "ending"),
];

/// The place of a standing in the looks.
fn look(standing: &Standing) -> usize {
    match (standing.phase, standing.aside, standing.cause) {
        (Phase::Down, false, _) => 0,
        (Phase::Down, true, _) => 1,
        (Phase::Waiting, ..) => 2,
        (Phase::Starting, ..) => 3,
        (Phase::Up, _, Cause::None) => 4,
        (Phase::Up, ..) => 5,
        (Phase::Ending, ..) => 6,
    }
}

/// The text with what SVG reserves written as entities.
fn escaped(text: &str) -> String {
    text.replace('&', "&amp;").replace('<', "&lt;").replace('>', "&gt;")
}

/// The word at a mark.
fn word(mark: &Mark) -> String {
    match mark {
        Mark::Launch => "launch".to_string(),
        Mark::Signal(name) => name.clone(),
        Mark::StopCommand => "stop-command".to_string(),
        Mark::End(how) => format!("end {how}"),
        Mark::Order(word) => word.to_string(),
    }
}

/// The stretches of steps that look alike: first step, and the one past the
/// last.
fn stretches<T: PartialEq>(run: &Run, look: impl Fn(&Step) -> T) -> Vec<(usize, usize)> {
    let mut stretches = Vec::new();
    let mut begin = 0;
    for step in 1..=run.steps.len() {
        if step == run.steps.len() || look(&run.steps[step]) != look(&run.steps[begin]) {
            stretches.push((begin, step));
            begin = step;
        }
    }
    stretches
}

/// The marks of a service with their steps.
fn marks_of(run: &Run, service: usize) -> Vec<(usize, &Mark)> {
    let mut marks = Vec::new();
    for (number, step) in run.steps.iter().enumerate() {
        let here = step.marks.iter().filter(|(marked, _)| *marked == service);
        marks.extend(here.map(|(_, mark)| (number, mark)));
    }
    marks
}

/// A stretch of steps in which an action is held back: the first step, the one
/// past the last, and the services whose processes live meanwhile.
struct Hold<'a> {
    begin: usize,
    end: usize,
    action: &'static str,
    by: Vec<&'a str>,
}

impl Hold<'_> {
    /// What is held back, and why; of many services the first is named.
    fn words(&self) -> String {
        let who = match self.by.as_slice() {
            [one] => format!("{one} lives"),
            [one, other] => format!("{one} and {other} live"),
            [one, rest @ ..] => format!("{one} and {} more live", rest.len()),
            [] => String::new(),
        };
        format!("{} held back: {who}", self.action)
    }
}

/// The stretches in which something is held back of a service.
fn holds(run: &Run, service: usize) -> Vec<Hold<'_>> {
    let held = |step: &Step| step.held[service].clone();
    let mut holds = Vec::new();
    for (begin, end) in stretches(run, |step| held(step).map(|held| held.action)) {
        let all: Vec<Held> = run.steps[begin..end].iter().filter_map(held).collect();
        let Some(Held { action, .. }) = all.first() else { continue };
        let lives = |other: &usize| all.iter().any(|held| held.by.contains(other));
        let by = (0..run.names.len()).filter(lives).map(|other| run.names[other].as_str());
        holds.push(Hold { begin, end, action, by: by.collect() });
    }
    holds
}

/// The width of a column: the words of bars and times fit in their stretches,
/// and the words of two marks or two bands in a lane do not meet.
fn column_width(run: &Run) -> usize {
    let mut width = 44;
    let mut fit = |pixels: usize, columns: usize| width = width.max(pixels.div_ceil(columns));
    for (begin, end) in stretches(run, |step| step.clock) {
        fit(8 * seconds(run.steps[begin].clock).len() + 8, end - begin);
    }
    for service in 0..run.names.len() {
        for (begin, end) in stretches(run, |step| look(&step.standing[service])) {
            let (word, ..) = LOOKS[look(&run.steps[begin].standing[service])];
            fit(6 * word.len() + 8, end - begin);
        }
        for pair in marks_of(run, service).windows(2) {
            let letters = word(pair[0].1).len() + word(pair[1].1).len();
            fit(3 * letters + 8, pair[1].0 - pair[0].0);
        }
        for pair in holds(run, service).windows(2) {
            fit(words_width(&pair[0].words()), pair[1].begin - pair[0].begin);
        }
    }
    width
}

/// The SVG of a run, with a note above it where there is something to say.
pub fn svg(run: &Run, note: &str) -> String {
    let name_length = run.names.iter().map(String::len).max().unwrap_or(0);
    let label_length = run.steps.iter().map(|step| step.label.len()).max().unwrap_or(0);
    let note_height = if note.is_empty() { 0 } else { 24 };
    let mut tops = vec![note_height + slanted(label_length) + 16];
    for service in 0..run.names.len() {
        let room = if holds(run, service).is_empty() { 0 } else { HELD_ROOM };
        tops.push(tops[service] + LANE + room);
    }
    let drawing = Drawing {
        run,
        note,
        column: column_width(run),
        left: (9 * name_length + 24).max(100),
        tops,
        out: String::new(),
    };
    drawing.drawn()
}

/// Room for words of the size of the bands'.
fn words_width(words: &str) -> usize {
    13 * words.len() / 2 + 8
}

/// How far a slanted label reaches, upwards and to the right.
fn slanted(letters: usize) -> usize {
    letters * 51 / 10 + 10
}

struct Drawing<'a> {
    run: &'a Run,
    note: &'a str,
    column: usize,
    /// The left edge of the columns.
    left: usize,
    /// The upper edge of each lane, and the lower edge of the last.
    tops: Vec<usize>,
    out: String,
}

impl Drawing<'_> {
    fn drawn(mut self) -> String {
        let (width, height) = (self.width(), self.bottom() + 145);
        self.put(format!(
            "<svg xmlns=\"http://www.w3.org/2000/svg\" width=\"{width}\" height=\"{height}\" \
             viewBox=\"0 0 {width} {height}\" font-family=\"sans-serif\" font-size=\"12\" \
             fill=\"{INK}\" role=\"img\">"
        ));
        self.in_words();
        self.put(hatching());
        self.put(format!("<rect width=\"{width}\" height=\"{height}\" fill=\"#ffffff\"/>"));
        self.note();
        self.times();
        self.labels();
        for service in 0..self.run.names.len() {
            self.lane(service);
        }
        self.legend();
        self.put("</svg>".to_string());
        self.out
    }

    fn put(&mut self, line: String) {
        self.out.push_str(&line);
        self.out.push('\n');
    }

    /// Room for the columns, for the labels and the words of bands that pass
    /// the last, and for the legend.
    fn width(&self) -> usize {
        let columns = self.left_of(self.run.steps.len()) + 12;
        let labels = self.run.steps.iter().enumerate();
        let bands = (0..self.run.names.len()).flat_map(|service| holds(self.run, service));
        labels
            .map(|(number, step)| self.middle_of(number) + slanted(step.label.len()))
            .chain(bands.map(|hold| self.left_of(hold.begin) + words_width(&hold.words())))
            .chain([columns, self.left + LEGEND_WIDTH])
            .max()
            .unwrap_or(columns)
    }

    /// The upper edge of the lanes.
    fn top(&self) -> usize {
        self.tops[0]
    }

    /// The lower edge of the lanes.
    fn bottom(&self) -> usize {
        self.tops[self.run.names.len()]
    }

    fn left_of(&self, step: usize) -> usize {
        self.left + step * self.column
    }

    fn middle_of(&self, step: usize) -> usize {
        self.left_of(step) + self.column / 2
    }

    /// The picture in words: its title, the steps by the clock, and what is
    /// held back.
    fn in_words(&mut self) {
        let names = escaped(&self.run.names.join(", "));
        self.put(format!("<title>A run of {names}</title>"));
        let mut words = String::from("<desc>");
        if !self.note.is_empty() {
            let _ = writeln!(words, "{}", self.note);
        }
        for (begin, end) in stretches(self.run, |step| step.clock) {
            let steps = &self.run.steps[begin..end];
            let labels: Vec<&str> = steps.iter().map(|step| step.label.as_str()).collect();
            let time = seconds(steps[0].clock);
            let _ = writeln!(words, "At {time}: {}.", escaped(&labels.join(", ")));
        }
        for service in 0..self.run.names.len() {
            for hold in holds(self.run, service) {
                let _ = writeln!(words, "{}", escaped(&self.hold_in_words(service, &hold)));
            }
        }
        self.put(format!("{}</desc>", words.trim_end()));
    }

    /// From which step to which an action is held back, and why.
    fn hold_in_words(&self, service: usize, hold: &Hold) -> String {
        let step = |number: usize| {
            let step = &self.run.steps[number];
            format!("\"{}\" at {}", step.label, seconds(step.clock))
        };
        let until = if hold.end < self.run.steps.len() {
            format!("until {}", step(hold.end))
        } else {
            "and to the end of the picture".to_string()
        };
        let (name, action) = (&self.run.names[service], hold.action);
        let live = if hold.by.len() == 1 { "lives" } else { "live" };
        let who = hold.by.join(", ");
        format!(
            "From {} {until} a {action} for {name} is held back: {who} {live}.",
            step(hold.begin)
        )
    }

    /// What is said above the picture.
    fn note(&mut self) {
        if !self.note.is_empty() {
            let x = self.left;
            let note = escaped(self.note);
            self.put(format!("<text x=\"{x}\" y=\"18\" font-weight=\"bold\">{note}</text>"));
        }
    }

    /// The stretches of steps at one clock reading, with the time below them.
    fn times(&mut self) {
        let (high, low) = (self.top() - 8, self.bottom() + 24);
        for (number, (begin, end)) in stretches(self.run, |step| step.clock).into_iter().enumerate()
        {
            let (x, width) = (self.left_of(begin), (end - begin) * self.column);
            let fill = if number % 2 == 1 { "#eef3f9" } else { "#fafbfc" };
            let time = seconds(self.run.steps[begin].clock);
            self.put(format!(
                "<rect x=\"{x}\" y=\"{high}\" width=\"{width}\" height=\"{}\" fill=\"{fill}\"/>",
                low - high
            ));
            self.put(format!("<path d=\"M {x} {high} V {low}\" stroke=\"{PALE}\"/>"));
            self.put(format!(
                "<text x=\"{}\" y=\"{}\" font-weight=\"bold\">{time}</text>",
                x + 4,
                low - 6
            ));
        }
        self.put(format!(
            "<text x=\"{}\" y=\"{}\" text-anchor=\"end\" fill=\"{PALE}\">time</text>",
            self.left - 10,
            low - 6
        ));
    }

    /// Each call or action, slanted above its step.
    fn labels(&mut self) {
        let (high, low, y) = (self.top() - 8, self.bottom(), self.top() - 14);
        for (number, step) in self.run.steps.iter().enumerate() {
            let x = self.middle_of(number);
            self.put(format!(
                "<path d=\"M {x} {high} V {low}\" stroke=\"#d5dbe0\" stroke-dasharray=\"2 3\"/>"
            ));
            self.put(format!(
                "<text x=\"{x}\" y=\"{y}\" transform=\"rotate(-45 {x} {y})\"{}>{}</text>",
                label_style(step.is_call),
                escaped(&step.label)
            ));
        }
    }

    /// The name, the bars and the marks of one service.
    fn lane(&mut self, service: usize) {
        let run = self.run;
        let top = self.tops[service];
        self.put(format!(
            "<text x=\"{}\" y=\"{}\" text-anchor=\"end\" font-size=\"14\" \
             font-weight=\"bold\">{}</text>",
            self.left - 10,
            top + BAR + 9,
            escaped(&run.names[service])
        ));
        self.put(format!(
            "<text x=\"{}\" y=\"{}\" text-anchor=\"end\" font-size=\"11\" \
             fill=\"{PALE}\">{service}, {}</text>",
            self.left - 10,
            top + BAR + 24,
            escaped(&run.types[service])
        ));
        for (begin, end) in stretches(run, |step| look(&step.standing[service])) {
            self.bar(top + BAR, begin, end, look(&run.steps[begin].standing[service]));
        }
        for (begin, end) in stretches(run, |step| step.standing[service].live) {
            if run.steps[begin].standing[service].live {
                let (x, width) = (self.left_of(begin), (end - begin) * self.column);
                self.put(live_line(x, top + LIVE, width));
            }
        }
        for hold in holds(run, service) {
            self.band(top, &hold);
        }
        for (step, mark) in marks_of(run, service) {
            self.mark(mark, self.middle_of(step), top);
        }
    }

    /// The band of what is held back, with its words below it.
    fn band(&mut self, top: usize, hold: &Hold) {
        let (x, width) = (self.left_of(hold.begin), (hold.end - hold.begin) * self.column);
        self.put(held_band(x, top + HELD, width));
        self.put(format!(
            "<text x=\"{}\" y=\"{}\" font-size=\"10\" font-weight=\"bold\" fill=\"{RED}\" \
             stroke=\"#ffffff\" stroke-width=\"3\" paint-order=\"stroke\">{}</text>",
            x + 2,
            top + HELD + HELD_HEIGHT + 12,
            escaped(&hold.words())
        ));
    }

    /// The bar of a phase, with its word.
    fn bar(&mut self, top: usize, begin: usize, end: usize, look: usize) {
        let (x, width) = (self.left_of(begin), (end - begin) * self.column);
        let (word, fill, _) = LOOKS[look];
        self.put(format!(
            "<rect x=\"{x}\" y=\"{top}\" width=\"{width}\" height=\"{BAR_HEIGHT}\" \
             fill=\"{fill}\" stroke=\"#ffffff\"/>"
        ));
        self.put(format!(
            "<text x=\"{}\" y=\"{}\" font-size=\"11\">{word}</text>",
            x + 4,
            top + 14
        ));
    }

    /// A mark with its word above it.
    fn mark(&mut self, mark: &Mark, x: usize, top: usize) {
        let (shape, fill) = shape_of(mark);
        self.put(shape(x, top + MARK));
        self.put(format!(
            "<text x=\"{x}\" y=\"{}\" text-anchor=\"middle\" font-size=\"10\" \
             fill=\"{fill}\">{}</text>",
            top + 11,
            escaped(&word(mark))
        ));
    }

    /// What the looks of bars, marks, lines and labels mean.
    fn legend(&mut self) {
        let (mut x, mut y) = (self.left, self.bottom() + 50);
        for (_, fill, meaning) in LOOKS {
            self.put(format!(
                "<rect x=\"{x}\" y=\"{}\" width=\"16\" height=\"14\" fill=\"{fill}\"/>",
                y - 7
            ));
            x = self.meaning(x + 21, y, meaning, "");
        }
        (x, y) = (self.left, y + 25);
        for (shape, meaning) in SHAPES {
            self.put(shape(x + 8, y));
            x = self.meaning(x + 21, y, meaning, "");
        }
        self.put(live_line(x, y - 2, 16));
        self.meaning(x + 21, y, "live process", "");
        (x, y) = (self.left, y + 25);
        self.put(held_band(x, y - HELD_HEIGHT / 2, 40));
        let held =
            "held back: no launch, signal or stop command while a service that depends on it lives";
        self.meaning(x + 45, y, held, "");
        (x, y) = (self.left, y + 25);
        x = self.meaning(x, y, "a call of the host", &label_style(true));
        x = self.meaning(x, y, "an action of the core", &label_style(false));
        let columns =
            "each column is a step, not a length of time; the times stand under the lanes";
        self.meaning(x, y, columns, "");
    }

    /// Words of the legend; gives where the next may begin.
    fn meaning(&mut self, x: usize, y: usize, words: &str, style: &str) -> usize {
        self.put(format!("<text x=\"{x}\" y=\"{}\" font-size=\"11\"{style}>{words}</text>", y + 4));
        x + words.len() * 13 / 2 + 20
    }
}

/// The width of the legend's longest row.
const LEGEND_WIDTH: usize = 790;

/// How the label of a call differs from that of an action.
fn label_style(is_call: bool) -> String {
    if is_call {
        format!(" fill=\"{BLUE}\" font-style=\"italic\"")
    } else {
        String::new()
    }
}

/// The shape around a point, on white.
type Shape = fn(usize, usize) -> String;

/// The shapes of marks, as the legend lists them.
const SHAPES: [(Shape, &str); 5] = [
    (disc, "order"),
    (triangle, "launch"),
    (diamond, "signal"),
    (square, "stop command"),
    (cross, "end of the process"),
];

/// The shape of a mark, and its colour.
fn shape_of(mark: &Mark) -> (Shape, &'static str) {
    match mark {
        Mark::Order(_) => (disc, BLUE),
        Mark::Launch => (triangle, GREEN),
        Mark::Signal(_) => (diamond, RED),
        Mark::StopCommand => (square, RED),
        Mark::End(_) => (cross, INK),
    }
}

fn disc(x: usize, y: usize) -> String {
    format!("<circle cx=\"{x}\" cy=\"{y}\" r=\"5.5\" fill=\"{BLUE}\"/>")
}

fn triangle(x: usize, y: usize) -> String {
    format!("<path d=\"M {x} {} l 7 13 h -14 z\" fill=\"{GREEN}\"/>", y - 7)
}

fn diamond(x: usize, y: usize) -> String {
    format!("<path d=\"M {x} {} l 7 7 l -7 7 l -7 -7 z\" fill=\"{RED}\"/>", y - 7)
}

fn square(x: usize, y: usize) -> String {
    format!("<path d=\"M {} {} h 11 v 11 h -11 z\" fill=\"{RED}\"/>", x - 5, y - 5)
}

fn cross(x: usize, y: usize) -> String {
    let (left, high) = (x - 5, y - 5);
    format!(
        "<path d=\"M {left} {high} l 11 11 m 0 -11 l -11 11\" stroke=\"{INK}\" \
         stroke-width=\"3\"/>"
    )
}

/// The pattern of the bands of what is held back.
fn hatching() -> String {
    format!(
        "<defs><pattern id=\"held\" width=\"6\" height=\"6\" patternUnits=\"userSpaceOnUse\" \
         patternTransform=\"rotate(45)\"><rect width=\"6\" height=\"6\" fill=\"#ffffff\"/>\
         <path d=\"M 1 0 V 6\" stroke=\"{RED}\" stroke-width=\"2.5\"/></pattern></defs>"
    )
}

/// A hatched band between two posts.
fn held_band(x: usize, y: usize, width: usize) -> String {
    let (post, right) = (y - 4, x + width);
    let height = HELD_HEIGHT + 8;
    format!(
        "<rect x=\"{x}\" y=\"{y}\" width=\"{width}\" height=\"{HELD_HEIGHT}\" fill=\"url(#held)\"/>\
         <path d=\"M {x} {post} v {height} M {right} {post} v {height}\" stroke=\"{RED}\" \
         stroke-width=\"2\"/>"
    )
}

/// The line under a bar while the process lives.
fn live_line(x: usize, y: usize, width: usize) -> String {
    format!("<rect x=\"{x}\" y=\"{y}\" width=\"{width}\" height=\"5\"/>")
}
