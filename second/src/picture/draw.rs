//! The drawing of a run as an SVG. Each step has a column; the columns are
//! wide enough for the words that stand in them, and what a colour tells a
//! word or a shape tells too.

use super::run::{seconds, Mark, Run, Standing, Step};
use crate::engine::Phase;
use std::fmt::Write;

/// The height of a lane; in it the marks, the bar of the phase, and the line
/// of the live process, from its upper edge.
const LANE: usize = 74;
const MARK: usize = 22;
const BAR: usize = 32;
const BAR_HEIGHT: usize = 20;
const LIVE: usize = 54;

const INK: &str = "#24313c";
const PALE: &str = "#5b6770";
const BLUE: &str = "#1f4e8c";
const GREEN: &str = "#1b7a3d";
const RED: &str = "#b3261e";

/// The looks of a bar: its word, its colour, and its meaning in the legend.
const LOOKS: [(&str, &str, &str); 7] = [
    ("down", "#e4e7ea", "down"),
    ("aside", "#a9b1b8", "aside: down until a start"),
    ("waiting", "#f6dc7d", "waiting"),
    ("starting", "#a9dbe8", "starting"),
    ("up", "#7cc48a", "up"),
    ("closing", "#f2a65a", "closing: up, to be ended"),
    ("ending", "#e88a7f", "ending"),
];

/// The place of a standing in the looks.
fn look(standing: &Standing) -> usize {
    match (standing.phase, standing.aside, standing.cause) {
        (Phase::Down, false, _) => 0,
        (Phase::Down, true, _) => 1,
        (Phase::Waiting, ..) => 2,
        (Phase::Starting, ..) => 3,
        (Phase::Up, _, false) => 4,
        (Phase::Up, _, true) => 5,
        (Phase::Ending, ..) => 6,
    }
}

/// The text with what SVG reserves written as entities.
fn escaped(text: &str) -> String {
    text.replace('&', "&amp;").replace('<', "&lt;").replace('>', "&gt;")
}

/// The word at a mark.
fn word(mark: &Mark) -> String {
    match mark {
        Mark::Launch => "launch".to_string(),
        Mark::Signal(name) => name.clone(),
        Mark::StopCommand => "stop-command".to_string(),
        Mark::End(how) => format!("end {how}"),
        Mark::Order(word) => word.to_string(),
    }
}

/// The stretches of steps that look alike: first step, and the one past the
/// last.
fn stretches(run: &Run, look: impl Fn(&Step) -> u64) -> Vec<(usize, usize)> {
    let mut stretches = Vec::new();
    let mut begin = 0;
    for step in 1..=run.steps.len() {
        if step == run.steps.len() || look(&run.steps[step]) != look(&run.steps[begin]) {
            stretches.push((begin, step));
            begin = step;
        }
    }
    stretches
}

/// The marks of a service with their steps.
fn marks_of(run: &Run, service: usize) -> Vec<(usize, &Mark)> {
    let mut marks = Vec::new();
    for (number, step) in run.steps.iter().enumerate() {
        let here = step.marks.iter().filter(|(marked, _)| *marked == service);
        marks.extend(here.map(|(_, mark)| (number, mark)));
    }
    marks
}

/// The width of a column: the words of bars and times fit in their stretches,
/// and the words of two marks in a lane do not meet.
fn column_width(run: &Run) -> usize {
    let mut width = 44;
    let mut fit = |pixels: usize, columns: usize| width = width.max(pixels.div_ceil(columns));
    for (begin, end) in stretches(run, |step| step.clock) {
        fit(8 * seconds(run.steps[begin].clock).len() + 8, end - begin);
    }
    for service in 0..run.names.len() {
        for (begin, end) in stretches(run, |step| look(&step.standing[service]) as u64) {
            let (word, ..) = LOOKS[look(&run.steps[begin].standing[service])];
            fit(6 * word.len() + 8, end - begin);
        }
        for pair in marks_of(run, service).windows(2) {
            let letters = word(pair[0].1).len() + word(pair[1].1).len();
            fit(3 * letters + 8, pair[1].0 - pair[0].0);
        }
    }
    width
}

/// The SVG of a run.
pub fn svg(run: &Run) -> String {
    let name_length = run.names.iter().map(String::len).max().unwrap_or(0);
    let label_length = run.steps.iter().map(|step| step.label.len()).max().unwrap_or(0);
    let drawing = Drawing {
        run,
        column: column_width(run),
        left: (9 * name_length + 24).max(100),
        top: aslant(label_length) + 16,
        out: String::new(),
    };
    drawing.drawn()
}

/// How far a label of so many letters reaches, upwards and to the right.
fn aslant(letters: usize) -> usize {
    letters * 51 / 10 + 10
}

struct Drawing<'a> {
    run: &'a Run,
    column: usize,
    /// The left edge of the columns, and the upper edge of the lanes.
    left: usize,
    top: usize,
    out: String,
}

impl Drawing<'_> {
    fn drawn(mut self) -> String {
        let (width, height) = (self.width(), self.bottom() + 118);
        self.put(format!(
            "<svg xmlns=\"http://www.w3.org/2000/svg\" width=\"{width}\" height=\"{height}\" \
             viewBox=\"0 0 {width} {height}\" font-family=\"sans-serif\" font-size=\"12\" \
             fill=\"{INK}\" role=\"img\">"
        ));
        self.told();
        self.put(format!("<rect width=\"{width}\" height=\"{height}\" fill=\"#ffffff\"/>"));
        self.times();
        self.labels();
        for service in 0..self.run.names.len() {
            self.lane(service);
        }
        self.legend();
        self.put("</svg>".to_string());
        self.out
    }

    fn put(&mut self, line: String) {
        self.out.push_str(&line);
        self.out.push('\n');
    }

    /// Room for the columns, for the labels that pass the last, and for the
    /// legend.
    fn width(&self) -> usize {
        let columns = self.left_of(self.run.steps.len()) + 12;
        let labels = self.run.steps.iter().enumerate();
        labels
            .map(|(number, step)| self.middle_of(number) + aslant(step.label.len()))
            .chain([columns, self.left + LEGEND_WIDTH])
            .max()
            .unwrap_or(columns)
    }

    /// The lower edge of the lanes.
    fn bottom(&self) -> usize {
        self.top + self.run.names.len() * LANE
    }

    fn left_of(&self, step: usize) -> usize {
        self.left + step * self.column
    }

    fn middle_of(&self, step: usize) -> usize {
        self.left_of(step) + self.column / 2
    }

    /// The picture in words: its title, and the steps by the clock.
    fn told(&mut self) {
        let names = escaped(&self.run.names.join(", "));
        self.put(format!("<title>A run of {names}</title>"));
        let mut told = String::from("<desc>");
        for (begin, end) in stretches(self.run, |step| step.clock) {
            let steps = &self.run.steps[begin..end];
            let labels: Vec<&str> = steps.iter().map(|step| step.label.as_str()).collect();
            let time = seconds(steps[0].clock);
            let _ = writeln!(told, "At {time}: {}.", escaped(&labels.join(", ")));
        }
        self.put(format!("{}</desc>", told.trim_end()));
    }

    /// The stretches of steps at one clock reading, with the time below them.
    fn times(&mut self) {
        let (high, low) = (self.top - 8, self.bottom() + 24);
        for (number, (begin, end)) in stretches(self.run, |step| step.clock).into_iter().enumerate()
        {
            let (x, width) = (self.left_of(begin), (end - begin) * self.column);
            let fill = if number % 2 == 1 { "#eef3f9" } else { "#fafbfc" };
            let time = seconds(self.run.steps[begin].clock);
            self.put(format!(
                "<rect x=\"{x}\" y=\"{high}\" width=\"{width}\" height=\"{}\" fill=\"{fill}\"/>",
                low - high
            ));
            self.put(format!("<path d=\"M {x} {high} V {low}\" stroke=\"{PALE}\"/>"));
            self.put(format!(
                "<text x=\"{}\" y=\"{}\" font-weight=\"bold\">{time}</text>",
                x + 4,
                low - 6
            ));
        }
        self.put(format!(
            "<text x=\"{}\" y=\"{}\" text-anchor=\"end\" fill=\"{PALE}\">time</text>",
            self.left - 10,
            low - 6
        ));
    }

    /// Each call or action, aslant above its step.
    fn labels(&mut self) {
        let (high, low, y) = (self.top - 8, self.bottom(), self.top - 14);
        for (number, step) in self.run.steps.iter().enumerate() {
            let x = self.middle_of(number);
            self.put(format!(
                "<path d=\"M {x} {high} V {low}\" stroke=\"#d5dbe0\" stroke-dasharray=\"2 3\"/>"
            ));
            self.put(format!(
                "<text x=\"{x}\" y=\"{y}\" transform=\"rotate(-45 {x} {y})\"{}>{}</text>",
                label_style(step.is_call),
                escaped(&step.label)
            ));
        }
    }

    /// The name, the bars and the marks of one service.
    fn lane(&mut self, service: usize) {
        let run = self.run;
        let top = self.top + service * LANE;
        self.put(format!(
            "<text x=\"{}\" y=\"{}\" text-anchor=\"end\" font-size=\"14\" \
             font-weight=\"bold\">{}</text>",
            self.left - 10,
            top + BAR + 9,
            escaped(&run.names[service])
        ));
        self.put(format!(
            "<text x=\"{}\" y=\"{}\" text-anchor=\"end\" font-size=\"11\" \
             fill=\"{PALE}\">{service}, {}</text>",
            self.left - 10,
            top + BAR + 24,
            escaped(&run.types[service])
        ));
        for (begin, end) in stretches(run, |step| look(&step.standing[service]) as u64) {
            self.bar(top + BAR, begin, end, look(&run.steps[begin].standing[service]));
        }
        for (begin, end) in stretches(run, |step| u64::from(step.standing[service].live)) {
            if run.steps[begin].standing[service].live {
                let (x, width) = (self.left_of(begin), (end - begin) * self.column);
                self.put(live_line(x, top + LIVE, width));
            }
        }
        for (step, mark) in marks_of(run, service) {
            self.mark(mark, self.middle_of(step), top);
        }
    }

    /// The bar of a phase, with its word.
    fn bar(&mut self, top: usize, begin: usize, end: usize, look: usize) {
        let (x, width) = (self.left_of(begin), (end - begin) * self.column);
        let (word, fill, _) = LOOKS[look];
        self.put(format!(
            "<rect x=\"{x}\" y=\"{top}\" width=\"{width}\" height=\"{BAR_HEIGHT}\" \
             fill=\"{fill}\" stroke=\"#ffffff\"/>"
        ));
        self.put(format!(
            "<text x=\"{}\" y=\"{}\" font-size=\"11\">{word}</text>",
            x + 4,
            top + 14
        ));
    }

    /// A mark with its word above it.
    fn mark(&mut self, mark: &Mark, x: usize, top: usize) {
        let (shape, fill) = shape_of(mark);
        self.put(shape(x, top + MARK));
        self.put(format!(
            "<text x=\"{x}\" y=\"{}\" text-anchor=\"middle\" font-size=\"10\" \
             fill=\"{fill}\">{}</text>",
            top + 11,
            escaped(&word(mark))
        ));
    }

    /// What the looks of bars, marks, lines and labels mean.
    fn legend(&mut self) {
        let (mut x, mut y) = (self.left, self.bottom() + 50);
        for (_, fill, meaning) in LOOKS {
            self.put(format!(
                "<rect x=\"{x}\" y=\"{}\" width=\"16\" height=\"14\" fill=\"{fill}\"/>",
                y - 7
            ));
            x = self.meaning(x + 21, y, meaning, "");
        }
        (x, y) = (self.left, y + 25);
        for (shape, meaning) in SHAPES {
            self.put(shape(x + 8, y));
            x = self.meaning(x + 21, y, meaning, "");
        }
        self.put(live_line(x, y - 2, 16));
        self.meaning(x + 21, y, "live process", "");
        (x, y) = (self.left, y + 25);
        x = self.meaning(x, y, "a call of the host", &label_style(true));
        self.meaning(x, y, "an action of the core", &label_style(false));
    }

    /// Words of the legend; gives where the next may begin.
    fn meaning(&mut self, x: usize, y: usize, words: &str, style: &str) -> usize {
        self.put(format!("<text x=\"{x}\" y=\"{}\" font-size=\"11\"{style}>{words}</text>", y + 4));
        x + words.len() * 13 / 2 + 20
    }
}

/// The width of the legend's longest row.
const LEGEND_WIDTH: usize = 790;

/// How the label of a call is told from that of an action.
fn label_style(is_call: bool) -> String {
    if is_call {
        format!(" fill=\"{BLUE}\" font-style=\"italic\"")
    } else {
        String::new()
    }
}

/// The shape around a point, upon white.
type Shape = fn(usize, usize) -> String;

/// The shapes of marks, as the legend lists them.
const SHAPES: [(Shape, &str); 5] = [
    (disc, "order"),
    (triangle, "launch"),
    (diamond, "signal"),
    (square, "stop command"),
    (cross, "end of the process"),
];

/// The shape of a mark, and its colour.
fn shape_of(mark: &Mark) -> (Shape, &'static str) {
    match mark {
        Mark::Order(_) => (disc, BLUE),
        Mark::Launch => (triangle, GREEN),
        Mark::Signal(_) => (diamond, RED),
        Mark::StopCommand => (square, RED),
        Mark::End(_) => (cross, INK),
    }
}

fn disc(x: usize, y: usize) -> String {
    format!("<circle cx=\"{x}\" cy=\"{y}\" r=\"5.5\" fill=\"{BLUE}\"/>")
}

fn triangle(x: usize, y: usize) -> String {
    format!("<path d=\"M {x} {} l 7 13 h -14 z\" fill=\"{GREEN}\"/>", y - 7)
}

fn diamond(x: usize, y: usize) -> String {
    format!("<path d=\"M {x} {} l 7 7 l -7 7 l -7 -7 z\" fill=\"{RED}\"/>", y - 7)
}

fn square(x: usize, y: usize) -> String {
    format!("<path d=\"M {} {} h 11 v 11 h -11 z\" fill=\"{RED}\"/>", x - 5, y - 5)
}

fn cross(x: usize, y: usize) -> String {
    let (left, high) = (x - 5, y - 5);
    format!(
        "<path d=\"M {left} {high} l 11 11 m 0 -11 l -11 11\" stroke=\"{INK}\" \
         stroke-width=\"3\"/>"
    )
}

/// The line under a bar while the process lives.
fn live_line(x: usize, y: usize, width: usize) -> String {
    format!("<rect x=\"{x}\" y=\"{y}\" width=\"{width}\" height=\"5\"/>")
}
