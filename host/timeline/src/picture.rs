//! Lanes as a picture.

use drawing::{Anchor, Area, Drawing};

use crate::lanes::{Kind, Lane, Lanes, Mark, Span};
use crate::list::Entry;
use crate::log::{self, Window};

/// Pixels.
const LEFT: f64 = 90.0;
const RIGHT: f64 = 80.0;
const STEP: f64 = 18.0;
const TOP: f64 = 54.0;
const ROW: f64 = 13.0;
const BAR: f64 = 10.0;
const LANE: f64 = 6.0 * ROW + 8.0;
const BOTTOM: f64 = 40.0;
/// Room for the legend.
const NARROWEST: f64 = 760.0;
/// Words nearer than this would stand on each other.
const APART: f64 = 62.0;

const STYLE: &str = "\
.lives { fill: #eef2f4 } .exclusive { fill: #b03030 } .shared { fill: #2f6fb0 } .waits { fill: #e8c55a }
.stands { fill: #a58fc4 } .held { fill: #d98a2b } .command { fill: #555 } .reading { fill: #2e8b57 } .clock { stroke: #ccc }
.small { font-size: 9px; fill: #444 } .session { font-weight: bold } .title { font-weight: bold }
";

/// Rows of a lane, from its top; its ground fills the lane.
fn look(kind: Kind) -> (&'static str, f64) {
    match kind {
        Kind::Lives => ("lives", 0.0),
        Kind::Exclusive => ("exclusive", 0.0),
        Kind::Shared => ("shared", 1.0),
        Kind::Stands => ("stands", 2.0),
        Kind::Waits => ("waits", 3.0),
        Kind::Held => ("held", 4.0),
    }
}

/// The row of commands and readings.
const MARKS: f64 = 4.0;

fn x(event: usize) -> f64 {
    LEFT + STEP * event as f64
}

/// The picture of a list, from left to right in the order of its events.
pub fn draw(list: &[Entry]) -> String {
    let lanes = Lanes::of(list);
    let title = format!("{} events, one lane a session", lanes.events);
    draw_lanes(&lanes, &title)
}

/// The picture of a gateway's log, from left to right in the order of its lines; the error names the line
/// that is not the gateway's.
pub fn draw_log(text: &str, window: Window) -> Result<String, String> {
    let log = log::read(text, window)?;
    let mut title = format!("{} lines, one lane a session", log.lanes.events);
    if log.dropped > 0 {
        title += &format!(
            "; {} more were dropped and are not in the picture",
            log.dropped
        );
    }
    Ok(draw_lanes(&log.lanes, &title))
}

fn draw_lanes(lanes: &Lanes, title: &str) -> String {
    let mut drawing = Drawing::new();
    let bottom = TOP + LANE * lanes.sessions.len() as f64;
    drawing.words("title", Anchor::Start, (10.0, 18.0), title);
    for (place, (session, lane)) in lanes.sessions.iter().enumerate() {
        let top = TOP + LANE * place as f64;
        let name = (10.0, top + LANE / 2.0);
        drawing.words(
            "session",
            Anchor::Start,
            name,
            &format!("session {session}"),
        );
        draw_lane(&mut drawing, lane, top);
        draw_marks(&mut drawing, lanes, lane, top);
    }
    clock(&mut drawing, &lanes.clock, bottom);
    legend(&mut drawing, bottom + 18.0);
    let width = NARROWEST.max(x(lanes.events) + RIGHT);
    drawing.finish(width, bottom + BOTTOM, STYLE)
}

fn draw_lane(drawing: &mut Drawing, lane: &Lane, top: f64) {
    // The ground first, and on it the rest.
    let mut spans: Vec<&Span> = lane.spans.iter().collect();
    spans.sort_by_key(|span| (span.kind, span.from));
    for span in spans {
        let (class, row) = look(span.kind);
        let (left, width) = (x(span.from), x(span.to) - x(span.from));
        let area = match span.kind {
            Kind::Lives => Area(left, top, width, LANE - 6.0),
            _ => Area(left, top + 3.0 + ROW * row, width, BAR),
        };
        drawing.area(class, area, &span.says);
    }
}

/// A command as a narrow tick, a reading as a wide one; the MessageID below where there is room.
fn draw_marks(drawing: &mut Drawing, lanes: &Lanes, lane: &Lane, top: f64) {
    let top = top + 3.0 + ROW * MARKS;
    let mut last = f64::MIN;
    for mark in &lane.marks {
        let (class, width) = look_of(mark);
        let left = x(mark.at);
        let id = format!("{:08x}", mark.message_id);
        let says = match lanes.lines.get(mark.at) {
            Some(line) => line.clone(),
            None => format!("event {}: {class} {id}", mark.at),
        };
        drawing.area(class, Area(left, top, width, BAR), &says);
        if mark.reading && left - last >= APART {
            last = left;
            let place = (left, top + BAR + 9.0);
            drawing.words("small", Anchor::Start, place, &id);
        }
    }
}

fn look_of(mark: &Mark) -> (&'static str, f64) {
    match mark.reading {
        true => ("reading", 9.0),
        false => ("command", 3.0),
    }
}

/// A line where the clock moved, with its reading where there is room.
fn clock(drawing: &mut Drawing, readings: &[(usize, String)], bottom: f64) {
    let mut last = f64::MIN;
    for (event, reading) in readings {
        let x = x(*event);
        drawing.line("clock", (x, TOP - 8.0), (x, bottom));
        if x - last >= APART {
            last = x;
            let place = (x, TOP - 12.0);
            drawing.words("small", Anchor::Start, place, reading);
        }
    }
}

fn legend(drawing: &mut Drawing, top: f64) {
    let names = [
        ("exclusive", "holds exclusive"),
        ("shared", "holds shared"),
        ("stands", "release stands"),
        ("waits", "waits"),
        ("held", "message held"),
        ("command", "command"),
        ("reading", "reading"),
    ];
    for (place, (class, name)) in names.into_iter().enumerate() {
        let left = 10.0 + 105.0 * place as f64;
        drawing.area(class, Area(left, top, BAR, BAR), name);
        drawing.words(
            "small",
            Anchor::Start,
            (left + BAR + 4.0, top + BAR - 1.0),
            name,
        );
    }
}
