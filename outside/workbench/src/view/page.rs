//! A picture as one page of HTML.

use super::{Bar, Picture};
use crate::json::{self, Json};
use skuldrefn::Place;
use std::collections::BTreeMap;
use std::fmt::Write;

/// The page around the drawing; the names in braces are filled in.
const PAGE: &str = include_str!("../../page/page.html");

/// The widest that an event is drawn, and the least: a pixel can be pointed at.
const EVENT: (f64, f64) = (18.0, 1.0);
/// How wide the drawing is, if the events may be as wide as that takes.
const WIDTH: f64 = 1400.0;
/// The strip of the events, above the bars.
const STRIP: f64 = 34.0;
/// The line of a group's name, and a lane of its bars.
const NAME: f64 = 20.0;
const LANE: f64 = 13.0;
const BAR: f64 = 10.0;
/// The room that the number of an event needs.
const NUMBER: f64 = 44.0;
/// The room that a letter of a renter's name needs.
const LETTER: f64 = 7.0;
/// The least that a bar is drawn.
const LEAST: f64 = 1.5;

/// Where things are drawn.
struct Scale {
    /// How wide an event is.
    event: f64,
    events: usize,
    height: f64,
}

impl Scale {
    fn of(picture: &Picture) -> Scale {
        let events = picture.events.len();
        let lanes: usize = picture.groups.iter().map(|group| group.lanes).sum();
        let event = WIDTH / (events + 1) as f64;
        Scale {
            event: event.clamp(EVENT.1, EVENT.0),
            events,
            height: STRIP + NAME * picture.groups.len() as f64 + LANE * lanes as f64 + NAME,
        }
    }

    /// Where an event begins, from the left.
    fn at(&self, number: usize) -> f64 {
        self.event * number as f64
    }

    fn width(&self) -> f64 {
        self.at(self.events + 2)
    }
}

/// The page of a picture.
pub fn page(picture: &Picture) -> String {
    let scale = Scale::of(picture);
    let bars = picture.bars.iter().map(|bar| json::string(&bar.words));
    let events = picture.events.iter().map(|event| json::string(event));
    let data = Json::object()
        .with("step", scale.event)
        .with("bars", Json::list(bars))
        .with("events", Json::list(events))
        .end();
    let (width, height) = (scale.width().ceil(), scale.height.ceil());
    let mut drawing = format!(
        "<svg id=\"run\" width=\"{width}\" height=\"{height}\" viewBox=\"0 0 {width} {height}\">\n"
    );
    drawing += &places(picture, &scale);
    drawing += &groups(picture, &scale);
    drawing += &strip(picture, &scale);
    drawing += "</svg>\n";
    let mut page = PAGE.replace("{name}", &escaped(&picture.name));
    for (name, text) in [
        ("{summary}", summary(picture)),
        ("{legend}", legend(picture)),
        ("{drawing}", drawing),
        ("{data}", data),
    ] {
        page = page.replacen(name, &text, 1);
    }
    page
}

/// A text as HTML.
fn escaped(text: &str) -> String {
    text.replace('&', "&amp;")
        .replace('<', "&lt;")
        .replace('>', "&gt;")
        .replace('{', "&#123;")
}

fn summary(picture: &Picture) -> String {
    let held = picture.bars.iter().filter(|bar| bar.ended.is_none());
    let no_room = picture.no_room.map_or(String::new(), |own| {
        format!("; {}", own.words("some that should be found"))
    });
    format!(
        "{} events, {} refused; {} mappings, {} in force at the end; {} found{no_room}",
        picture.events.len(),
        picture.refused.len(),
        picture.bars.len(),
        held.count(),
        picture.findings
    )
}

/// The class by which a bar is coloured: what ended it.
fn class(bar: &Bar) -> &str {
    bar.ended.as_ref().map_or("held", |(_, kind)| kind)
}

/// The colours that there are, and how many bars have them.
fn legend(picture: &Picture) -> String {
    let mut counts: BTreeMap<&str, usize> = BTreeMap::new();
    for bar in &picture.bars {
        *counts.entry(class(bar)).or_insert(0) += 1;
    }
    let mut text = String::new();
    for (class, count) in counts {
        let words = match class {
            "held" => "in force at the end".to_string(),
            class => format!("ended by {class}"),
        };
        let _ = writeln!(
            text,
            "<span class=\"key\"><i class=\"{class}\"></i>{words}: {count}</span>"
        );
    }
    text
}

/// Where the guest runs, and where root does.
fn places(picture: &Picture, scale: &Scale) -> String {
    let mut text = "<g id=\"places\">\n".to_string();
    let ends = picture.places.iter().skip(1).map(|(number, _)| *number);
    let ends = ends.chain([scale.events + 1]);
    for ((number, place), end) in picture.places.iter().zip(ends) {
        let class = match place {
            Place::Outside => continue,
            Place::Root => "root",
            Place::Guest { .. } => "guest",
        };
        let (x, width, height) = (scale.at(*number), scale.at(end - number), scale.height);
        let _ = writeln!(
            text,
            "<rect class=\"{class}\" x=\"{x:.2}\" width=\"{width:.2}\" height=\"{height}\"/>"
        );
    }
    text + "</g>\n"
}

/// The numbers of events, and marks for those that were refused.
fn strip(picture: &Picture, scale: &Scale) -> String {
    let width = scale.width();
    let mut text =
        format!("<g id=\"head\">\n<rect id=\"back\" width=\"{width:.2}\" height=\"{STRIP}\"/>\n");
    // A number at every so many events that there is room for it.
    let mut steps = (0..).flat_map(|zeros| [1, 2, 5].map(|step| step * 10_usize.pow(zeros)));
    let every = steps.find(|step| scale.at(*step) >= NUMBER).unwrap_or(1);
    for number in (every..=scale.events).step_by(every) {
        let x = scale.at(number);
        let _ = writeln!(
            text,
            "<text class=\"number\" x=\"{x:.2}\" y=\"12\">{number}</text>"
        );
    }
    let ends = picture.places.iter().map(|(number, _)| *number);
    let ends: Vec<usize> = ends.chain([scale.events + 1]).collect();
    for (number, name) in &picture.renters {
        let end = ends.iter().find(|end| *end > number).unwrap_or(number);
        let room = scale.at(end - number) - 4.0;
        if LETTER * name.chars().count() as f64 <= room {
            let (x, name) = (scale.at(*number) + 2.0, escaped(name));
            let _ = writeln!(
                text,
                "<text class=\"renter\" x=\"{x:.2}\" y=\"27\">{name}</text>"
            );
        }
    }
    if !picture.refused.is_empty() {
        let mut path = String::new();
        for number in &picture.refused {
            let _ = write!(path, "M{:.2} 17v12", scale.at(*number) + scale.event / 2.0);
        }
        let stroke = scale.event.clamp(1.0, 4.0);
        let _ = writeln!(
            text,
            "<path id=\"refused\" d=\"{path}\" stroke-width=\"{stroke:.2}\"/>"
        );
    }
    let _ = writeln!(
        text,
        "<rect id=\"strip\" width=\"{width:.2}\" height=\"{STRIP}\"/>\n</g>"
    );
    text
}

/// The bars, group by group.
fn groups(picture: &Picture, scale: &Scale) -> String {
    let mut bars = "<g id=\"bars\">\n".to_string();
    let mut names = "<g id=\"names\">\n".to_string();
    let mut top = STRIP;
    for group in &picture.groups {
        let (y, name) = (top + NAME - 6.0, &group.name);
        let _ = writeln!(names, "<text x=\"4\" y=\"{y}\">{name}</text>");
        top += NAME;
        for place in &group.bars {
            let bar = &picture.bars[*place];
            let y = top + LANE * bar.lane as f64;
            let end = bar
                .ended
                .as_ref()
                .map_or(scale.events + 1, |(number, _)| *number);
            let x = scale.at(bar.created);
            let width = (scale.at(end) - x).max(LEAST);
            let (class, found) = (class(bar), if bar.found.is_empty() { "" } else { " found" });
            let _ = writeln!(
                bars,
                "<rect class=\"bar {class}{found}\" data-bar=\"{place}\" x=\"{x:.2}\" y=\"{y}\" \
                 width=\"{width:.2}\" height=\"{BAR}\"/>"
            );
            for at in &bar.found {
                let (x, y) = (scale.at(*at), y + BAR / 2.0);
                let _ = writeln!(
                    bars,
                    "<circle class=\"mark\" data-bar=\"{place}\" cx=\"{x:.2}\" cy=\"{y}\" r=\"4\"/>"
                );
            }
        }
        top += LANE * group.lanes as f64;
    }
    bars + "</g>\n" + &names + "</g>\n"
}
