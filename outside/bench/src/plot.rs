//! A plot of the times against the records, as SVG: a panel for each family.
//! Both axes are linear and start at 0; those of a section are the same.

use crate::rows::{Row, What};
use std::fmt::Write;

/// A panel, with the room for its title and for the numbers of its axes.
const WIDTH: f64 = 270.0;
const HEIGHT: f64 = 200.0;
const LEFT: f64 = 52.0;
const RIGHT: f64 = 26.0;
const ABOVE: f64 = 24.0;
const BELOW: f64 = 40.0;

const COLUMNS: usize = 4;

/// The room for the title and the legend, and for the heading of a section.
const TOP: f64 = 70.0;
const HEADING: f64 = 30.0;

/// The library, the tuned model, a plain copy: name, colour and dashes.
const STYLES: [(&str, &str, &str); 3] = [
    ("proved library (ours)", "#1f5fb4", "none"),
    ("tuned model", "#c8641e", "7 3"),
    ("plain copy of the table", "#777777", "2 3"),
];

/// The sections, in order.
const SECTIONS: [(What, &str); 5] = [
    (What::Step, "Steps"),
    (What::Counted, "Counted steps: with a tally"),
    (What::Lookup, "Lookups"),
    (What::Widen, "The converter"),
    (What::FixedRows, "Fixed rows"),
];

/// The plot of one shape of table.
pub fn svg(rows: &[Row], table: &str) -> String {
    let chosen: Vec<&Row> = rows
        .iter()
        .filter(|row| row.what != What::Replay && row.table == table)
        .collect();
    let records = chosen.iter().map(|row| row.records).max().unwrap_or(0);
    let mut panels = String::new();
    let mut top = TOP;
    for (what, heading) in SECTIONS {
        let own: Vec<&Row> = chosen
            .iter()
            .filter(|row| row.what == what)
            .copied()
            .collect();
        top = section(&mut panels, heading, &Scale::of(records, &own), &own, top);
    }
    let width = WIDTH * COLUMNS as f64;
    let mut out = format!(
        "<svg xmlns=\"http://www.w3.org/2000/svg\" width=\"{width}\" height=\"{top}\" \
         viewBox=\"0 0 {width} {top}\" font-family=\"sans-serif\" font-size=\"11\">\n\
         <rect width=\"100%\" height=\"100%\" fill=\"white\"/>\n"
    );
    let title =
        format!("Microseconds of one event or lookup, by the records in the table ({table})");
    out += &text((20.0, 26.0), "start", 16, &title);
    legend(&mut out);
    out + &panels + "</svg>\n"
}

/// What both axes end with.
struct Scale {
    records: f64,
    /// Nanoseconds, and those between two lines.
    ns: f64,
    step: f64,
}

impl Scale {
    fn of(records: usize, rows: &[&Row]) -> Scale {
        let times = rows.iter().flat_map(|row| row.times);
        let most = times.filter(|time| time.is_finite()).fold(1.0, f64::max);
        let step = round_step(most / 5.0);
        Scale {
            records: records.max(1) as f64,
            ns: (most / step).ceil() * step,
            step,
        }
    }

    /// The times that have a line.
    fn lines(&self) -> impl Iterator<Item = f64> + '_ {
        let count = (self.ns / self.step).round() as u32;
        (0..=count).map(|nth| f64::from(nth) * self.step)
    }
}

/// The least of 1, 2, 5, 10, 20, 50 and so on that is no less.
fn round_step(least: f64) -> f64 {
    let mut ten = 1.0;
    loop {
        for digit in [1.0, 2.0, 5.0] {
            if digit * ten >= least {
                return digit * ten;
            }
        }
        ten *= 10.0;
    }
}

/// A panel: its upper left corner, and the scale of its axes.
struct Panel<'a> {
    left: f64,
    top: f64,
    scale: &'a Scale,
}

impl Panel<'_> {
    fn x(&self, records: f64) -> f64 {
        self.left + LEFT + (WIDTH - LEFT - RIGHT) * records / self.scale.records
    }

    fn y(&self, ns: f64) -> f64 {
        self.top + ABOVE + (HEIGHT - ABOVE - BELOW) * (1.0 - ns / self.scale.ns)
    }

    fn draw(&self, out: &mut String, rows: &[&Row]) {
        let title = rows.first().map_or("", |row| &row.family);
        *out += &text((self.left + LEFT, self.top + 14.0), "start", 13, title);
        self.times_axis(out);
        self.records_axis(out);
        // Ours is drawn last, above the others.
        for nth in (0..STYLES.len()).rev() {
            self.curve(out, rows, nth);
        }
    }

    fn times_axis(&self, out: &mut String) {
        let (left, right) = (self.x(0.0), self.x(self.scale.records));
        for ns in self.scale.lines() {
            let y = self.y(ns);
            *out += &line((left, y), (right, y), "#dddddd");
            let unit = if ns > 0.0 { " us" } else { "" };
            let name = format!("{}{unit}", ns / 1e3);
            *out += &text((left - 5.0, y + 4.0), "end", 11, &name);
        }
    }

    fn records_axis(&self, out: &mut String) {
        let (top, bottom) = (self.y(self.scale.ns), self.y(0.0));
        for share in [0.0, 0.5, 1.0] {
            let records = (self.scale.records * share).round();
            let x = self.x(records);
            *out += &line((x, top), (x, bottom), "#dddddd");
            *out += &text((x, bottom + 14.0), "middle", 11, &format!("{records}"));
        }
        let middle = self.x(self.scale.records / 2.0);
        *out += &text((middle, bottom + 27.0), "middle", 11, "records");
    }

    /// The times of one contestant, with a dot at each that was measured.
    fn curve(&self, out: &mut String, rows: &[&Row], nth: usize) {
        let (_, colour, dash) = STYLES[nth];
        let place = |row: &&Row| (self.x(row.records as f64), self.y(row.times[nth]));
        let places: Vec<(f64, f64)> = rows.iter().map(place).collect();
        let points: Vec<String> = places
            .iter()
            .map(|(x, y)| format!("{x:.1},{y:.1}"))
            .collect();
        let _ = writeln!(
            out,
            "<polyline points=\"{}\" fill=\"none\" stroke=\"{colour}\" stroke-width=\"1.8\" \
             stroke-dasharray=\"{dash}\"/>",
            points.join(" ")
        );
        for (x, y) in places {
            let _ = writeln!(
                out,
                "<circle cx=\"{x:.1}\" cy=\"{y:.1}\" r=\"2.2\" fill=\"{colour}\"/>"
            );
        }
    }
}

/// The panels of one section, below a heading; where the next may start.
fn section(out: &mut String, heading: &str, scale: &Scale, rows: &[&Row], top: f64) -> f64 {
    let mut families: Vec<&str> = Vec::new();
    for row in rows {
        if !families.contains(&row.family.as_str()) {
            families.push(&row.family);
        }
    }
    if families.is_empty() {
        return top;
    }
    *out += &text((20.0, top + 18.0), "start", 15, heading);
    for (number, family) in families.iter().enumerate() {
        let panel = Panel {
            left: WIDTH * (number % COLUMNS) as f64,
            top: top + HEADING + HEIGHT * (number / COLUMNS) as f64,
            scale,
        };
        let own = |row: &&&Row| row.family == *family;
        let points: Vec<&Row> = rows.iter().filter(own).copied().collect();
        panel.draw(out, &points);
    }
    top + HEADING + HEIGHT * families.len().div_ceil(COLUMNS) as f64
}

fn legend(out: &mut String) {
    for (number, (name, colour, dash)) in STYLES.iter().enumerate() {
        let x = 20.0 + 210.0 * number as f64;
        let _ = writeln!(
            out,
            "<line x1=\"{x}\" y1=\"48\" x2=\"{}\" y2=\"48\" stroke=\"{colour}\" \
             stroke-width=\"2.5\" stroke-dasharray=\"{dash}\"/>",
            x + 34.0
        );
        *out += &text((x + 42.0, 52.0), "start", 13, name);
    }
}

fn line((x1, y1): (f64, f64), (x2, y2): (f64, f64), colour: &str) -> String {
    format!(
        "<line x1=\"{x1:.1}\" y1=\"{y1:.1}\" x2=\"{x2:.1}\" y2=\"{y2:.1}\" stroke=\"{colour}\"/>\n"
    )
}

fn text((x, y): (f64, f64), anchor: &str, size: u32, words: &str) -> String {
    format!(
        "<text x=\"{x:.1}\" y=\"{y:.1}\" text-anchor=\"{anchor}\" font-size=\"{size}\">{words}</text>\n"
    )
}

#[cfg(test)]
mod tests {
    use super::*;

    fn row(what: What, family: &str, table: &str, records: usize) -> Row {
        Row {
            what,
            family: family.to_string(),
            table: table.to_string(),
            records,
            bytes: 16 * records,
            events: 1,
            times: [18_000.0, 12_000.0, 600.0],
        }
    }

    #[test]
    fn a_panel_for_each_family_of_one_table() {
        let rows = [
            row(What::Step, "reset", "alike", 16),
            row(What::Step, "reset", "alike", 2_816),
            row(What::Counted, "reset", "alike", 16),
            row(What::Lookup, "linear, first", "alike", 16),
            row(What::Step, "INVLPG", "mixed", 16),
            row(What::Replay, "creations only", "", 0),
        ];
        let svg = svg(&rows, "alike");
        assert!(svg.starts_with("<svg ") && svg.ends_with("</svg>\n"));
        assert_eq!(svg.matches("<polyline ").count(), 3 * STYLES.len());
        assert_eq!(svg.matches("<circle ").count(), 4 * STYLES.len());
        assert_eq!(svg.matches(">reset<").count(), 2);
        assert!(svg.contains(">Steps<") && svg.contains(">Lookups<"));
        assert!(!svg.contains("INVLPG") && !svg.contains("creations only"));
        assert!(!svg.contains("The converter") && !svg.contains("Fixed rows"));
    }

    /// The axes have units, and end at or above the most that was measured.
    #[test]
    fn axes_and_legend() {
        let svg = svg(&[row(What::Step, "reset", "alike", 2_816)], "alike");
        for words in ["0", "5 us", "20 us", "1408", "2816", "records"] {
            assert!(svg.contains(&format!(">{words}</text>")), "{words}");
        }
        for (name, ..) in STYLES {
            assert!(svg.contains(&format!(">{name}</text>")), "{name}");
        }
        assert!(!svg.contains("25 us"));
    }

    #[test]
    fn steps_are_round() {
        let found = [0.5, 1.0, 3.0, 3_600.0, 6_000.0].map(round_step);
        assert_eq!(found, [1.0, 1.0, 5.0, 5_000.0, 10_000.0]);
    }
}
