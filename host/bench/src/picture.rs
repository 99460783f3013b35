//! The picture: how an order's cost grows, for each version, in three panels side by side.

use crate::growth::Measure;
use crate::report::{Curve, Report};
use crate::versions::in_hand;
use std::fmt::Write;

const WIDTH: f64 = 1120.0;
const HEIGHT: f64 = 400.0;
/// The panels' own frame.
const TOP: f64 = 110.0;
const BOTTOM: f64 = 340.0;
const LEFT: f64 = 70.0;
const PANEL: f64 = 300.0;
const GAP: f64 = 60.0;

/// Where a value is, from 0 to 1 along an axis.
struct Scale {
    least: f64,
    most: f64,
    bent: fn(f64) -> f64,
}

impl Scale {
    fn part(&self, value: f64) -> f64 {
        let bent = self.bent;
        (bent(value) - bent(self.least)) / (bent(self.most) - bent(self.least))
    }
}

/// As even steps, so that 1, 2 and 4 are as far apart as 16, 32 and 64.
fn doubling(value: f64) -> f64 {
    value.log2()
}

fn even(value: f64) -> f64 {
    value
}

/// A panel's title, its curve, the numbers under its axis, and how the axis goes.
struct Panel<'a> {
    title: &'a str,
    curve: &'a Curve,
    ticks: &'a [usize],
    bent: fn(f64) -> f64,
}

pub fn drawn(report: &Report) -> String {
    let measured = |curves: &'_ [Curve]| -> usize {
        let chosen = |curve: &Curve| curve.cost == Measure::Cancelled.name();
        curves.iter().position(chosen).unwrap_or(0)
    };
    let panels = [
        Panel {
            title: "An order and its cancel, none resting before",
            curve: &report.contracts[measured(&report.contracts)],
            ticks: &[1, 2, 4, 8, 16, 32, 64],
            bent: doubling,
        },
        Panel {
            title: "An order and its cancel, 64 contracts",
            curve: &report.resting[measured(&report.resting)],
            ticks: &[0, 4, 8, 16, 24, 31],
            bent: even,
        },
        Panel {
            title: "A record of the market maker's book",
            curve: &report.length,
            ticks: &[600, 2_500, 10_000, 58_500],
            bent: doubling,
        },
    ];
    let times = heights(&panels);
    let mut svg = opening();
    for (place, panel) in (0..).zip(&panels) {
        let left = LEFT + f64::from(place) * (PANEL + GAP);
        svg += &panel.drawn(left, &times);
    }
    svg + "</svg>\n"
}

/// From 1, 2 or 5 with noughts below all times to one above them; the panels share it, so that they can be compared.
fn heights(panels: &[Panel]) -> Scale {
    let points = panels.iter().flat_map(|panel| &panel.curve.points);
    let times = points.flat_map(|(_, spreads)| spreads.iter().map(|spread| spread.median));
    let times: Vec<f64> = times.collect();
    let least = times.iter().copied().fold(f64::MAX, f64::min);
    let most = times.iter().copied().fold(0.0, f64::max);
    Scale {
        least: marks()
            .take_while(|&mark| mark <= least)
            .last()
            .unwrap_or(1.0),
        most: marks().find(|&mark| most <= mark).unwrap_or(most),
        bent: doubling,
    }
}

/// 1, 2, 5, 10, 20, 50 and so on.
fn marks() -> impl Iterator<Item = f64> {
    let tens = (0..9).map(|power| 10_f64.powi(power));
    tens.flat_map(|ten| [1.0, 2.0, 5.0].map(|mark| mark * ten))
}

fn text(x: f64, y: f64, manner: &str, words: &str) -> String {
    format!("<text x=\"{x:.1}\" y=\"{y:.1}\" {manner}>{words}</text>\n")
}

fn line(from: (f64, f64), to: (f64, f64), manner: &str) -> String {
    let ((x1, y1), (x2, y2)) = (from, to);
    format!("<line x1=\"{x1:.1}\" y1=\"{y1:.1}\" x2=\"{x2:.1}\" y2=\"{y2:.1}\" {manner}/>\n")
}

/// The head, the title, the legend, and what the height says.
fn opening() -> String {
    let mut svg = format!(
        "<svg xmlns=\"http://www.w3.org/2000/svg\" viewBox=\"0 0 {WIDTH} {HEIGHT}\" \
         font-family=\"sans-serif\" font-size=\"12\" fill=\"#222\">\n\
         <rect width=\"100%\" height=\"100%\" fill=\"white\"/>\n"
    );
    let title = "What an order costs as the account grows";
    svg += &text(LEFT, 30.0, "font-size=\"17\" font-weight=\"bold\"", title);
    let step = (WIDTH - LEFT) / in_hand().len() as f64;
    for (place, version) in (0..).zip(in_hand()) {
        let x = LEFT + step * f64::from(place);
        let stroke = format!("stroke=\"{}\" stroke-width=\"2.5\"", version.colour);
        svg += &line((x, 54.0), (x + 24.0, 54.0), &stroke);
        let words = format!("{}: {}", version.name, version.manner);
        svg += &text(x + 30.0, 58.0, "", &words);
    }
    let middle = (TOP + BOTTOM) / 2.0;
    let turned = format!("text-anchor=\"middle\" transform=\"rotate(-90 18 {middle})\"");
    svg + &text(18.0, middle, &turned, "nanoseconds")
}

impl Panel<'_> {
    fn drawn(&self, left: f64, times: &Scale) -> String {
        let counts = || self.curve.points.iter().map(|&(count, _)| count as f64);
        let along = Scale {
            least: counts().fold(f64::MAX, f64::min),
            most: counts().fold(0.0, f64::max),
            bent: self.bent,
        };
        let x = |count: f64| left + 8.0 + (PANEL - 16.0) * along.part(count);
        let y = |time: f64| BOTTOM - (BOTTOM - TOP) * times.part(time);
        let mut svg = self.frame(left, times, y);
        for &tick in self.ticks {
            let at = x((tick as f64).clamp(along.least, along.most));
            svg += &line((at, BOTTOM), (at, BOTTOM + 5.0), "stroke=\"#666\"");
            let words = tick.to_string();
            svg += &text(at, BOTTOM + 19.0, "text-anchor=\"middle\"", &words);
        }
        for (place, version) in in_hand().iter().enumerate() {
            let points = self.curve.points.iter();
            let points = points.map(|(count, spreads)| (*count as f64, spreads[place].median));
            let points: Vec<(f64, f64)> = points.map(|(c, t)| (x(c), y(t))).collect();
            svg += &curve(&points, version.colour);
        }
        svg
    }

    /// The title, a line for each mark of the height, and what is counted.
    fn frame(&self, left: f64, times: &Scale, y: impl Fn(f64) -> f64) -> String {
        let right = left + PANEL;
        let mut svg = text(left, TOP - 14.0, "font-weight=\"bold\"", self.title);
        let shown = |&mark: &f64| times.least <= mark && mark <= times.most;
        for mark in marks().filter(shown) {
            let height = y(mark);
            svg += &line((left, height), (right, height), "stroke=\"#ddd\"");
            let manner = "text-anchor=\"end\" fill=\"#555\"";
            svg += &text(left - 6.0, height + 4.0, manner, &mark.to_string());
        }
        svg += &line((left, BOTTOM), (right, BOTTOM), "stroke=\"#666\"");
        let middle = (left + right) / 2.0;
        svg + &text(
            middle,
            BOTTOM + 40.0,
            "text-anchor=\"middle\"",
            self.curve.axis,
        )
    }
}

fn curve(points: &[(f64, f64)], colour: &str) -> String {
    let mut corners = String::new();
    let mut dots = String::new();
    for (x, y) in points {
        write!(corners, "{x:.1},{y:.1} ").expect("a string takes all");
        let dot = format!("<circle cx=\"{x:.1}\" cy=\"{y:.1}\" r=\"3\" fill=\"{colour}\"/>\n");
        dots += &dot;
    }
    let corners = corners.trim_end();
    let manner = format!("fill=\"none\" stroke=\"{colour}\" stroke-width=\"2\"");
    format!("<polyline points=\"{corners}\" {manner}/>\n{dots}")
}
