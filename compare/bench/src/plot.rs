//! A plot of Read's time against words and against items, as SVG. Times are on logarithmic axes.

use crate::calls::Measured;
use std::fmt::Write;

/// One line of a panel: a name, a colour, points of (x, nanoseconds).
pub struct Curve {
    pub name: String,
    pub colour: &'static str,
    pub dashed: bool,
    pub points: Vec<(f64, f64)>,
}

/// Two curves for each list: the library's unbroken, the rival's dashed.
pub fn curves(
    name: &str,
    colour: &'static str,
    list: &[Measured],
    x: impl Fn(&Measured) -> usize,
) -> [Curve; 2] {
    let curve = |who: &str, dashed, time: &dyn Fn(&Measured) -> f64| Curve {
        name: format!("{name}, {who}"),
        colour,
        dashed,
        points: list.iter().map(|m| (x(m) as f64, time(m))).collect(),
    };
    [
        curve("library", false, &|m| m.read.library),
        curve("rival", true, &|m| m.read.rival),
    ]
}

pub struct Panel {
    pub title: &'static str,
    pub x_label: &'static str,
    /// Whether the horizontal axis is logarithmic.
    pub x_logarithmic: bool,
    pub curves: Vec<Curve>,
}

const WIDTH: f64 = 480.0;
const HEIGHT: f64 = 400.0;
const LEFT: f64 = 64.0;
const RIGHT: f64 = 16.0;
const TOP: f64 = 36.0;
const BOTTOM: f64 = 52.0;

pub fn svg(panels: &[Panel]) -> String {
    let width = WIDTH * panels.len() as f64;
    let mut text = format!(
        "<svg xmlns=\"http://www.w3.org/2000/svg\" viewBox=\"0 0 {width} {HEIGHT}\" \
         font-family=\"sans-serif\" font-size=\"11\">\n\
         <rect width=\"{width}\" height=\"{HEIGHT}\" fill=\"white\"/>\n"
    );
    for (number, panel) in panels.iter().enumerate() {
        let offset = WIDTH * number as f64;
        writeln!(text, "<g transform=\"translate({offset} 0)\">").unwrap();
        panel.draw(&mut text);
        text += "</g>\n";
    }
    text + "</svg>\n"
}

/// From a value to a place on the drawing.
struct Axis {
    logarithmic: bool,
    least: f64,
    greatest: f64,
    from: f64,
    to: f64,
}

impl Axis {
    fn scaled(&self, value: f64) -> f64 {
        if self.logarithmic {
            value.log10()
        } else {
            value
        }
    }

    fn place(&self, value: f64) -> f64 {
        let least = self.scaled(self.least);
        let share = (self.scaled(value) - least) / (self.scaled(self.greatest) - least);
        self.from + share * (self.to - self.from)
    }

    /// Powers of ten, or every fourth number.
    fn ticks(&self) -> Vec<f64> {
        if self.logarithmic {
            let powers = (0..12).map(|power| 10_f64.powi(power));
            powers
                .filter(|tick| (self.least..=self.greatest).contains(tick))
                .collect()
        } else {
            (0..=self.greatest as u32)
                .step_by(4)
                .map(f64::from)
                .collect()
        }
    }
}

impl Panel {
    fn draw(&self, text: &mut String) {
        let (x, y) = self.axes();
        self.draw_frame(text, &x, &y);
        for (number, curve) in self.curves.iter().enumerate() {
            curve.draw(text, &x, &y);
            curve.draw_key(text, LEFT + 10.0, TOP + 16.0 + 15.0 * number as f64);
        }
    }

    fn axes(&self) -> (Axis, Axis) {
        let points = || self.curves.iter().flat_map(|curve| &curve.points);
        let greatest_x = points().map(|point| point.0).fold(0.0, f64::max);
        let least_x = points().map(|point| point.0).fold(f64::MAX, f64::min);
        let greatest_y = points().map(|point| point.1).fold(0.0, f64::max);
        let x = Axis {
            logarithmic: self.x_logarithmic,
            least: if self.x_logarithmic { least_x } else { 0.0 },
            greatest: greatest_x,
            from: LEFT,
            to: WIDTH - RIGHT,
        };
        let y = Axis {
            logarithmic: true,
            least: 100.0,
            greatest: 10_f64.powf(greatest_y.log10().ceil()),
            from: HEIGHT - BOTTOM,
            to: TOP,
        };
        (x, y)
    }

    fn draw_frame(&self, text: &mut String, x: &Axis, y: &Axis) {
        let (left, right, top, bottom) = (x.from, x.to, y.to, y.from);
        for tick in x.ticks() {
            let at = x.place(tick);
            let below = bottom + 15.0;
            writeln!(
                text,
                "<path d=\"M{at:.1} {top}V{bottom}\" stroke=\"#ddd\"/>\
                 <text x=\"{at:.1}\" y=\"{below}\" text-anchor=\"middle\">{tick}</text>"
            )
            .unwrap();
        }
        for tick in y.ticks() {
            let at = y.place(tick);
            let (beside, baseline) = (left - 6.0, at + 4.0);
            let label = time_label(tick);
            writeln!(
                text,
                "<path d=\"M{left} {at:.1}H{right}\" stroke=\"#ddd\"/>\
                 <text x=\"{beside}\" y=\"{baseline:.1}\" text-anchor=\"end\">{label}</text>"
            )
            .unwrap();
        }
        let (middle, foot) = ((left + right) / 2.0, HEIGHT - 14.0);
        writeln!(
            text,
            "<path d=\"M{left} {top}V{bottom}H{right}\" fill=\"none\" stroke=\"black\"/>\n\
             <text x=\"{middle}\" y=\"20\" text-anchor=\"middle\" font-size=\"13\">{}</text>\n\
             <text x=\"{middle}\" y=\"{foot}\" text-anchor=\"middle\">{}</text>",
            self.title, self.x_label
        )
        .unwrap();
    }
}

fn time_label(nanoseconds: f64) -> String {
    match nanoseconds {
        n if n < 1e3 => format!("{n} ns"),
        n if n < 1e6 => format!("{} µs", n / 1e3),
        n => format!("{} ms", n / 1e6),
    }
}

impl Curve {
    fn stroke(&self) -> String {
        let dashes = if self.dashed {
            " stroke-dasharray=\"5 3\""
        } else {
            ""
        };
        format!(
            "fill=\"none\" stroke=\"{}\" stroke-width=\"1.6\"{dashes}",
            self.colour
        )
    }

    fn draw(&self, text: &mut String, x: &Axis, y: &Axis) {
        let points: Vec<String> = self
            .points
            .iter()
            .map(|point| format!("{:.1},{:.1}", x.place(point.0), y.place(point.1)))
            .collect();
        writeln!(
            text,
            "<polyline points=\"{}\" {}/>",
            points.join(" "),
            self.stroke()
        )
        .unwrap();
    }

    fn draw_key(&self, text: &mut String, left: f64, at: f64) {
        let (words, baseline) = (left + 30.0, at + 4.0);
        writeln!(
            text,
            "<path d=\"M{left} {at}h24\" {}/><text x=\"{words}\" y=\"{baseline}\">{}</text>",
            self.stroke(),
            self.name
        )
        .unwrap();
    }
}
