//! Pictures of how something goes from closing to closing.

use std::fmt::Write;

const LEFT: f64 = 80.0;
const RIGHT: f64 = 560.0;
const TOP: f64 = 50.0;
const BOTTOM: f64 = 330.0;

/// Lines over closings, from the first to the last.
pub struct Chart {
    pub title: &'static str,
    /// What the closings are called.
    pub below: &'static str,
    /// How far up a value stands: 0 at the bottom, 1 at the top.
    pub up: fn(f64) -> f64,
    /// Values with a line of their own, each named.
    pub ticks: Vec<(f64, &'static str)>,
    pub curves: Vec<Curve>,
}

/// A value for each closing.
pub struct Curve {
    pub values: Vec<f64>,
    pub colour: &'static str,
    pub name: &'static str,
    /// What stands below the name.
    pub last: String,
}

impl Chart {
    pub fn svg(&self) -> String {
        let mut text = String::from(
            "<svg xmlns=\"http://www.w3.org/2000/svg\" viewBox=\"0 0 760 390\" font-family=\"sans-serif\" font-size=\"13\">\n\
             <rect width=\"760\" height=\"390\" fill=\"white\"/>\n",
        );
        line(&mut text, &format!("<text x=\"20\" y=\"24\" font-size=\"16\">{}</text>", self.title));
        self.ticks.iter().for_each(|&(value, name)| self.tick(&mut text, value, name));
        let closings = self.curves[0].values.len();
        for n in (1..=closings).filter(|n| n.is_multiple_of(8)) {
            let (x, y) = (across(n, closings), BOTTOM + 20.0);
            line(&mut text, &format!("<text x=\"{x:.1}\" y=\"{y}\" text-anchor=\"middle\">{n}</text>"));
        }
        let middle = (LEFT + RIGHT) / 2.0;
        line(&mut text, &format!("<text x=\"{middle}\" y=\"375\" text-anchor=\"middle\">{}</text>", self.below));
        self.curves.iter().for_each(|curve| self.draw(&mut text, curve));
        text + "</svg>\n"
    }

    fn up(&self, value: f64) -> f64 {
        BOTTOM - (BOTTOM - TOP) * (self.up)(value)
    }

    fn tick(&self, text: &mut String, value: f64, name: &str) {
        let y = self.up(value);
        line(text, &format!("<line x1=\"{LEFT}\" y1=\"{y:.1}\" x2=\"{RIGHT}\" y2=\"{y:.1}\" stroke=\"#ddd\"/>"));
        line(text, &format!("<text x=\"{}\" y=\"{:.1}\" text-anchor=\"end\">{name}</text>", LEFT - 8.0, y + 4.0));
    }

    /// One line of the picture, named at its end.
    fn draw(&self, text: &mut String, Curve { values, colour, name, last }: &Curve) {
        let point = |(n, value): (usize, &f64)| format!("{:.1},{:.1}", across(n + 1, values.len()), self.up(*value));
        let points = values.iter().enumerate().map(point).collect::<Vec<String>>().join(" ");
        line(text, &format!("<polyline points=\"{points}\" fill=\"none\" stroke=\"{colour}\" stroke-width=\"2.5\"/>"));
        let (x, y) = (RIGHT + 10.0, self.up(*values.last().expect("some closings")));
        line(text, &format!("<text x=\"{x}\" y=\"{:.1}\" fill=\"{colour}\">{name}</text>", y - 2.0));
        line(text, &format!("<text x=\"{x}\" y=\"{:.1}\" fill=\"{colour}\">{last}</text>", y + 14.0));
    }
}

fn across(closing: usize, closings: usize) -> f64 {
    LEFT + (RIGHT - LEFT) * closing as f64 / closings as f64
}

fn line(text: &mut String, part: &str) {
    writeln!(text, "{part}").expect("a string takes all");
}
