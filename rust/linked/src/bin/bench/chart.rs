//! Charts side by side as an SVG, both axes logarithmic: across by powers of 2, up by powers of 10.

use std::fmt::Write;

pub struct Panel {
    pub title: &'static str,
    pub curves: Vec<Curve>,
}

pub struct Curve {
    pub name: String,
    pub colour: &'static str,
    pub is_dashed: bool,
    /// Across and up, rising across; all above 0.
    pub points: Vec<(f64, f64)>,
}

/// A panel's drawing area, in pixels, and the distance from one panel to the next.
const WIDTH: f64 = 340.0;
const HEIGHT: f64 = 300.0;
const PITCH: f64 = 440.0;
const LEFT: f64 = 70.0;
const TOP: f64 = 74.0;
/// Below the drawing area: numbers, the axis' name and the legend.
const BELOW: f64 = 144.0;

pub fn chart(title: &str, across: &str, panels: &[Panel]) -> String {
    let (width, height) = (PITCH * panels.len() as f64 + 10.0, TOP + HEIGHT + BELOW);
    let mut svg = format!(
        "<svg xmlns=\"http://www.w3.org/2000/svg\" viewBox=\"0 0 {width} {height}\" width=\"{width}\" height=\"{height}\" \
         font-family=\"sans-serif\" font-size=\"13\" fill=\"#222\">\n<rect width=\"100%\" height=\"100%\" fill=\"white\"/>\n"
    );
    text(&mut svg, (width / 2.0, 26.0), "middle", "font-size=\"15\"", title);
    for (index, panel) in panels.iter().enumerate() {
        let place = Place::of(panel, LEFT + PITCH * index as f64);
        place.draw_axes(&mut svg, panel.title, across);
        panel.curves.iter().for_each(|curve| place.draw_curve(&mut svg, curve));
        place.draw_legend(&mut svg, &panel.curves);
    }
    svg + "</svg>\n"
}

fn text(svg: &mut String, (x, y): (f64, f64), anchor: &str, more: &str, words: &str) {
    writeln!(svg, "<text x=\"{x:.1}\" y=\"{y:.1}\" text-anchor=\"{anchor}\" {more}>{words}</text>").expect("a string takes all");
}

fn line(svg: &mut String, (x, y): (f64, f64), (to_x, to_y): (f64, f64), style: &str) {
    writeln!(svg, "<line x1=\"{x:.1}\" y1=\"{y:.1}\" x2=\"{to_x:.1}\" y2=\"{to_y:.1}\" {style}/>").expect("a string takes all");
}

/// Where a panel stands, and the powers that its axes go from and to.
struct Place {
    left: f64,
    twos: (f64, f64),
    tens: (f64, f64),
}

impl Place {
    fn of(panel: &Panel, left: f64) -> Place {
        let points = || panel.curves.iter().flat_map(|curve| &curve.points);
        let ends = |value: &dyn Fn(&(f64, f64)) -> f64| {
            let least = points().map(value).fold(f64::INFINITY, f64::min);
            let most = points().map(value).fold(f64::NEG_INFINITY, f64::max);
            (least.floor(), most.ceil())
        };
        Place { left, twos: ends(&|point| point.0.log2()), tens: ends(&|point| point.1.log10()) }
    }

    fn x(&self, value: f64) -> f64 {
        self.left + WIDTH * (value.log2() - self.twos.0) / (self.twos.1 - self.twos.0)
    }

    fn y(&self, value: f64) -> f64 {
        TOP + HEIGHT * (self.tens.1 - value.log10()) / (self.tens.1 - self.tens.0)
    }

    fn draw_axes(&self, svg: &mut String, title: &str, across: &str) {
        let (right, bottom) = (self.left + WIDTH, TOP + HEIGHT);
        let grid = "stroke=\"#ddd\"";
        for power in self.twos.0 as i32..=self.twos.1 as i32 {
            let value = 2_f64.powi(power);
            line(svg, (self.x(value), TOP), (self.x(value), bottom), grid);
            text(svg, (self.x(value), bottom + 18.0), "middle", "", &value.to_string());
        }
        for power in self.tens.0 as i32..=self.tens.1 as i32 {
            let value = 10_f64.powi(power);
            line(svg, (self.left, self.y(value)), (right, self.y(value)), grid);
            text(svg, (self.left - 8.0, self.y(value) + 4.0), "end", "", &grouped(value));
        }
        let frame = "fill=\"none\" stroke=\"#222\"";
        writeln!(svg, "<rect x=\"{}\" y=\"{TOP}\" width=\"{WIDTH}\" height=\"{HEIGHT}\" {frame}/>", self.left)
            .expect("a string takes all");
        text(svg, (self.left + WIDTH / 2.0, TOP - 14.0), "middle", "font-weight=\"bold\"", title);
        text(svg, (self.left + WIDTH / 2.0, bottom + 40.0), "middle", "", across);
    }

    fn draw_curve(&self, svg: &mut String, curve: &Curve) {
        let places: Vec<String> =
            curve.points.iter().map(|point| format!("{:.1},{:.1}", self.x(point.0), self.y(point.1))).collect();
        writeln!(svg, "<polyline points=\"{}\" fill=\"none\" {}/>", places.join(" "), curve.stroke())
            .expect("a string takes all");
        for point in &curve.points {
            let (x, y) = (self.x(point.0), self.y(point.1));
            let fill = if curve.is_dashed { "white" } else { curve.colour };
            writeln!(svg, "<circle cx=\"{x:.1}\" cy=\"{y:.1}\" r=\"3\" stroke=\"{}\" fill=\"{fill}\"/>", curve.colour)
                .expect("a string takes all");
        }
    }

    /// Below the axis, in as many columns as there are kinds of line.
    fn draw_legend(&self, svg: &mut String, curves: &[Curve]) {
        let columns = if curves.iter().any(|curve| curve.is_dashed) { 2 } else { 1 };
        for (index, curve) in curves.iter().enumerate() {
            let x = self.left + 175.0 * (index % columns) as f64;
            let y = TOP + HEIGHT + 72.0 + 24.0 * (index / columns) as f64;
            line(svg, (x, y), (x + 30.0, y), &curve.stroke());
            text(svg, (x + 38.0, y + 4.5), "start", "", &curve.name);
        }
    }
}

impl Curve {
    fn stroke(&self) -> String {
        let dash = if self.is_dashed { " stroke-dasharray=\"6 4\"" } else { "" };
        format!("stroke=\"{}\" stroke-width=\"2\"{dash}", self.colour)
    }
}

/// A power of 10, its digits in threes.
fn grouped(value: f64) -> String {
    if value < 1.0 {
        return value.to_string();
    }
    let digits = format!("{value:.0}");
    let parts: Vec<&str> = digits.as_bytes().rchunks(3).rev().map(|part| std::str::from_utf8(part).expect("digits")).collect();
    parts.join(",")
}
