//! A plot of times in a drawing of lines (SVG), with both scales in powers of ten.

use std::fmt::Write;

const WIDTH: f64 = 640.0;
const HEIGHT: f64 = 400.0;
/// Room for the numbers at the left and below, and for the names at the right.
const LEFT: f64 = 70.0;
const RIGHT: f64 = 150.0;
const TOP: f64 = 40.0;
const BOTTOM: f64 = 50.0;
const COLOURS: [&str; 6] = ["#0b62a4", "#d1495b", "#2e8b57", "#b8860b", "#6a4c93", "#555555"];

pub struct Line {
    pub name: String,
    pub points: Vec<(f64, f64)>,
}

pub fn draw(title: &str, across: &str, lines: &[Line]) -> String {
    let points = || lines.iter().flat_map(|line| &line.points);
    let x = Scale::over(points().map(|point| point.0), LEFT, WIDTH - RIGHT);
    let y = Scale::over(points().map(|point| point.1), HEIGHT - BOTTOM, TOP);
    let mut svg = format!(
        "<svg xmlns=\"http://www.w3.org/2000/svg\" viewBox=\"0 0 {WIDTH} {HEIGHT}\" font-family=\"sans-serif\" font-size=\"12\">\n\
         <rect width=\"{WIDTH}\" height=\"{HEIGHT}\" fill=\"white\"/>\n<text x=\"{LEFT}\" y=\"20\" font-size=\"14\">{title}</text>\n"
    );
    for power in x.powers() {
        let at = x.place(10_f64.powi(power));
        grid(&mut svg, [at, TOP, at, HEIGHT - BOTTOM]);
        label(&mut svg, at, HEIGHT - BOTTOM + 18.0, "middle", &number(power));
    }
    for power in y.powers() {
        let at = y.place(10_f64.powi(power));
        grid(&mut svg, [LEFT, at, WIDTH - RIGHT, at]);
        label(&mut svg, LEFT - 8.0, at + 4.0, "end", &number(power));
    }
    label(&mut svg, (LEFT + WIDTH - RIGHT) / 2.0, HEIGHT - 12.0, "middle", across);
    label(&mut svg, 12.0, TOP - 8.0, "start", "ms");
    let mut ends: Vec<f64> = Vec::new();
    for (line, colour) in lines.iter().zip(COLOURS) {
        let places: Vec<(f64, f64)> = line.points.iter().map(|&(a, b)| (x.place(a), y.place(b))).collect();
        let path: Vec<String> = places.iter().map(|(a, b)| format!("{a:.1},{b:.1}")).collect();
        writeln!(
            svg,
            "<polyline points=\"{}\" fill=\"none\" stroke=\"{colour}\" stroke-width=\"2\"/>",
            path.join(" ")
        )
        .expect("a string grows");
        let (across, mut down) = places[places.len() - 1];
        // Names that would stand over one another move down.
        while ends.iter().any(|end| (end - down).abs() < 13.0) {
            down += 1.0;
        }
        ends.push(down);
        writeln!(
            svg,
            "<text x=\"{:.1}\" y=\"{:.1}\" fill=\"{colour}\">{}</text>",
            across + 6.0,
            down + 4.0,
            line.name
        )
        .expect("a string grows");
    }
    svg + "</svg>\n"
}

/// From one power of ten to another.
struct Scale {
    low: f64,
    high: f64,
    from: f64,
    to: f64,
}

impl Scale {
    fn over(values: impl Iterator<Item = f64> + Clone, from: f64, to: f64) -> Scale {
        let least = values.clone().fold(f64::INFINITY, f64::min);
        let greatest = values.fold(0.0, f64::max);
        Scale { low: least.log10().floor(), high: greatest.log10().ceil(), from, to }
    }

    fn place(&self, value: f64) -> f64 {
        self.from + (self.to - self.from) * (value.log10() - self.low) / (self.high - self.low).max(1.0)
    }

    fn powers(&self) -> impl Iterator<Item = i32> {
        self.low as i32..=self.high as i32
    }
}

fn grid(svg: &mut String, [a, b, c, d]: [f64; 4]) {
    writeln!(svg, "<line x1=\"{a:.1}\" y1=\"{b:.1}\" x2=\"{c:.1}\" y2=\"{d:.1}\" stroke=\"#dddddd\"/>")
        .expect("a string grows");
}

fn label(svg: &mut String, x: f64, y: f64, anchor: &str, text: &str) {
    writeln!(svg, "<text x=\"{x:.1}\" y=\"{y:.1}\" text-anchor=\"{anchor}\" fill=\"#333333\">{text}</text>")
        .expect("a string grows");
}

/// Small powers of ten as they are read, others by their power.
fn number(power: i32) -> String {
    match power {
        -3..=-1 => format!("{:.*}", power.unsigned_abs() as usize, 10_f64.powi(power)),
        0..=4 => format!("{}", 10_i64.pow(power as u32)),
        _ => format!("10<tspan dy=\"-4\" font-size=\"9\">{power}</tspan>"),
    }
}
