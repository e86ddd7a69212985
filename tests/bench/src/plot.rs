//! A plot of how time grows with size, as SVG, with both axes logarithmic.

pub struct Line {
    pub name: &'static str,
    /// Sizes and seconds.
    pub points: Vec<(f64, f64)>,
}

const WIDTH: f64 = 760.0;
const HEIGHT: f64 = 480.0;
const LEFT: f64 = 80.0;
const RIGHT: f64 = 40.0;
const TOP: f64 = 40.0;
const BOTTOM: f64 = 60.0;
const COLOURS: [&str; 6] = [
    "#1f77b4", "#d62728", "#2ca02c", "#9467bd", "#ff7f0e", "#17becf",
];

/// The powers of ten around the values.
fn decades(values: impl Iterator<Item = f64> + Clone) -> (f64, f64) {
    let low = values.clone().fold(f64::INFINITY, f64::min);
    let high = values.fold(0.0, f64::max);
    (low.log10().floor(), high.log10().ceil())
}

/// A power of ten seconds in words.
fn time(power: f64) -> String {
    let power = power as i32;
    let (unit, base) = match power {
        ..=-7 => ("ns", -9),
        -6..=-4 => ("µs", -6),
        -3..=-1 => ("ms", -3),
        _ => ("s", 0),
    };
    format!("{} {unit}", 10i64.pow((power - base) as u32))
}

pub fn svg(title: &str, across: &str, lines: &[Line]) -> String {
    let points = || lines.iter().flat_map(|line| line.points.iter());
    let (x0, x1) = decades(points().map(|p| p.0));
    let (y0, y1) = decades(points().map(|p| p.1));
    let x = |v: f64| LEFT + (v - x0) / (x1 - x0) * (WIDTH - LEFT - RIGHT);
    let y = |v: f64| HEIGHT - BOTTOM - (v - y0) / (y1 - y0) * (HEIGHT - TOP - BOTTOM);
    let mut svg = format!(
        "<svg xmlns=\"http://www.w3.org/2000/svg\" viewBox=\"0 0 {WIDTH} {HEIGHT}\" font-family=\"sans-serif\" font-size=\"13\">\n\
         <rect width=\"{WIDTH}\" height=\"{HEIGHT}\" fill=\"white\"/>\n\
         <text x=\"{LEFT}\" y=\"24\" font-size=\"15\">{title}</text>\n\
         <text x=\"{:.1}\" y=\"{:.1}\" text-anchor=\"middle\">{across}</text>\n",
        x((x0 + x1) / 2.0),
        HEIGHT - 16.0
    );
    let mut rule = |x_from: f64, y_from: f64, x_to: f64, y_to: f64, label: String, side: bool| {
        svg.push_str(&format!(
            "<line x1=\"{x_from:.1}\" y1=\"{y_from:.1}\" x2=\"{x_to:.1}\" y2=\"{y_to:.1}\" stroke=\"#ddd\"/>\n"
        ));
        let (at_x, at_y, anchor) = if side {
            (x_from - 8.0, y_from + 4.0, "end")
        } else {
            (x_from, y_from + 20.0, "middle")
        };
        svg.push_str(&format!(
            "<text x=\"{at_x:.1}\" y=\"{at_y:.1}\" text-anchor=\"{anchor}\">{label}</text>\n"
        ));
    };
    for power in x0 as i32..=x1 as i32 {
        let power = f64::from(power);
        let label = format!("{}", 10f64.powf(power));
        rule(x(power), y(y0), x(power), y(y1), label, false);
    }
    for power in y0 as i32..=y1 as i32 {
        let power = f64::from(power);
        rule(x(x0), y(power), x(x1), y(power), time(power), true);
    }
    for (row, (line, colour)) in lines.iter().zip(COLOURS).enumerate() {
        let places: Vec<(f64, f64)> = line
            .points
            .iter()
            .map(|(size, seconds)| (x(size.log10()), y(seconds.log10())))
            .collect();
        let path: Vec<String> = places
            .iter()
            .map(|(x, y)| format!("{x:.1},{y:.1}"))
            .collect();
        svg.push_str(&format!(
            "<polyline points=\"{}\" fill=\"none\" stroke=\"{colour}\" stroke-width=\"2\"/>\n",
            path.join(" ")
        ));
        for (x, y) in &places {
            svg.push_str(&format!(
                "<circle cx=\"{x:.1}\" cy=\"{y:.1}\" r=\"3\" fill=\"{colour}\"/>\n"
            ));
        }
        // The names stand at the top left, where no line goes.
        let (at_x, at_y) = (LEFT + 16.0, TOP + 20.0 + 20.0 * row as f64);
        svg.push_str(&format!(
            "<rect x=\"{at_x:.1}\" y=\"{:.1}\" width=\"14\" height=\"4\" fill=\"{colour}\"/>\n\
             <text x=\"{:.1}\" y=\"{at_y:.1}\">{}</text>\n",
            at_y - 6.0,
            at_x + 22.0,
            line.name
        ));
    }
    svg.push_str("</svg>\n");
    svg
}
