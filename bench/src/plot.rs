//! A plot of lines, both axes logarithmic, as SVG.

use crate::table::whole;
use svg::{document, element, Attribute};

/// Points that a line joins.
pub struct Series {
    name: String,
    points: Vec<(f64, f64)>,
}

impl Series {
    /// Points in ascending order across; all numbers are above 0.
    pub fn new(name: &str, points: Vec<(f64, f64)>) -> Series {
        let name = name.to_string();
        Series { name, points }
    }
}

/// What is drawn: a title, the names of the axes with their units, and lines with a legend.
pub struct Plot {
    pub title: String,
    pub across: String,
    pub up: String,
    pub series: Vec<Series>,
}

/// The picture's size, and the frame of the lines in it: left, top, right, bottom.
const SIZE: [usize; 2] = [900, 500];
const FRAME: [f64; 4] = [100.0, 50.0, 610.0, 430.0];

/// The colours of the lines, told apart also by people who see few colours, and the marks of their points.
const COLOURS: [&str; 8] = [
    "#0072b2", "#d55e00", "#009e73", "#cc79a7", "#56b4e9", "#e69f00", "#000000", "#7f7f7f",
];

impl Plot {
    /// The plot as the text of an SVG file.
    pub fn svg(&self) -> String {
        let scale = self.scale();
        let mut svg = head(&self.title);
        self.draw_axes(&scale, &mut svg);
        for (number, series) in self.series.iter().enumerate() {
            draw_series(number, series, &scale, &mut svg);
        }
        self.draw_legend(&mut svg);
        document(
            SIZE,
            &[("font-family", &"sans-serif"), ("font-size", &13)],
            &svg,
        )
    }

    /// From the least point to the greatest: powers of 2 across, powers of 10 up.
    fn scale(&self) -> Scale {
        let points = || self.series.iter().flat_map(|series| &series.points);
        let ends = |logs: &mut dyn Iterator<Item = f64>| {
            logs.fold((f64::MAX, f64::MIN), |(low, high), log| {
                (low.min(log), high.max(log))
            })
        };
        let (left, right) = ends(&mut points().map(|point| point.0.log2()));
        let (bottom, top) = ends(&mut points().map(|point| point.1.log10()));
        let (bottom, top) = (bottom.floor(), top.ceil());
        Scale {
            left: left.floor(),
            right: right.ceil().max(left.floor() + 1.0),
            bottom,
            top: top.max(bottom + 1.0),
        }
    }

    fn draw_axes(&self, scale: &Scale, svg: &mut String) {
        let [left, top, right, bottom] = FRAME;
        for power in scale.left as i32..=scale.right as i32 {
            let x = scale.x(2f64.powi(power));
            line(svg, [x, top, x, bottom], "#dddddd", 1.0);
            // At most ten numbers, so that they stay apart.
            let step = ((scale.right - scale.left) / 9.0).ceil() as i32;
            if (power - scale.left as i32) % step == 0 {
                let number = whole(2u64.pow(power as u32));
                text(svg, [x, bottom + 20.0], "middle", &number);
            }
        }
        for number in scale.marks_up() {
            let y = scale.y(number);
            line(svg, [left, y, right, y], "#cccccc", 1.0);
            text(svg, [left - 8.0, y + 4.0], "end", &mark_number(number));
        }
        line(svg, [left, bottom, right, bottom], "#000000", 1.5);
        line(svg, [left, top, left, bottom], "#000000", 1.5);
        let (across, up) = ((left + right) / 2.0, (top + bottom) / 2.0);
        text(svg, [across, bottom + 48.0], "middle", &self.across);
        let turned = format!("translate(20 {up}) rotate(-90)");
        let label = svg::text(
            &[("transform", &turned), ("text-anchor", &"middle")],
            &self.up,
        );
        push(svg, label);
    }

    /// The names of the lines, in the order in which the lines end, the highest first.
    fn draw_legend(&self, svg: &mut String) {
        let last = |series: &Series| series.points.last().map_or(0.0, |point| point.1);
        let mut order: Vec<(usize, &Series)> = self.series.iter().enumerate().collect();
        order.sort_by(|one, other| last(other.1).total_cmp(&last(one.1)));
        for (place, (number, series)) in order.into_iter().enumerate() {
            let (x, y) = (FRAME[2] + 25.0, FRAME[1] + 15.0 + 24.0 * place as f64);
            line(svg, [x, y, x + 30.0, y], colour(number), 2.0);
            mark(svg, number, x + 15.0, y);
            text(svg, [x + 40.0, y + 4.0], "start", &series.name);
        }
    }
}

/// The logarithms at the frame's ends: to base 2 across, to base 10 up.
struct Scale {
    left: f64,
    right: f64,
    bottom: f64,
    top: f64,
}

impl Scale {
    fn x(&self, number: f64) -> f64 {
        let part = (number.log2() - self.left) / (self.right - self.left);
        FRAME[0] + part * (FRAME[2] - FRAME[0])
    }

    /// The numbers beside the upright axis: powers of ten, and twice and five times them where there are few.
    fn marks_up(&self) -> Vec<f64> {
        let few = self.top - self.bottom <= 2.0;
        let steps: &[f64] = if few { &[1.0, 2.0, 5.0] } else { &[1.0] };
        let powers = (self.bottom as i32..=self.top as i32).map(|power| 10f64.powi(power));
        let marks = powers.flat_map(|power| steps.iter().map(move |step| step * power));
        marks.filter(|mark| mark.log10() <= self.top).collect()
    }

    fn y(&self, number: f64) -> f64 {
        let part = (number.log10() - self.bottom) / (self.top - self.bottom);
        FRAME[3] - part * (FRAME[3] - FRAME[1])
    }
}

/// White paper and the title.
fn head(title: &str) -> String {
    let mut svg = String::new();
    let paper = element(
        "rect",
        &[
            ("width", &"100%"),
            ("height", &"100%"),
            ("fill", &"#ffffff"),
        ],
    );
    push(&mut svg, paper);
    let title = svg::text(&[("x", &FRAME[0]), ("y", &28), ("font-size", &16)], title);
    push(&mut svg, title);
    svg
}

/// Puts an element in a line of its own.
fn push(svg: &mut String, element: String) {
    *svg += &element;
    svg.push('\n');
}

/// A place in the picture, to a tenth.
fn tenths(place: f64) -> String {
    format!("{place:.1}")
}

fn draw_series(number: usize, series: &Series, scale: &Scale, svg: &mut String) {
    let places = series.points.iter().map(|&(x, y)| (scale.x(x), scale.y(y)));
    let places: Vec<(f64, f64)> = places.collect();
    let joined: Vec<String> = places
        .iter()
        .map(|(x, y)| format!("{x:.1},{y:.1}"))
        .collect();
    let line = element(
        "polyline",
        &[
            ("points", &joined.join(" ")),
            ("fill", &"none"),
            ("stroke", &colour(number)),
            ("stroke-width", &2),
        ],
    );
    push(svg, line);
    for (x, y) in places {
        mark(svg, number, x, y);
    }
}

/// The mark of a point: filled and hollow circles and squares in turn.
fn mark(svg: &mut String, number: usize, x: f64, y: f64) {
    let colour = colour(number);
    let fill = if number % 4 < 2 { colour } else { "#ffffff" };
    let paint: [Attribute<'_>; 3] = [("fill", &fill), ("stroke", &colour), ("stroke-width", &1.5)];
    let mark = if number.is_multiple_of(2) {
        let (x, y) = (tenths(x), tenths(y));
        let circle: [Attribute<'_>; 3] = [("cx", &x), ("cy", &y), ("r", &3.5)];
        element("circle", &[circle, paint].concat())
    } else {
        let (left, top) = (tenths(x - 3.0), tenths(y - 3.0));
        let square: [Attribute<'_>; 4] = [("x", &left), ("y", &top), ("width", &6), ("height", &6)];
        element("rect", &[&square[..], &paint].concat())
    };
    push(svg, mark);
}

fn colour(number: usize) -> &'static str {
    COLOURS[number % COLOURS.len()]
}

fn line(svg: &mut String, ends: [f64; 4], colour: &str, width: f64) {
    let [x1, y1, x2, y2] = ends.map(tenths);
    let line = element(
        "line",
        &[
            ("x1", &x1),
            ("y1", &y1),
            ("x2", &x2),
            ("y2", &y2),
            ("stroke", &colour),
            ("stroke-width", &width),
        ],
    );
    push(svg, line);
}

fn text(svg: &mut String, place: [f64; 2], anchor: &str, text: &str) {
    let [x, y] = place.map(tenths);
    let text = svg::text(&[("x", &x), ("y", &y), ("text-anchor", &anchor)], text);
    push(svg, text);
}

/// A mark as a number: 0.1, 1, 10, ... 1,000.
fn mark_number(number: f64) -> String {
    if number < 1.0 {
        number.to_string()
    } else {
        whole(number as u64)
    }
}

#[cfg(test)]
mod tests {
    use super::*;

    #[test]
    fn points_lie_in_the_frame_at_their_logarithms() {
        let plot = Plot {
            title: "a < b".to_string(),
            across: "pages".to_string(),
            up: "ns".to_string(),
            series: vec![Series::new("one", vec![(16.0, 10.0), (4_096.0, 1_000.0)])],
        };
        let scale = plot.scale();
        assert_eq!((scale.x(16.0), scale.y(10.0)), (FRAME[0], FRAME[3]));
        assert_eq!((scale.x(4_096.0), scale.y(1_000.0)), (FRAME[2], FRAME[1]));
        assert_eq!(scale.y(100.0), (FRAME[1] + FRAME[3]) / 2.0);
        let marks = [10.0, 20.0, 50.0, 100.0, 200.0, 500.0, 1_000.0];
        assert_eq!(scale.marks_up(), marks);
        let svg = plot.svg();
        assert!(svg.contains("points=\"100.0,430.0 610.0,50.0\""));
        assert!(svg.contains("a &lt; b") && svg.contains(">4,096<"));
        assert!(svg.starts_with("<svg") && svg.ends_with("</svg>\n"));
    }
}
