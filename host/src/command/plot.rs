//! Scratch against the worst case, drawn as SVG.

use super::amounts::{grouped, size, time};
use rinnamoyle::Cost;

pub struct Picture<'a> {
    pub cost: Cost,
    pub seconds_per_mixing: f64,
    /// Scratch sizes to be marked.
    pub marks: &'a [u64],
    pub allowance: Option<u64>,
}

const WIDTH: f64 = 980.0;
const HEIGHT: f64 = 620.0;

/// The frame's edges, in the picture's own units.
const LEFT: f64 = 130.0;
const RIGHT: f64 = WIDTH - 110.0;
const TOP: f64 = 80.0;
const BOTTOM: f64 = HEIGHT - 80.0;

/// A logarithmic axis: the amounts at its two ends, and where these lie in the picture.
struct Axis {
    amounts: (f64, f64),
    places: (f64, f64),
}

impl Axis {
    fn place(&self, amount: f64) -> f64 {
        let along = (amount / self.amounts.0).ln() / (self.amounts.1 / self.amounts.0).ln();
        self.places.0 + along * (self.places.1 - self.places.0)
    }

    fn has(&self, amount: f64) -> bool {
        self.amounts.0 <= amount && amount <= self.amounts.1
    }

    fn clamped(&self, amount: f64) -> f64 {
        self.place(amount.clamp(self.amounts.0, self.amounts.1))
    }
}

struct Axes {
    scratch: Axis,
    mixings: Axis,
}

impl Axes {
    fn of(cost: Cost) -> Axes {
        let [least, most] = [cost.n, 1].map(|spacing| cost.scratch(spacing) as f64);
        let [best, worst] = [1, cost.n].map(|spacing| cost.spaced(spacing).worst as f64);
        Axes {
            scratch: Axis { amounts: (least / 1.8, most * 2.0), places: (LEFT, RIGHT) },
            mixings: Axis { amounts: (best / 2.0, worst * 2.5), places: (BOTTOM, TOP) },
        }
    }
}

pub fn drawn(picture: &Picture) -> String {
    let axes = Axes::of(picture.cost);
    let parts = [
        heading(picture.cost),
        refused(picture, &axes),
        scratch_ticks(&axes.scratch),
        mixing_ticks(&axes.mixings),
        time_ticks(&axes.mixings, picture.seconds_per_mixing),
        steps(picture.cost, &axes),
        marks(picture, &axes),
    ];
    format!(
        "<svg xmlns=\"http://www.w3.org/2000/svg\" viewBox=\"0 0 {WIDTH} {HEIGHT}\" width=\"{WIDTH}\" \
         height=\"{HEIGHT}\" font-family=\"sans-serif\" font-size=\"13\">\n\
         <rect width=\"{WIDTH}\" height=\"{HEIGHT}\" fill=\"#fff\"/>\n{}\
         <rect x=\"{LEFT}\" y=\"{TOP}\" width=\"{}\" height=\"{}\" fill=\"none\" stroke=\"#444\"/>\n</svg>\n",
        parts.concat(),
        RIGHT - LEFT,
        BOTTOM - TOP
    )
}

fn heading(cost: Cost) -> String {
    let Cost { n, r, p } = cost;
    let title = format!("What scratch buys: N = {}, r = {r}, p = {p}", grouped(n));
    let middle = (LEFT + RIGHT) / 2.0;
    [
        text(middle, 30.0, "middle", "font-size=\"20\"", &title),
        text(middle, 54.0, "middle", "fill=\"#555\"", "every k-th block is stored; the others are mixed again"),
        text(middle, HEIGHT - 28.0, "middle", "", "scratch (logarithmic)"),
        upright(26.0, -90, "#000", "block mixings at worst (logarithmic)"),
        upright(WIDTH - 20.0, 90, "#000", "about how long here, at worst"),
    ]
    .concat()
}

/// What no derivation gets: too little scratch, or more mixings than the allowance.
fn refused(picture: &Picture, axes: &Axes) -> String {
    let least = axes.scratch.place(picture.cost.scratch(picture.cost.n) as f64);
    let mut parts = shade(LEFT, TOP, least, BOTTOM);
    parts += &upright((LEFT + least) / 2.0 + 4.0, -90, "#a33", "too little scratch: 8");
    if let Some(allowance) = picture.allowance {
        let y = axes.mixings.clamped(allowance as f64);
        parts += &shade(LEFT, TOP, RIGHT, y);
        parts += &line(LEFT, y, RIGHT, y, "stroke=\"#a33\" stroke-dasharray=\"6 4\"");
        let words = format!("allowance {}: above it 9", grouped(allowance));
        parts += &text(RIGHT - 8.0, y - 6.0, "end", "fill=\"#a33\"", &words);
    }
    parts
}

fn scratch_ticks(axis: &Axis) -> String {
    let octaves = (axis.amounts.1 / axis.amounts.0).log2();
    let every = (octaves / 9.0).ceil() as u32;
    let amounts = (0..60).filter(|e| e % every == 0).map(|e| 1u64 << e);
    let tick = |amount: u64| {
        let x = axis.place(amount as f64);
        line(x, TOP, x, BOTTOM, "stroke=\"#ddd\"") + &text(x, BOTTOM + 22.0, "middle", "", &size(amount))
    };
    amounts.filter(|amount| axis.has(*amount as f64)).map(tick).collect()
}

fn mixing_ticks(axis: &Axis) -> String {
    let tick = |exponent: u32| {
        let y = axis.place(10f64.powi(exponent as i32));
        // Zeros that nobody counts: a power from a thousand million on.
        let power = format!("10<tspan dy=\"-5\" font-size=\"10\">{exponent}</tspan>");
        let amount = if axis.has(1e9) { power } else { grouped(10u64.pow(exponent)) };
        line(LEFT, y, RIGHT, y, "stroke=\"#ddd\"") + &text(LEFT - 8.0, y + 4.0, "end", "", &amount)
    };
    (0..19).filter(|exponent| axis.has(10f64.powi(*exponent as i32))).map(tick).collect()
}

fn time_ticks(axis: &Axis, seconds_per_mixing: f64) -> String {
    let seconds = [1e-5, 1e-4, 1e-3, 1e-2, 1e-1, 1.0, 10.0, 60.0, 600.0, 3600.0, 36e3, 864e2, 864e3, 864e4, 864e5];
    let tick = |seconds: f64| {
        let y = axis.place(seconds / seconds_per_mixing);
        let words = time(seconds).replace(".0", "");
        line(RIGHT, y, RIGHT + 5.0, y, "stroke=\"#444\"") + &text(RIGHT + 9.0, y + 4.0, "start", "", &words)
    };
    seconds.into_iter().filter(|seconds| axis.has(seconds / seconds_per_mixing)).map(tick).collect()
}

/// The worst case falls at the scratch that the next smaller spacing needs.
fn steps(cost: Cost, axes: &Axes) -> String {
    let mut path = String::new();
    let mut dots = String::new();
    let spacings: Vec<u64> = cost.spacings().collect();
    for spacing in spacings.into_iter().rev() {
        let x = axes.scratch.place(cost.scratch(spacing) as f64);
        let y = axes.mixings.place(cost.spaced(spacing).worst as f64);
        // Along the last step first, then down to this one.
        path += &if path.is_empty() { format!("M{x:.1} {y:.1}") } else { format!(" H{x:.1} V{y:.1}") };
        dots += &format!("<circle cx=\"{x:.1}\" cy=\"{y:.1}\" r=\"3.5\" fill=\"#146\"/>\n");
        dots += &text(x + 6.0, y - 6.0, "start", "fill=\"#146\"", &format!("k = {}", grouped(spacing)));
    }
    format!("<path d=\"{path} H{RIGHT}\" fill=\"none\" stroke=\"#146\" stroke-width=\"2\"/>\n{dots}")
}

fn marks(picture: &Picture, axes: &Axes) -> String {
    let mark = |scratch: &u64| {
        let x = axes.scratch.place(*scratch as f64);
        line(x, TOP, x, BOTTOM, "stroke=\"#282\" stroke-dasharray=\"2 4\" stroke-width=\"1.5\"")
            + &text(x, TOP - 6.0, "middle", "fill=\"#282\"", &size(*scratch))
    };
    picture.marks.iter().filter(|scratch| axes.scratch.has(**scratch as f64)).map(mark).collect()
}

fn text(x: f64, y: f64, anchor: &str, more: &str, words: &str) -> String {
    format!("<text x=\"{x:.1}\" y=\"{y:.1}\" text-anchor=\"{anchor}\" {more}>{words}</text>\n")
}

fn upright(x: f64, degrees: i32, colour: &str, words: &str) -> String {
    let y = (TOP + BOTTOM) / 2.0;
    text(x, y, "middle", &format!("fill=\"{colour}\" transform=\"rotate({degrees} {x:.1} {y:.1})\""), words)
}

fn line(x1: f64, y1: f64, x2: f64, y2: f64, look: &str) -> String {
    format!("<line x1=\"{x1:.1}\" y1=\"{y1:.1}\" x2=\"{x2:.1}\" y2=\"{y2:.1}\" {look}/>\n")
}

fn shade(x1: f64, y1: f64, x2: f64, y2: f64) -> String {
    let (width, height) = (x2 - x1, y2 - y1);
    format!("<rect x=\"{x1:.1}\" y=\"{y1:.1}\" width=\"{width:.1}\" height=\"{height:.1}\" fill=\"#fbeaea\"/>\n")
}
