//! The figures of a run as a picture, in plain SVG: left the ratios of all
//! lines, right how the time of a call grows.

use crate::tables::{Table, Tables, CALLS, LINES, LOGGED};
use std::fmt::Write;

const WIDTH: f64 = 960.0;
/// The bars begin here, and have this width for the whole scale.
const BARS: [f64; 2] = [280.0, 186.0];
/// No bar is longer than this ratio: it is cut there, its figure told.
const MOST_RATIO: f64 = 3.0;
const BAR_STEP: f64 = 19.0;
/// A plot's left edge, and its width and height.
const PLOT_LEFT: f64 = 594.0;
const PLOT: [f64; 2] = [330.0, 116.0];
const PLOT_STEP: f64 = 186.0;
const TOP: f64 = 62.0;
/// What stands for each side: its name and colour.
const SIDES: [[&str; 2]; 2] = [["proved", "#1f5fa8"], ["reference", "#c8601a"]];
const GREY: &str = "#8a8a8a";

/// A picture in the making.
struct Svg {
    text: String,
}

/// Where a text stands to its point.
#[derive(Clone, Copy)]
enum Anchor {
    Start,
    Middle,
    End,
}

impl Svg {
    fn line(&mut self, from: [f64; 2], to: [f64; 2], colour: &str) {
        let ([x1, y1], [x2, y2]) = (from, to);
        self.add(format_args!(
            r#"<line x1="{x1:.1}" y1="{y1:.1}" x2="{x2:.1}" y2="{y2:.1}" stroke="{colour}"/>"#
        ));
    }

    fn bar(&mut self, [x, y]: [f64; 2], [width, height]: [f64; 2], colour: &str) {
        self.add(format_args!(
            r#"<rect x="{x:.1}" y="{y:.1}" width="{width:.1}" height="{height:.1}" fill="{colour}"/>"#
        ));
    }

    /// A line through the points, with a dot on each.
    fn curve(&mut self, points: &[[f64; 2]], colour: &str) {
        let places: Vec<String> = points
            .iter()
            .map(|[x, y]| format!("{x:.1},{y:.1}"))
            .collect();
        let places = places.join(" ");
        self.add(format_args!(
            r#"<polyline points="{places}" fill="none" stroke="{colour}" stroke-width="2"/>"#
        ));
        for [x, y] in points {
            self.add(format_args!(
                r#"<circle cx="{x:.1}" cy="{y:.1}" r="3" fill="{colour}"/>"#
            ));
        }
    }

    fn words(&mut self, [x, y]: [f64; 2], anchor: Anchor, words: &str) {
        self.styled([x, y], anchor, "", words);
    }

    fn bold(&mut self, place: [f64; 2], words: &str) {
        self.styled(place, Anchor::Start, r#" font-weight="bold""#, words);
    }

    fn styled(&mut self, [x, y]: [f64; 2], anchor: Anchor, style: &str, words: &str) {
        let anchor = match anchor {
            Anchor::Start => "start",
            Anchor::Middle => "middle",
            Anchor::End => "end",
        };
        let words = words.replace('&', "&amp;").replace('<', "&lt;");
        self.add(format_args!(
            r#"<text x="{x:.1}" y="{y:.1}" text-anchor="{anchor}"{style}>{words}</text>"#
        ));
    }

    fn add(&mut self, element: std::fmt::Arguments) {
        writeln!(self.text, "{element}").expect("a string takes all");
    }
}

/// The picture of a run.
pub fn draw(tables: &Tables) -> String {
    let mut svg = Svg {
        text: String::new(),
    };
    let bars_end = ratios(&mut svg, tables);
    let plots_end = growth(&mut svg, tables);
    let height = bars_end.max(plots_end) + 14.0;
    format!(
        "<svg xmlns=\"http://www.w3.org/2000/svg\" viewBox=\"0 0 {WIDTH} {height}\" \
         width=\"{WIDTH}\" height=\"{height}\" font-family=\"sans-serif\" font-size=\"12\" \
         fill=\"#222222\">\n\
         <title>Time of the proved meter beside the reference</title>\n\
         <rect width=\"{WIDTH}\" height=\"{height}\" fill=\"#ffffff\"/>\n{}</svg>\n",
        svg.text
    )
}

/// The tables whose ratios are shown, with what stands above each.
fn groups(tables: &Tables) -> [(&'static str, &Table); 6] {
    let [data, register] = &tables.logged;
    let [read, exported] = &tables.texts;
    [
        ("single calls, 123 logged days", &tables.calls),
        ("statement of a file, by its calls", &tables.statements),
        ("use of data, by logged days", data),
        ("register, by logged days", register),
        ("a text read, by its lines", read),
        ("a text exported, by its lines", exported),
    ]
}

/// The ratios of all tables as bars; answers where they end.
fn ratios(svg: &mut Svg, tables: &Tables) -> f64 {
    let groups = groups(tables);
    let ratio = |times: &[f64; 2]| times[0] / times[1];
    let all = groups.iter().flat_map(|(_, table)| &table.rows);
    let most = all.map(|(_, times)| ratio(times)).fold(1.0, f64::max);
    let scale = BARS[1] / (most.min(MOST_RATIO) * 2.0).ceil() * 2.0;
    svg.bold([16.0, 24.0], "Time of a call, proved / reference");
    svg.words(
        [16.0, 41.0],
        Anchor::Start,
        "(the line is at 1.0; shorter is faster)",
    );
    let mut y = TOP;
    for (what, table) in groups {
        svg.styled(
            [16.0, y + 11.0],
            Anchor::Start,
            r#" font-style="italic""#,
            what,
        );
        y += BAR_STEP;
        for (name, times) in &table.rows {
            bar(svg, y, name, ratio(times), scale);
            y += BAR_STEP;
        }
        y += 6.0;
    }
    let one = BARS[0] + scale;
    svg.line([BARS[0], TOP], [BARS[0], y], GREY);
    svg.line([one, TOP], [one, y], "#222222");
    svg.words([one, TOP - 4.0], Anchor::Middle, "1.0");
    y
}

/// One bar with its name and figure.
fn bar(svg: &mut Svg, y: f64, name: &str, ratio: f64, scale: f64) {
    let long = ratio.min(MOST_RATIO) * scale;
    svg.words([BARS[0] - 6.0, y + 11.0], Anchor::End, name);
    svg.bar([BARS[0], y + 1.0], [long, BAR_STEP - 6.0], SIDES[0][1]);
    if ratio > MOST_RATIO {
        // A cut through a bar that goes on.
        let cut = BARS[0] + long - 12.0;
        svg.bar([cut, y], [4.0, BAR_STEP - 4.0], "#ffffff");
    }
    let after = BARS[0] + long.max(scale) + 5.0;
    svg.words([after, y + 11.0], Anchor::Start, &format!("{ratio:.2}"));
}

/// How times grow with calls, with logged days and with lines; answers where it
/// ends.
fn growth(svg: &mut Svg, tables: &Tables) -> f64 {
    let [data, register] = &tables.logged;
    let [read, exported] = &tables.texts;
    let in_text = "lines in the text";
    let plots = [
        (
            "ns a call of a file's statement",
            "calls in the file",
            &CALLS,
            &tables.statements,
        ),
        ("ns of a use of data", "logged days", &LOGGED, data),
        (
            "ns of a registration, home and zone in turn",
            "logged days",
            &LOGGED,
            register,
        ),
        ("ns a line of a text, read", in_text, &LINES, read),
        ("ns a line of a text, exported", in_text, &LINES, exported),
    ];
    for (index, [name, colour]) in SIDES.into_iter().enumerate() {
        let x = PLOT_LEFT + 150.0 * index as f64;
        svg.curve(&[[x, 20.0], [x + 24.0, 20.0]], colour);
        svg.words([x + 32.0, 24.0], Anchor::Start, name);
    }
    let mut y = TOP - 8.0;
    for (what, along, places, table) in plots {
        plot(svg, y, [what, along], places, table);
        y += PLOT_STEP;
    }
    y
}

/// One plot: both sides' times over the places, from its upper edge on.
fn plot(svg: &mut Svg, top: f64, [what, along]: [&str; 2], places: &[usize; 4], table: &Table) {
    let times = &table.rows[..places.len()];
    let most = times
        .iter()
        .flat_map(|(_, both)| both)
        .fold(0.0, |most: f64, time| most.max(*time));
    let step = round_step(most / 4.0);
    let upper = (most / step).ceil() * step;
    let foot = top + 18.0 + PLOT[1];
    let last = places[places.len() - 1] as f64;
    let x = |place: usize| PLOT_LEFT + PLOT[0] * place as f64 / last;
    let y = |time: f64| foot - PLOT[1] * time / upper;
    svg.bold([PLOT_LEFT - 36.0, top + 4.0], what);
    let mut at = 0.0;
    while at <= upper {
        svg.line([PLOT_LEFT, y(at)], [PLOT_LEFT + PLOT[0], y(at)], "#dddddd");
        svg.words(
            [PLOT_LEFT - 6.0, y(at) + 4.0],
            Anchor::End,
            &format!("{at:.0}"),
        );
        at += step;
    }
    svg.line([PLOT_LEFT, y(upper)], [PLOT_LEFT, foot], GREY);
    svg.line([PLOT_LEFT, foot], [PLOT_LEFT + PLOT[0], foot], GREY);
    for (place, (name, _)) in places.iter().zip(times) {
        svg.line([x(*place), foot], [x(*place), foot + 4.0], GREY);
        svg.words([x(*place), foot + 17.0], Anchor::Middle, name);
    }
    let middle = PLOT_LEFT + PLOT[0] / 2.0;
    svg.words([middle, foot + 33.0], Anchor::Middle, along);
    for (side, [_, colour]) in SIDES.into_iter().enumerate() {
        let points = places
            .iter()
            .zip(times)
            .map(|(place, (_, both))| [x(*place), y(both[side])]);
        svg.curve(&points.collect::<Vec<_>>(), colour);
    }
}

/// The least of 1, 2, 5, 10, 20, .. that is at least so much.
fn round_step(least: f64) -> f64 {
    let steps = (0..9).flat_map(|power| [1.0, 2.0, 5.0].map(|step| step * 10f64.powi(power)));
    let mut large = steps.filter(|step| *step >= least);
    large.next().unwrap_or(1e9)
}
