//! The figures as a picture: a panel for each thing that grows.

use std::collections::BTreeMap;
use std::fmt::Write;

const WIDTH: f64 = 420.0;
const HEIGHT: f64 = 260.0;
const LEFT: f64 = 70.0;
const BOTTOM: f64 = 45.0;
const TOP: f64 = 40.0;
const RIGHT: f64 = 20.0;

/// Titles of the panels, in their order, and the figures that each shows.
const PANELS: [(&str, &str, &[&str]); 5] = [
    (
        "A run, by its lines",
        "lines (8 desks, 64 cells)",
        &["lines"],
    ),
    ("A run of 2,000 lines, by desks", "desks", &["desks"]),
    (
        "A run of 1,500 lines, by open writes",
        "open writes all the while (3 desks); dashed: loaded first",
        &["open", "open+load"],
    ),
    (
        "The largest table of 8 desks loaded and saved",
        "open writes (8 desks, 64 cells); dashed: load alone",
        &["load", "load+save"],
    ),
    (
        "The largest table of 16 desks loaded and saved",
        "open writes (16 desks, 64 cells); dashed: load alone",
        &["load16", "load16+save"],
    ),
];

type Figures = BTreeMap<(String, String), Vec<(f64, f64)>>;

pub fn draw(from: &str, to: &str, unit: &str) -> Result<(), String> {
    let text = std::fs::read_to_string(from).map_err(|error| format!("{from}: {error}"))?;
    let picture = picture(&figures(&text)?, unit)?;
    std::fs::write(to, picture).map_err(|error| format!("{to}: {error}"))
}

fn figures(text: &str) -> Result<Figures, String> {
    let mut all = Figures::new();
    for line in text.lines() {
        let parts: Vec<&str> = line.split(',').collect();
        let [what, size, side, number] = parts[..] else {
            return Err(format!("no figure: {line}"));
        };
        let (Ok(size), Ok(number)) = (size.parse(), number.parse()) else {
            return Err(format!("no figure: {line}"));
        };
        all.entry((what.into(), side.into()))
            .or_default()
            .push((size, number));
    }
    Ok(all)
}

fn picture(all: &Figures, unit: &str) -> Result<String, String> {
    let rows = PANELS.len().div_ceil(2) as f64;
    let (w, h) = (2.0 * WIDTH, rows * HEIGHT + 30.0);
    let mut out = format!(
        "<svg xmlns=\"http://www.w3.org/2000/svg\" viewBox=\"0 0 {w} {h}\" font-family=\"sans-serif\" font-size=\"12\">\n<rect width=\"{w}\" height=\"{h}\" fill=\"white\"/>\n"
    );
    for (at, panel) in PANELS.iter().enumerate() {
        let (x, y) = (WIDTH * (at % 2) as f64, HEIGHT * (at / 2) as f64);
        one(&mut out, all, panel, unit, x, y)
            .ok_or_else(|| format!("no figures for {}", panel.0))?;
    }
    legend(&mut out, h - 12.0);
    out.push_str("</svg>\n");
    Ok(out)
}

fn colour(side: &str) -> &'static str {
    match side {
        "proved" => "#0b6e4f",
        _ => "#c05621",
    }
}

fn legend(out: &mut String, y: f64) {
    for (x, side, words) in [
        (LEFT, "proved", "access_run (proved)"),
        (LEFT + 240.0, "plain", "the independent implementation"),
    ] {
        let paint = colour(side);
        let _ = writeln!(out, "<line x1=\"{x}\" y1=\"{y}\" x2=\"{}\" y2=\"{y}\" stroke=\"{paint}\" stroke-width=\"3\"/>", x + 30.0);
        let _ = writeln!(
            out,
            "<text x=\"{}\" y=\"{}\">{words}</text>",
            x + 38.0,
            y + 4.0
        );
    }
}

/// A panel: axes from 0, the figures as lines with their points.
fn one(
    out: &mut String,
    all: &Figures,
    panel: &(&str, &str, &[&str]),
    unit: &str,
    x0: f64,
    y0: f64,
) -> Option<()> {
    let (title, axis, whats) = panel;
    let shown: Vec<_> = all
        .iter()
        .filter(|(key, _)| whats.contains(&key.0.as_str()))
        .collect();
    let points = || shown.iter().flat_map(|(_, list)| list.iter());
    let most_x = (points().map(|p| p.0).fold(f64::NAN, f64::max) / 4.0).ceil() * 4.0;
    let most_y = round_up(points().map(|p| p.1).fold(f64::NAN, f64::max));
    if !(most_x > 0.0 && most_y > 0.0) {
        return None;
    }
    let x = |v: f64| x0 + LEFT + v / most_x * (WIDTH - LEFT - RIGHT);
    let y = |v: f64| y0 + HEIGHT - BOTTOM - v / most_y * (HEIGHT - BOTTOM - TOP);
    let _ = writeln!(
        out,
        "<text x=\"{}\" y=\"{}\" font-weight=\"bold\">{title}</text>",
        x(0.0),
        y0 + 16.0
    );
    let _ = writeln!(
        out,
        "<text x=\"{}\" y=\"{}\" fill=\"#555\">{unit} a call</text>",
        x(0.0),
        y0 + 31.0
    );
    let _ = writeln!(
        out,
        "<text x=\"{}\" y=\"{}\" text-anchor=\"end\" fill=\"#555\">{axis}</text>",
        x(most_x),
        y(0.0) + 34.0
    );
    for tick in 0..=4 {
        let (vx, vy) = (most_x * tick as f64 / 4.0, most_y * tick as f64 / 4.0);
        let _ = writeln!(
            out,
            "<line x1=\"{}\" y1=\"{2}\" x2=\"{}\" y2=\"{2}\" stroke=\"#ddd\"/>",
            x(0.0),
            x(most_x),
            y(vy)
        );
        let _ = writeln!(
            out,
            "<text x=\"{}\" y=\"{}\" text-anchor=\"end\">{}</text>",
            x(0.0) - 6.0,
            y(vy) + 4.0,
            short(vy)
        );
        let _ = writeln!(
            out,
            "<text x=\"{}\" y=\"{}\" text-anchor=\"middle\">{}</text>",
            x(vx),
            y(0.0) + 16.0,
            short(vx)
        );
    }
    for ((what, side), list) in &shown {
        let dash = if matches!(what.as_str(), "load" | "load16" | "open+load") {
            " stroke-dasharray=\"5 3\""
        } else {
            ""
        };
        let path: Vec<String> = list
            .iter()
            .map(|p| format!("{:.1},{:.1}", x(p.0), y(p.1)))
            .collect();
        let _ = writeln!(
            out,
            "<polyline points=\"{}\" fill=\"none\" stroke=\"{}\" stroke-width=\"2\"{dash}/>",
            path.join(" "),
            colour(side)
        );
        for p in list.iter() {
            let _ = writeln!(
                out,
                "<circle cx=\"{:.1}\" cy=\"{:.1}\" r=\"2.5\" fill=\"{}\"/>",
                x(p.0),
                y(p.1),
                colour(side)
            );
        }
    }
    Some(())
}

/// The next round number that four steps divide well.
fn round_up(v: f64) -> f64 {
    let power = 10f64.powf(v.log10().floor());
    *[1.0, 1.2, 1.6, 2.0, 2.4, 3.2, 4.0, 6.0, 8.0, 10.0]
        .iter()
        .map(|d| d * power)
        .find(|top| *top >= v)
        .get_or_insert(10.0 * power)
}

fn short(v: f64) -> String {
    match v {
        v if v >= 1e6 => format!("{} M", v / 1e6),
        v if v >= 1e4 => format!("{} k", v / 1e3),
        v => format!("{v}"),
    }
}
