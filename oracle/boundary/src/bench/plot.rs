//! The ratios as bars, in SVG.

use super::table::figure;
use super::Measured;
use std::fmt::Write;

const WIDTH: f64 = 820.0;
/// Where the bars' field begins and ends; the names stand left of it.
const LEFT: f64 = 260.0;
const RIGHT: f64 = 760.0;
const TOP: f64 = 70.0;
const BAR: f64 = 14.0;
const GAP: f64 = 12.0;
const TEXT: &str = "font-family=\"sans-serif\" fill=\"#222\"";

pub fn plot(measured: &[Measured]) -> String {
    let bars: Vec<(&Measured, f64)> = measured
        .iter()
        .filter_map(|line| Some((line, line.ratio()?)))
        .collect();
    let scale = Scale::of(&bars);
    let (mut body, mut y, mut last) = (String::new(), TOP, String::new());
    for (line, ratio) in &bars {
        let label = line.row.label();
        if label != last {
            y += GAP;
            body += &text(LEFT - 10.0, y + BAR + 4.0, "end", 13, &label);
        }
        last = label;
        body += &bar(&scale, y, line.row.bits, *ratio);
        y += BAR;
    }
    let height = y + GAP + 30.0;
    format!(
        "<svg xmlns=\"http://www.w3.org/2000/svg\" viewBox=\"0 0 {WIDTH} {height}\" width=\"{WIDTH}\" height=\"{height}\">\n\
         <rect width=\"100%\" height=\"100%\" fill=\"#fff\"/>\n{}{}{body}</svg>\n",
        heading(),
        scale.lines(y + GAP)
    )
}

fn colour(bits: u32) -> &'static str {
    match bits {
        5 => "#2a6f97",
        _ => "#e08e45",
    }
}

fn heading() -> String {
    let title = "Time through batches of frames / time of the original's calls";
    let mut drawn = text(WIDTH / 2.0, 24.0, "middle", 15, title);
    for (bits, x) in [(5, LEFT), (1, LEFT + 80.0)] {
        drawn += &rectangle(x, 38.0, 12.0, 12.0, colour(bits));
        drawn += &text(x + 18.0, 49.0, "start", 12, &format!("bits {bits}"));
    }
    let note = "left of 1: ours takes less; each line doubles";
    drawn + &text(RIGHT, 49.0, "end", 12, note)
}

/// From the bar's line at 1 to the ratio, with the number beyond it.
fn bar(scale: &Scale, y: f64, bits: u32, ratio: f64) -> String {
    let (one, end) = (scale.x(1.0), scale.x(ratio));
    let (x, width) = (one.min(end), (one - end).abs());
    let (place, anchor) = if ratio < 1.0 {
        (end - 4.0, "end")
    } else {
        (end + 4.0, "start")
    };
    rectangle(x, y, width, BAR - 1.0, colour(bits))
        + &text(place, y + BAR - 3.0, anchor, 11, &figure(ratio))
}

fn rectangle(x: f64, y: f64, width: f64, height: f64, fill: &str) -> String {
    format!("<rect x=\"{x:.1}\" y=\"{y:.1}\" width=\"{width:.1}\" height=\"{height:.1}\" fill=\"{fill}\"/>\n")
}

fn text(x: f64, y: f64, anchor: &str, size: u32, words: &str) -> String {
    format!("<text x=\"{x:.1}\" y=\"{y:.1}\" text-anchor=\"{anchor}\" font-size=\"{size}\" {TEXT}>{words}</text>\n")
}

/// Powers of two at equal distances, 1 among them.
struct Scale {
    least: i32,
    most: i32,
}

impl Scale {
    fn of(bars: &[(&Measured, f64)]) -> Scale {
        let powers = bars.iter().map(|(_, ratio)| ratio.log2());
        Scale {
            least: powers.clone().fold(-1.0, f64::min).floor() as i32,
            most: powers.fold(1.0, f64::max).ceil() as i32,
        }
    }

    fn x(&self, ratio: f64) -> f64 {
        let part = (ratio.log2() - f64::from(self.least)) / f64::from(self.most - self.least);
        LEFT + 30.0 + part * (RIGHT - LEFT - 30.0)
    }

    fn lines(&self, bottom: f64) -> String {
        let mut drawn = String::new();
        for power in self.least..=self.most {
            let ratio = f64::from(power).exp2();
            let (x, stroke) = (self.x(ratio), if power == 0 { "#222" } else { "#ddd" });
            writeln!(drawn, "<line x1=\"{x:.1}\" y1=\"{TOP}\" x2=\"{x:.1}\" y2=\"{bottom}\" stroke=\"{stroke}\"/>")
                .expect("a string can be written");
            drawn += &text(x, bottom + 16.0, "middle", 12, &ratio.to_string());
        }
        drawn
    }
}
