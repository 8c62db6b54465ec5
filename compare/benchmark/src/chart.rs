//! The table as a picture: a bar a workload, a line at 1, and a mark at each goal.

use std::fmt::Write as _;

use crate::page::Row;

/// Ratios to here are drawn to scale; a longer bar is cut.
const MOST: f64 = 2.0;

const LEFT: f64 = 130.0;
const TOP: f64 = 56.0;
const WIDTH: f64 = 600.0;
const STEP: f64 = 22.0;
const BAR: f64 = 14.0;

/// Where a ratio stands.
fn across(ratio: f64) -> f64 {
    LEFT + WIDTH * ratio.clamp(0.0, MOST) / MOST
}

/// The picture.
#[must_use]
pub fn chart(rows: &[Row]) -> String {
    let bottom = TOP + STEP * rows.len() as f64;
    let (width, height) = (LEFT + WIDTH + 90.0, bottom + 40.0);
    let mut svg = format!(
        "<svg xmlns=\"http://www.w3.org/2000/svg\" width=\"{width}\" height=\"{height}\" viewBox=\"0 0 {width} {height}\" \
         font-family=\"sans-serif\" font-size=\"12\">\n\
         <title>The engine's time over the original Rust's</title>\n\
         <rect width=\"{width}\" height=\"{height}\" fill=\"#ffffff\"/>\n\
         <text x=\"{LEFT}\" y=\"22\" font-size=\"15\">The engine's time over the original Rust's; shorter is faster</text>\n\
         <text x=\"{LEFT}\" y=\"42\" fill=\"#555555\">blue: goal reached; orange: goal missed; black mark: the goal; red line: as fast as the original</text>\n"
    );
    for tenth in (0..=20).step_by(5) {
        let (ratio, x) = (f64::from(tenth) / 10.0, across(f64::from(tenth) / 10.0));
        let _ = writeln!(svg, "<line x1=\"{x}\" y1=\"{TOP}\" x2=\"{x}\" y2=\"{bottom}\" stroke=\"#dddddd\"/>");
        let _ = writeln!(svg, "<text x=\"{x}\" y=\"{}\" text-anchor=\"middle\" fill=\"#555555\">{ratio:.1}</text>", bottom + 18.0);
    }
    for (place, row) in rows.iter().enumerate() {
        bar(&mut svg, row, TOP + STEP * place as f64);
    }
    let one = across(1.0);
    let _ = writeln!(svg, "<line x1=\"{one}\" y1=\"{TOP}\" x2=\"{one}\" y2=\"{bottom}\" stroke=\"#cc0000\" stroke-width=\"1.5\"/>");
    svg.push_str("</svg>\n");
    svg
}

/// One workload, from this height down.
fn bar(svg: &mut String, row: &Row, top: f64) {
    let (end, goal) = (across(row.time), across(row.goal));
    let (y, base) = (top + (STEP - BAR) / 2.0, top + STEP / 2.0 + 4.0);
    let fill = if row.time <= row.goal { "#4477aa" } else { "#ee8833" };
    let cut = if row.time > MOST { " &#8594;" } else { "" };
    let _ = writeln!(svg, "<text x=\"{}\" y=\"{base}\" text-anchor=\"end\">{}</text>", LEFT - 8.0, row.name);
    let _ = writeln!(svg, "<rect class=\"bar\" x=\"{LEFT}\" y=\"{y}\" width=\"{:.1}\" height=\"{BAR}\" fill=\"{fill}\"/>", end - LEFT);
    let _ =
        writeln!(svg, "<rect class=\"goal\" x=\"{:.1}\" y=\"{}\" width=\"3\" height=\"{}\" fill=\"#000000\"/>", goal - 1.5, top + 1.0, STEP - 2.0);
    let _ = writeln!(svg, "<text x=\"{:.1}\" y=\"{base}\">{:.2}{cut}</text>", end.max(goal) + 6.0, row.time);
}
