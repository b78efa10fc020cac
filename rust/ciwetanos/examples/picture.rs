//! Draws the overlay of a text file of edges as SVG: `cargo run --example picture FILE > picture.svg`. Kept edges are drawn thick, the
//! others thin and dashed: subject blue, clip orange. A dot stands where edges meet.

use ciwetanos::text::Area;
use ciwetanos::Edge;
use std::collections::BTreeSet;

const WIDTH: f64 = 640.0;
const MARGIN: f64 = 24.0;

fn main() -> Result<(), String> {
    let file = std::env::args().nth(1).ok_or("picture FILE")?;
    let text = std::fs::read_to_string(&file).map_err(|e| format!("{file}: {e}"))?;
    let area: Area = text.parse()?;
    let result = ciwetanos::overlay(&area.segments, area.settings).map_err(|refusal| refusal.to_string())?;
    println!("{}", picture(&result.edges));
    Ok(())
}

fn picture(edges: &[Edge]) -> String {
    let points: BTreeSet<(i32, i32)> = edges.iter().flat_map(|edge| [edge.segment.a, edge.segment.b]).collect();
    let range = |of: fn(&(i32, i32)) -> i32| {
        let (low, high) = (points.iter().map(of).min().unwrap_or(0), points.iter().map(of).max().unwrap_or(1));
        (f64::from(low), f64::from(high))
    };
    let ((left, right), (bottom, top)) = (range(|p| p.0), range(|p| p.1));
    let scale = (WIDTH - 2.0 * MARGIN) / (right - left).max(1.0);
    let height = (top - bottom) * scale + 2.0 * MARGIN;
    let x = |p: (i32, i32)| MARGIN + (f64::from(p.0) - left) * scale;
    let y = |p: (i32, i32)| height - MARGIN - (f64::from(p.1) - bottom) * scale;

    let mut lines = vec![
        format!(
            r#"<svg xmlns="http://www.w3.org/2000/svg" viewBox="0 0 {WIDTH:.0} {height:.0}" stroke-linecap="round">"#
        ),
        r#"<rect width="100%" height="100%" fill="white"/>"#.into(),
    ];
    // The kept ones last, so that they lie on top.
    let (kept, others): (Vec<&Edge>, Vec<&Edge>) = edges.iter().partition(|edge| edge.is_kept());
    for edge in others.into_iter().chain(kept) {
        let (a, b) = (edge.segment.a, edge.segment.b);
        let color = if edge.segment.clip == 0 { "#1f5fa8" } else { "#d9730d" };
        let style = if edge.is_kept() { r#"stroke-width="5""# } else { r#"stroke-width="1.5" stroke-dasharray="5 5""# };
        let ends = format!(r#"x1="{:.1}" y1="{:.1}" x2="{:.1}" y2="{:.1}""#, x(a), y(a), x(b), y(b));
        lines.push(format!(r#"<line {ends} stroke="{color}" {style}/>"#));
    }
    for p in points {
        lines.push(format!(r##"<circle cx="{:.1}" cy="{:.1}" r="4" fill="#222"/>"##, x(p), y(p)));
    }
    lines.push("</svg>".into());
    lines.join("\n")
}
