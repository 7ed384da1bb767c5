//! docs/bench.svg: the figures that sum up the others, as bars.
use std::fmt::Write;

use crate::programs;

/// Bars of one meaning: a family's name, and what the bar is called.
struct Panel {
    title: &'static str,
    /// What stands at the line of 1.
    one: &'static str,
    bars: &'static [(&'static str, &'static str)],
}

const PANELS: [Panel; 2] = [
    Panel {
        title: "Time of the Rust over time of this library: a longer bar is a faster library",
        one: "1: as fast as the Rust",
        bars: &[
            ("reading, all kinds together", "reading, every kind"),
            ("reading, refused", "reading, texts that are refused"),
            ("rendering, all kinds together", "rendering, every kind"),
            ("key, all kinds together", "the key of a text, every kind"),
            ("identifier checks, accepted, together", "identifier checks, accepted"),
            ("general checks, accepted, together", "general checks, accepted"),
            ("checks, refused, together", "all checks, refused"),
            ("identifiers from a counter, together", "identifiers made from a counter"),
            (programs::NAME, "askpath on 1,000,000 lines"),
        ],
    },
    Panel {
        title: "A call on a book of 200 records, over reading its 200 keys once: a shorter bar is faster",
        one: "1: as the readings",
        bars: &[
            ("book of 200, check / readings", "the check alone"),
            ("book of 200, lookup / readings", "lookup"),
            ("book of 200, replace / readings", "write in place of a value"),
            ("book of 200, renewal / readings", "removal, and the write anew"),
            ("book of 200, oldest / readings", "oldest"),
        ],
    },
];

const WIDTH: usize = 800;
/// Where bars begin, and how long the longest is.
const LEFT: f64 = 260.0;
const LONGEST: f64 = 460.0;
const ROW: usize = 26;

/// Colours for both schemes: background and all that stands on it change together.
const STYLE: &str = "
  text { font: 14px sans-serif; fill: #1b1f24 }
  .head { font-weight: bold }
  .back { fill: #ffffff }
  .bar { fill: #3b78c4 }
  .one { stroke: #8a4b00; stroke-dasharray: 4 3 }
  @media (prefers-color-scheme: dark) {
    text { fill: #e6e6e6 }
    .back { fill: #16191d }
    .bar { fill: #4f8fde }
    .one { stroke: #f0b060 }
  }
";

/// The picture of figures by their families' names. A figure that was not measured has no bar.
pub fn svg(figures: &[(String, f64)]) -> String {
    let (mut body, mut top) = (String::new(), 0);
    for panel in &PANELS {
        let measured = |name: &str| figures.iter().find(|(family, _)| family == name);
        let bars: Vec<(&str, f64)> = panel
            .bars
            .iter()
            .filter_map(|(name, label)| Some((*label, measured(name)?.1)))
            .collect();
        top = put_panel(&mut body, panel, &bars, top);
    }
    format!(
        "<svg xmlns=\"http://www.w3.org/2000/svg\" width=\"{WIDTH}\" height=\"{top}\" role=\"img\">
<title>Speed beside the Rust</title>
<style>{STYLE}</style>
<rect class=\"back\" width=\"{WIDTH}\" height=\"{top}\"/>
{body}</svg>
"
    )
}

/// Puts a panel below `top`, and gives where it ends.
fn put_panel(body: &mut String, panel: &Panel, bars: &[(&str, f64)], top: usize) -> usize {
    let most = bars.iter().map(|(_, value)| *value).fold(1.0, f64::max);
    let at = |value: f64| LEFT + LONGEST * value / most;
    let first = top + 2 * ROW + 10;
    let end = first + ROW * bars.len();
    let mut put = |line: String| writeln!(body, "{line}").expect("a String takes all");
    put(format!("<text class=\"head\" x=\"16\" y=\"{}\">{}</text>", top + ROW, panel.title));
    put(format!("<text x=\"{:.1}\" y=\"{}\">{}</text>", at(1.0) + 4.0, first - 8, panel.one));
    for (turn, (label, value)) in bars.iter().enumerate() {
        let y = first + ROW * turn;
        let (long, text) = (at(*value) - LEFT, y + 17);
        put(format!("<text x=\"{}\" y=\"{text}\" text-anchor=\"end\">{label}</text>", LEFT - 10.0));
        put(format!(
            "<rect class=\"bar\" x=\"{LEFT}\" y=\"{}\" width=\"{long:.1}\" height=\"18\"/>",
            y + 4
        ));
        put(format!("<text x=\"{:.1}\" y=\"{text}\">{value:.2}</text>", at(*value) + 6.0));
    }
    put(format!("<path class=\"one\" d=\"M{0:.1} {1}V{end}\"/>", at(1.0), first - 20));
    end + 10
}

#[cfg(test)]
mod tests {
    use super::*;
    use crate::{books, families};

    #[test]
    fn every_bar_is_of_a_family() {
        let names: Vec<String> =
            families().chain(books::families()).map(|family| family.name).collect();
        let bars: Vec<&str> =
            PANELS.iter().flat_map(|panel| panel.bars).map(|(name, _)| *name).collect();
        for bar in &bars {
            assert!(*bar == programs::NAME || names.iter().any(|name| name == bar), "{bar}");
        }
        let figures: Vec<(String, f64)> = bars.iter().map(|bar| (bar.to_string(), 2.5)).collect();
        assert_eq!(svg(&figures).matches("2.50</text>").count(), bars.len());
        assert_eq!(svg(&[]).matches("class=\"bar\"").count(), 0);
    }
}
