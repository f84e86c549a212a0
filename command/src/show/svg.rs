//! A rule as a picture, in SVG.

use super::arcs::Shown;
use super::curve::{point, Area, Curve};
use super::layout::{picture, DrawnArc, Picture, CHARACTER, HEAD, LINE, RADIUS, RING};

/// Arcs have the colour of the state that they leave.
const COLOURS: [&str; 8] = ["#1f5fa8", "#b0431b", "#2b7a2f", "#7a3a9e", "#8a6100", "#00737d", "#b01f5c", "#4d4d4d"];
const FAILURE: &str = "#888888";
const MARGIN: f64 = 24.0;

/// Final states have a double ring. Failure, state 0, and the arcs to it are there only where asked for.
pub fn svg(shown: &Shown, failures: bool) -> String {
    let picture = picture(shown, failures);
    let (left, top, right, bottom) = bounds(&picture);
    let title = format!("rule {}: {}", shown.number, shown.name);
    let width = (right - left).max(CHARACTER * 1.25 * title.chars().count() as f64).max(420.0);
    let legend = legend(shown, failures, (width / CHARACTER) as usize);
    let (head, foot) = (40.0, LINE * legend.len() as f64 + 16.0);
    let (whole_width, whole_height) = (width + 2.0 * MARGIN, bottom - top + head + foot + 2.0 * MARGIN);
    let mut svg = format!(
        "<svg xmlns=\"http://www.w3.org/2000/svg\" width=\"{whole_width:.0}\" height=\"{whole_height:.0}\" \
         viewBox=\"0 0 {whole_width:.0} {whole_height:.0}\" font-family=\"DejaVu Sans Mono, Menlo, Consolas, monospace\" \
         font-size=\"12\">\n<title>{}</title>\n<rect width=\"100%\" height=\"100%\" fill=\"white\"/>\n",
        escaped(&title)
    );
    svg += &format!(
        "<text x=\"{MARGIN}\" y=\"{}\" font-size=\"15\" font-weight=\"bold\">{}</text>\n",
        MARGIN + 12.0,
        escaped(&title)
    );
    let (x, y) = (MARGIN - left + (width - (right - left)) / 2.0, MARGIN + head - top);
    svg += &format!("<g transform=\"translate({x:.1} {y:.1})\">\n{}</g>\n", drawn(shown, &picture));
    for (at, line) in legend.iter().enumerate() {
        let y = MARGIN + head + bottom - top + 16.0 + LINE * (at as f64 + 0.8);
        svg += &format!(
            "<text x=\"{MARGIN}\" y=\"{y:.1}\" fill=\"#333333\" xml:space=\"preserve\">{}</text>\n",
            escaped(line)
        );
    }
    svg + "</svg>\n"
}

/// Curves first, then labels, then states, so that no line lies over a letter.
fn drawn(shown: &Shown, picture: &Picture) -> String {
    let mut drawn: String = picture.arcs.iter().map(line).collect();
    drawn.extend(picture.arcs.iter().map(label));
    drawn.extend(picture.states.iter().map(|&(number, x)| state(shown, number, x)));
    drawn + &start()
}

fn colour(arc: &DrawnArc) -> &'static str {
    if arc.to == 0 {
        return FAILURE;
    }
    COLOURS[(arc.from - 1) % COLOURS.len()]
}

fn line(arc: &DrawnArc) -> String {
    let (Curve([a, b, c, d]), colour) = (arc.curve, colour(arc));
    let path = format!("M{:.1} {:.1}C{:.1} {:.1} {:.1} {:.1} {:.1} {:.1}", a.x, a.y, b.x, b.y, c.x, c.y, d.x, d.y);
    format!("<path d=\"{path}\" fill=\"none\" stroke=\"{colour}\" stroke-width=\"1.4\"/>\n{}", head(arc.curve, colour))
}

/// An arrowhead at the end of a curve, in its direction.
fn head(Curve([_, _, c, d]): Curve, colour: &str) -> String {
    let length = (d.x - c.x).hypot(d.y - c.y).max(0.001);
    let (x, y) = ((d.x - c.x) / length, (d.y - c.y) / length);
    let half = HEAD * 0.42;
    format!(
        "<path d=\"M{:.1} {:.1}L{:.1} {:.1}L{:.1} {:.1}Z\" fill=\"{colour}\"/>\n",
        d.x + HEAD * x,
        d.y + HEAD * y,
        d.x - half * y,
        d.y + half * x,
        d.x + half * y,
        d.y - half * x
    )
}

fn label(arc: &DrawnArc) -> String {
    let Area { middle, width, height } = arc.area;
    let (left, top) = (middle.x - width / 2.0, middle.y - height / 2.0);
    let mut label = format!(
        "<rect x=\"{left:.1}\" y=\"{top:.1}\" width=\"{width:.1}\" height=\"{height:.1}\" fill=\"white\" fill-opacity=\"0.9\"/>\n"
    );
    for (at, line) in arc.label.iter().enumerate() {
        let y = top + LINE * (at as f64 + 0.78);
        label += &text(middle.x, y, colour(arc), line);
    }
    label
}

fn text(x: f64, y: f64, colour: &str, line: &str) -> String {
    format!("<text x=\"{x:.1}\" y=\"{y:.1}\" text-anchor=\"middle\" fill=\"{colour}\">{}</text>\n", escaped(line))
}

fn state(shown: &Shown, number: usize, x: f64) -> String {
    let colour = if number == 0 { FAILURE } else { "black" };
    let ring = |radius: f64| {
        format!(
            "<circle cx=\"{x:.1}\" cy=\"0\" r=\"{radius}\" fill=\"white\" stroke=\"{colour}\" stroke-width=\"1.4\"/>\n"
        )
    };
    let is_final = number.checked_sub(1).is_some_and(|at| shown.states[at].is_final);
    let rings = if is_final { ring(RADIUS + RING) + &ring(RADIUS) } else { ring(RADIUS + RING) };
    format!(
        "{rings}<text x=\"{x:.1}\" y=\"5\" text-anchor=\"middle\" font-size=\"15\" font-weight=\"bold\" fill=\"{colour}\">{number}</text>\n"
    )
}

/// The arrow that leads to state 1 from nowhere, as words begin there.
fn start() -> String {
    let to = -(RADIUS + RING + HEAD);
    let line = Curve::line(point(to - 20.0, 0.0), point(to, 0.0));
    format!("<path d=\"M{:.1} 0H{to:.1}\" stroke=\"black\" stroke-width=\"1.4\"/>\n{}", to - 20.0, head(line, "black"))
}

fn bounds(picture: &Picture) -> (f64, f64, f64, f64) {
    let ring = RADIUS + RING;
    let last = picture.states.last().map_or(0.0, |&(_, x)| x);
    let mut bounds = (-(ring + HEAD + 24.0), -ring, last + ring, ring);
    for arc in &picture.arcs {
        let Area { middle, width, height } = arc.area;
        let corners = [(-0.5, -0.5), (0.5, 0.5)].map(|(x, y)| (middle.x + x * width, middle.y + y * height));
        for (x, y) in corners.into_iter().chain(arc.points.iter().map(|at| (at.x, at.y))) {
            bounds = (bounds.0.min(x), bounds.1.min(y), bounds.2.max(x), bounds.3.max(y));
        }
    }
    bounds
}

/// What the columns stand for, and how to read the picture.
fn legend(shown: &Shown, failures: bool, characters: usize) -> Vec<String> {
    let mut lines = Vec::new();
    for column in &shown.columns {
        let name = &column.name;
        if column.pairs == [name.as_str()] {
            continue;
        }
        let pairs = if column.pairs.is_empty() { "no pair".to_string() } else { column.pairs.join(" ") };
        lines.extend(folded(&format!("{name} is taken by"), &pairs, characters));
    }
    let mut notes = "A double ring is a final state; an arc has the colour of the state that it leaves.".to_string();
    if !failures {
        notes += " A pair without an arc fails.";
    }
    lines.extend(folded("", &notes, characters).into_iter().map(|line| line.trim_start().to_string()));
    lines
}

/// Words after a head, on lines of so many characters.
fn folded(head: &str, words: &str, characters: usize) -> Vec<String> {
    let mut lines = vec![head.to_string()];
    for word in words.split(' ') {
        if let Some(line) =
            lines.last_mut().filter(|line| line.chars().count() + 1 + word.chars().count() <= characters)
        {
            *line += &format!(" {word}");
        } else {
            lines.push(format!("    {word}"));
        }
    }
    lines
}

/// Text of an XML document. What no XML document may have stands by its code point.
fn escaped(text: &str) -> String {
    text.chars()
        .map(|c| match c {
            '&' => "&amp;".to_string(),
            '<' => "&lt;".to_string(),
            '>' => "&gt;".to_string(),
            '\u{0}'..='\u{1f}' | '\u{7f}'..='\u{9f}' | '\u{fffe}' | '\u{ffff}' => format!("U+{:04X}", u32::from(c)),
            c => c.to_string(),
        })
        .collect()
}

#[cfg(test)]
mod tests {
    use super::{escaped, folded};

    #[test]
    fn what_means_something_in_xml_is_escaped() {
        assert_eq!(escaped("<&>:\"é\u{1}\u{ffff}"), "&lt;&amp;&gt;:\"éU+0001U+FFFF");
    }

    #[test]
    fn pairs_are_folded_after_their_column() {
        assert_eq!(folded("@:@ is", "a:a b:b c:c", 11), ["@:@ is a:a", "    b:b c:c"]);
    }
}
