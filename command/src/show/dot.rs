//! A rule as a graph in Graphviz's language DOT.

use super::arcs::Shown;
use super::layout::wrap;

/// Final states have a double ring. Failure, state 0, and the arcs to it are there only where asked for.
pub fn dot(shown: &Shown, failures: bool) -> String {
    let mut dot = format!("digraph {} {{\n", quoted(&shown.name));
    dot += "    rankdir=LR;\n    node [shape=circle];\n    edge [fontname=\"monospace\"];\n";
    dot += "    start [shape=point];\n    start -> 1;\n";
    if failures {
        dot += "    0 [shape=octagon, color=gray, fontcolor=gray];\n";
    }
    for (number, state) in (1..).zip(&shown.states) {
        if state.is_final {
            dot += &format!("    {number} [shape=doublecircle];\n");
        } else {
            dot += &format!("    {number};\n");
        }
    }
    for (number, state) in (1..).zip(&shown.states) {
        for arc in state.arcs.iter().filter(|arc| failures || arc.to != 0) {
            let label: Vec<String> = wrap(&shown.labels(arc)).iter().map(|line| escaped(line)).collect();
            let failure = if arc.to == 0 { ", color=gray, fontcolor=gray" } else { "" };
            dot += &format!("    {number} -> {} [label=\"{}\"{failure}];\n", arc.to, label.join("\\n"));
        }
    }
    dot + "}\n"
}

fn quoted(text: &str) -> String {
    format!("\"{}\"", escaped(text))
}

/// In a quoted text a backslash begins an escape, and an ampersand an entity.
fn escaped(text: &str) -> String {
    text.replace('\\', "\\\\").replace('"', "\\\"").replace('&', "&amp;")
}

#[cfg(test)]
mod tests {
    use super::quoted;

    #[test]
    fn what_means_something_in_a_quoted_text_is_escaped() {
        assert_eq!(quoted(r#"\:" &lt; é"#), r#""\\:\" &amp;lt; é""#);
    }
}
