//! A picture in the language DOT, for the programs of Graphviz.

use super::graph::{Graph, Sort};
use crate::model::Model;
use crate::names::Names;

/// The derivation of a clause in DOT: a box for each clause, and a line from each clause that a step names, with its literals.
pub fn dot(model: &Model<'_>, names: &Names, clause: u16) -> String {
    let graph = Graph::of(model, names, clause);
    let mut text = format!("digraph \"clause {clause}\" {{\n");
    text += "  node [shape=box, fontname=\"monospace\", style=\"filled\", fillcolor=\"white\"];\n";
    text += "  edge [fontname=\"monospace\", fontsize=10];\n";
    for shape in &graph.shapes {
        let look = match shape.sort {
            Sort::Input => ", fillcolor=\"#e4eefa\", style=\"filled,rounded\"",
            Sort::Derived => "",
            Sort::Last => ", penwidth=2.5",
        };
        let lines: Vec<String> = shape.lines.iter().map(|line| quoted(line)).collect();
        text += &format!("  c{} [label=\"{}\"{look}];\n", shape.clause, lines.join("\\n"));
    }
    for line in &graph.lines {
        let [from, to] = [line.from, line.to].map(|place| graph.shapes[place].clause);
        text += &format!("  c{from} -> c{to} [label=\"{}\"];\n", quoted(&line.words));
    }
    text + "}\n"
}

/// Text between quotation marks of DOT.
fn quoted(text: &str) -> String {
    text.replace('\\', "\\\\").replace('"', "\\\"")
}
