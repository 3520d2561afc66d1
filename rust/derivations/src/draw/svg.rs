//! A picture as SVG, laid out here.

use std::collections::HashSet;

use super::coordinates::{Coordinates, Sizes};
use super::graph::{Graph, Shape, Side, Sort};
use super::layers::{Item, Layers};
use super::order::arrange;
use crate::escape::escaped;
use crate::model::Model;
use crate::names::Names;

/// Width of a letter, and height of a line of words.
const LETTER: f64 = 7.9;
const LINE: f64 = 18.0;
/// Room inside of a box, and its least width.
const INSIDE: f64 = 10.0;
const NARROWEST: f64 = 118.0;
/// How far a line goes straight before it enters a box, beside its words.
const STRAIGHT: f64 = 16.0;

/// How a picture looks. Everything is under one class, so that it can stand in a page.
const STYLE: &str = "
.derivation text { font: 13px ui-monospace, 'DejaVu Sans Mono', Menlo, Consolas, monospace; fill: #16202c; }
.derivation .ground { fill: #ffffff; }
.derivation .box { fill: #ffffff; stroke: #5b6775; stroke-width: 1.2; }
.derivation .input .box { fill: #e4eefa; stroke: #3465a4; }
.derivation .last .box { fill: #16202c; stroke: #16202c; }
.derivation .last text { fill: #ffffff; }
.derivation .number { font-weight: bold; }
.derivation .line { fill: none; stroke: #5b6775; stroke-width: 1.2; }
.derivation .words { font-size: 11px; fill: #3c4753; stroke: #ffffff; stroke-width: 3px; paint-order: stroke; }
";

/// The derivation of a clause as SVG: the clauses that a step names stand above the one that it makes, rules and facts with round corners.
/// A derivation of over 150 clauses is drawn in a compact form: boxes with numbers alone, and lines without words.
pub fn svg(model: &Model<'_>, names: &Names, clause: u16) -> String {
    let graph = Graph::of(model, names, clause);
    let mut layers = Layers::of(&graph);
    arrange(&graph, &mut layers);
    let sizes = sizes(&graph);
    let coordinates = Coordinates::of(&layers, &sizes);
    let (width, height) = (coordinates.width.ceil(), coordinates.height.ceil());
    let mut text = format!(
        "<svg xmlns=\"http://www.w3.org/2000/svg\" class=\"derivation\" role=\"img\" width=\"{width}\" height=\"{height}\" \
         viewBox=\"0 0 {width} {height}\">\n<title>The derivation of clause {clause}</title>\n<style>{STYLE}</style>\n\
         <rect class=\"ground\" width=\"{width}\" height=\"{height}\"/>\n"
    );
    let picture = Picture { graph: &graph, layers: &layers, sizes: &sizes, coordinates: &coordinates };
    text += &picture.lines();
    for (place, shape) in graph.shapes.iter().enumerate() {
        text += &picture.shape(place, shape);
    }
    for number in 0..graph.lines.len() {
        text += &picture.words(number);
    }
    text + "</svg>\n"
}

/// The sizes of the boxes and of the room between them.
fn sizes(graph: &Graph) -> Sizes {
    if graph.is_compact() {
        let boxes = vec![(52.0, 22.0); graph.shapes.len()];
        return Sizes { boxes, beside: 14.0, between: 26.0, around: 16.0 };
    }
    let size = |shape: &Shape| {
        let longest = shape.lines.iter().map(|line| line.chars().count()).max().unwrap_or(0);
        let width = (longest as f64 * LETTER + 2.0 * INSIDE).max(NARROWEST);
        (width, shape.lines.len() as f64 * LINE + INSIDE)
    };
    Sizes { boxes: graph.shapes.iter().map(size).collect(), beside: 26.0, between: 58.0, around: 24.0 }
}

/// A picture that is laid out.
struct Picture<'a> {
    graph: &'a Graph,
    layers: &'a Layers,
    sizes: &'a Sizes,
    coordinates: &'a Coordinates,
}

impl Picture<'_> {
    /// A box with its words.
    fn shape(&self, place: usize, shape: &Shape) -> String {
        let (width, height) = self.sizes.boxes[place];
        let (left, top) = (self.coordinates.middles[place] - width / 2.0, self.top(place));
        let (class, round) = match shape.sort {
            Sort::Input => ("input", 9),
            Sort::Derived => ("derived", 0),
            Sort::Last => ("last", 0),
        };
        let mut text = format!(
            "<g class=\"{class}\"><rect class=\"box\" x=\"{left:.1}\" y=\"{top:.1}\" width=\"{width:.1}\" height=\"{height:.1}\" \
             rx=\"{round}\"/>"
        );
        let whole = shape.lines.join(" ");
        if self.graph.is_compact() {
            let (x, y) = (left + width / 2.0, top + height / 2.0 + 4.5);
            text += &format!("<title>{}</title>", escaped(&whole));
            text +=
                &format!("<text x=\"{x:.1}\" y=\"{y:.1}\" text-anchor=\"middle\">{}</text>", shape.clause);
        } else {
            for (number, line) in shape.lines.iter().enumerate() {
                let class = if number == 0 { " class=\"number\"" } else { "" };
                let (x, y) = (left + INSIDE, top + INSIDE / 2.0 + LINE * (number as f64 + 0.72));
                text += &format!("<text{class} x=\"{x:.1}\" y=\"{y:.1}\">{}</text>", escaped(line));
            }
        }
        text + "</g>\n"
    }

    /// The top of a box: boxes stand at the bottom of their layer, where their lines leave.
    fn top(&self, place: usize) -> f64 {
        let (top, height) = self.coordinates.layers[self.coordinates.layer_of[place]];
        top + height - self.sizes.boxes[place].1
    }

    /// All lines. What several have in common is drawn once.
    fn lines(&self) -> String {
        let (mut text, mut drawn) = (String::new(), HashSet::new());
        for (line, way) in self.graph.lines.iter().zip(&self.layers.ways) {
            for link in way.windows(2) {
                let side = (link[1] == line.to).then_some(line.side);
                if drawn.insert((link[0], link[1], side)) {
                    text += &self.link(link[0], link[1], line.side);
                }
            }
        }
        text
    }

    /// The part of a line from one item to the next below it: straight past the items, and bent between the layers.
    fn link(&self, from: usize, to: usize, side: Side) -> String {
        let start = match self.layers.items[from] {
            Item::Shape(shape) => {
                (self.coordinates.middles[from], self.top(shape) + self.sizes.boxes[shape].1)
            }
            Item::Bend(_) => (self.coordinates.middles[from], self.layer(from).1),
        };
        let (end, bottom) = match self.layers.items[to] {
            Item::Shape(shape) => {
                let (x, y) = self.entry(shape, side);
                ((x, y - STRAIGHT), y)
            }
            Item::Bend(_) => ((self.coordinates.middles[to], self.layer(to).0), self.layer(to).1),
        };
        let [(x, y), (to_x, to_y)] = [start, end];
        let half = (y + to_y) / 2.0;
        let bent = match (x - to_x).abs() < 0.1 {
            true => String::new(),
            false => format!("C{x:.1} {half:.1} {to_x:.1} {half:.1} {to_x:.1} {to_y:.1}"),
        };
        format!("<path class=\"line\" d=\"M{x:.1} {y:.1}{bent}V{bottom:.1}\"/>\n")
    }

    /// The top and the bottom of an item's layer.
    fn layer(&self, item: usize) -> (f64, f64) {
        let (top, height) = self.coordinates.layers[self.coordinates.layer_of[item]];
        (top, top + height)
    }

    /// Where a line enters a box.
    fn entry(&self, place: usize, side: Side) -> (f64, f64) {
        let apart = self.sizes.boxes[place].0 * 0.2;
        let apart = match side {
            Side::Left => -apart,
            Side::Right => apart,
            Side::Middle => 0.0,
        };
        (self.coordinates.middles[place] + apart, self.top(place))
    }

    /// The words of a line, beside the place where it enters its box.
    fn words(&self, number: usize) -> String {
        if self.graph.is_compact() {
            return String::new();
        }
        let line = &self.graph.lines[number];
        let (x, y) = self.entry(line.to, line.side);
        let (x, anchor) = match line.side {
            Side::Left => (x - 5.0, "end"),
            Side::Right | Side::Middle => (x + 5.0, "start"),
        };
        let y = y - 6.0;
        format!(
            "<text class=\"words\" x=\"{x:.1}\" y=\"{y:.1}\" text-anchor=\"{anchor}\">{}</text>\n",
            escaped(&line.words)
        )
    }
}
