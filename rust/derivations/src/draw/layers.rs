//! Boxes in layers: a clause stands below those that its step names, and an input clause just above where it is first used.

use std::collections::HashMap;

use super::graph::Graph;

/// Lines that pass more layers than this, all together, are not led around boxes.
const BENDS: usize = 4000;

/// What stands in a layer.
#[derive(Clone, Copy, PartialEq, Eq, Debug)]
pub enum Item {
    /// A box of the graph.
    Shape(usize),
    /// A place where the lines from a box pass between other boxes, as one.
    Bend(usize),
}

/// A graph in layers.
pub struct Layers {
    /// All items; the boxes first, in their order.
    pub items: Vec<Item>,
    /// The items of each layer, from the top.
    pub layers: Vec<Vec<usize>>,
    /// The items that each line of the graph leads through, from its box to its box.
    pub ways: Vec<Vec<usize>>,
}

impl Layers {
    /// Puts a graph into layers.
    pub fn of(graph: &Graph) -> Layers {
        let depth = depths(graph);
        let mut items: Vec<Item> = (0..graph.shapes.len()).map(Item::Shape).collect();
        let mut layers = vec![Vec::new(); depth.iter().max().map_or(0, |most| most + 1)];
        for (shape, &at) in depth.iter().enumerate() {
            layers[at].push(shape);
        }
        let spans = graph.lines.iter().map(|line| depth[line.to] - depth[line.from] - 1);
        let with_bends = spans.sum::<usize>() <= BENDS;
        let mut ways = Vec::with_capacity(graph.lines.len());
        let mut bends: HashMap<(usize, usize), usize> = HashMap::new();
        for line in &graph.lines {
            let between = if with_bends { depth[line.from] + 1..depth[line.to] } else { 0..0 };
            let mut way = vec![line.from];
            way.extend(between.map(|layer| {
                *bends.entry((line.from, layer)).or_insert_with(|| {
                    items.push(Item::Bend(line.from));
                    layers[layer].push(items.len() - 1);
                    items.len() - 1
                })
            }));
            way.push(line.to);
            ways.push(way);
        }
        Layers { items, layers, ways }
    }

    /// For each item those that it is joined with in the layer above, or below. Lines that pass without bends join boxes of layers
    /// further apart.
    pub fn neighbours(&self, above: bool) -> Vec<Vec<usize>> {
        let mut neighbours = vec![Vec::new(); self.items.len()];
        for pair in self.ways.iter().flat_map(|way| way.windows(2)) {
            match above {
                true => neighbours[pair[1]].push(pair[0]),
                false => neighbours[pair[0]].push(pair[1]),
            }
        }
        neighbours
    }
}

/// The layer of each box, from 0. Boxes are in the order of their clauses, so that parents come first.
fn depths(graph: &Graph) -> Vec<usize> {
    let mut depth = vec![0; graph.shapes.len()];
    let mut has_parents = vec![false; graph.shapes.len()];
    for line in &graph.lines {
        depth[line.to] = depth[line.to].max(depth[line.from] + 1);
        has_parents[line.to] = true;
    }
    let mut lowest = vec![usize::MAX; graph.shapes.len()];
    for line in &graph.lines {
        lowest[line.from] = lowest[line.from].min(depth[line.to] - 1);
    }
    for (shape, at) in depth.iter_mut().enumerate() {
        if !has_parents[shape] && lowest[shape] != usize::MAX {
            *at = lowest[shape];
        }
    }
    depth
}
