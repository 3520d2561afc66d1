//! The order of the items in each layer: so that few lines cross.

use super::graph::Graph;
use super::layers::Layers;

/// How often all layers are gone through.
const SWEEPS: usize = 12;

/// With more pairs of lines than this in a layer, crossings are not counted, and the last order is taken.
const PAIRS: usize = 200_000;

/// Puts the items of each layer into an order. They begin as a walk from the last clause meets them, left clauses first; then each is
/// put to the middle of those that it is joined with, by layers downwards and upwards, and the order with the fewest crossings stays.
pub fn arrange(graph: &Graph, layers: &mut Layers) {
    begin(graph, layers);
    let [above, below] = [true, false].map(|above| layers.neighbours(above));
    let mut best = (crossings(layers, &below), layers.layers.clone());
    for sweep in 0..SWEEPS {
        let down = sweep % 2 == 0;
        let count = layers.layers.len();
        for step in 1..count {
            let layer = if down { step } else { count - 1 - step };
            sort(layers, layer, if down { &above } else { &below });
        }
        let crossed = crossings(layers, &below);
        if crossed <= best.0 {
            best = (crossed, layers.layers.clone());
        }
    }
    layers.layers = best.1;
}

/// The order in which a walk from the last box meets the boxes, those that it comes from first.
fn begin(graph: &Graph, layers: &mut Layers) {
    let above = layers.neighbours(true);
    let mut met = vec![usize::MAX; layers.items.len()];
    let (mut next, mut open) = (0, vec![graph.shapes.len().saturating_sub(1)]);
    while let Some(item) = open.pop() {
        if met.get(item).is_some_and(|&met| met == usize::MAX) {
            met[item] = next;
            next += 1;
            open.extend(above[item].iter().rev());
        }
    }
    for layer in &mut layers.layers {
        layer.sort_by_key(|&item| met[item]);
    }
}

/// Sorts a layer by the middle of the places of those that each item is joined with. Items that are joined with none keep their place.
fn sort(layers: &mut Layers, layer: usize, neighbours: &[Vec<usize>]) {
    let place = places(layers);
    let middle = |(at, &item): (usize, &usize)| {
        let joined = &neighbours[item];
        let sum: usize = joined.iter().map(|&other| place[other]).sum();
        let middle = if joined.is_empty() { at as f64 } else { sum as f64 / joined.len() as f64 };
        (middle, item)
    };
    let mut sorted: Vec<(f64, usize)> = layers.layers[layer].iter().enumerate().map(middle).collect();
    sorted.sort_by(|one, other| one.0.total_cmp(&other.0));
    layers.layers[layer] = sorted.into_iter().map(|(_, item)| item).collect();
}

/// The place of each item in its layer.
fn places(layers: &Layers) -> Vec<usize> {
    let mut place = vec![0; layers.items.len()];
    for layer in &layers.layers {
        for (at, &item) in layer.iter().enumerate() {
            place[item] = at;
        }
    }
    place
}

/// How many pairs of lines cross between one layer and the next; none where there are too many to be counted.
fn crossings(layers: &Layers, below: &[Vec<usize>]) -> usize {
    let place = places(layers);
    let mut crossed = 0;
    for layer in &layers.layers {
        let ends: Vec<(usize, usize)> =
            layer.iter().flat_map(|&item| below[item].iter().map(move |&end| (item, end))).collect();
        let ends: Vec<(usize, usize)> = ends.iter().map(|&(from, to)| (place[from], place[to])).collect();
        if ends.len() * ends.len() > PAIRS {
            continue;
        }
        for (at, one) in ends.iter().enumerate() {
            let crosses = |other: &&(usize, usize)| one.0 < other.0 && one.1 > other.1;
            crossed += ends[..at].iter().chain(&ends[at + 1..]).filter(crosses).count();
        }
    }
    crossed
}
