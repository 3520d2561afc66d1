//! Where everything stands: the middle of each item across, and the top and the bottom of each layer.

use super::layers::{Item, Layers};

/// Sizes of a picture, in its units.
pub struct Sizes {
    /// The width of each box, in the order of the graph, and its height.
    pub boxes: Vec<(f64, f64)>,
    /// Room between two boxes of a layer.
    pub beside: f64,
    /// Room between two layers.
    pub between: f64,
    /// Room around everything.
    pub around: f64,
}

/// Where everything stands.
pub struct Coordinates {
    /// The middle of each item, across.
    pub middles: Vec<f64>,
    /// The top of each layer, and the height of its highest box.
    pub layers: Vec<(f64, f64)>,
    /// The layer of each item.
    pub layer_of: Vec<usize>,
    /// The width of the whole.
    pub width: f64,
    /// Its height.
    pub height: f64,
}

/// Width of a place where a line passes.
const BEND: f64 = 10.0;

/// How often all layers are gone through.
const SWEEPS: usize = 16;

impl Coordinates {
    /// The coordinates of layers that are in order.
    pub fn of(layers: &Layers, sizes: &Sizes) -> Coordinates {
        let widths: Vec<f64> = layers
            .items
            .iter()
            .map(|item| match item {
                Item::Shape(shape) => sizes.boxes[*shape].0,
                Item::Bend(_) => BEND,
            })
            .collect();
        let (middles, width) = across(layers, sizes, &widths);
        let mut layer_of = vec![0; layers.items.len()];
        let (mut heights, mut top) = (Vec::new(), sizes.around);
        for (number, layer) in layers.layers.iter().enumerate() {
            let mut height: f64 = 0.0;
            for &item in layer {
                layer_of[item] = number;
                if let Item::Shape(shape) = layers.items[item] {
                    height = height.max(sizes.boxes[shape].1);
                }
            }
            heights.push((top, height));
            top += height + sizes.between;
        }
        let height = top - sizes.between + sizes.around;
        Coordinates { middles, layers: heights, layer_of, width, height }
    }
}

/// The middle of each item, and the width of the whole.
fn across(layers: &Layers, sizes: &Sizes, widths: &[f64]) -> (Vec<f64>, f64) {
    let [above, below] = [true, false].map(|above| layers.neighbours(above));
    let mut middles = vec![0.0; widths.len()];
    for layer in &layers.layers {
        let wanted = vec![0.0; layer.len()];
        settle(layer, &wanted, widths, sizes.beside, &mut middles);
    }
    for sweep in 0..SWEEPS {
        let down = sweep % 2 == 0;
        let neighbours = if down { &above } else { &below };
        let count = layers.layers.len();
        for step in 0..count {
            let layer = &layers.layers[if down { step } else { count - 1 - step }];
            let wanted: Vec<f64> =
                layer.iter().map(|&item| wanted(item, &neighbours[item], &middles)).collect();
            settle(layer, &wanted, widths, sizes.beside, &mut middles);
        }
    }
    let edge = |side: f64| move |(middle, width): (&f64, &f64)| middle + side * width / 2.0;
    let left = middles.iter().zip(widths).map(edge(-1.0)).fold(f64::MAX, f64::min);
    let right = middles.iter().zip(widths).map(edge(1.0)).fold(f64::MIN, f64::max);
    middles.iter_mut().for_each(|middle| *middle += sizes.around - left);
    (middles, right - left + 2.0 * sizes.around)
}

/// Where an item would best stand: in the middle of those that it is joined with.
fn wanted(item: usize, joined: &[usize], middles: &[f64]) -> f64 {
    match joined.len() {
        0 => middles[item],
        count => joined.iter().map(|&other| middles[other]).sum::<f64>() / count as f64,
    }
}

/// Puts the items of a layer as near as can be to where they would best stand, in their order and with room between them. Items that would
/// be too near to each other are put together as a group, which stands where its items want it on the average.
fn settle(layer: &[usize], wanted: &[f64], widths: &[f64], beside: f64, middles: &mut [f64]) {
    let mut offset = 0.0;
    let mut offsets = Vec::with_capacity(layer.len());
    for (at, &item) in layer.iter().enumerate() {
        if at > 0 {
            offset += (widths[layer[at - 1]] + widths[item]) / 2.0 + beside;
        }
        offsets.push(offset);
    }
    // Groups by where their first item stands, taken together, and how many items they have.
    let mut groups: Vec<(f64, usize)> = Vec::new();
    for (wanted, offset) in wanted.iter().zip(&offsets) {
        let mut group = (wanted - offset, 1);
        while let Some(&(before, count)) = groups.last().filter(|last| last.0 > group.0) {
            let all = count + group.1;
            group = ((before * count as f64 + group.0 * group.1 as f64) / all as f64, all);
            groups.pop();
        }
        groups.push(group);
    }
    let starts = groups.iter().flat_map(|&(start, count)| std::iter::repeat_n(start, count));
    for ((&item, start), offset) in layer.iter().zip(starts).zip(offsets) {
        middles[item] = start + offset;
    }
}
