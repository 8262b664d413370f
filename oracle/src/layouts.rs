//! Layouts by lot: tables, polygons on their layers, ports on and about these.

use crate::job::{Channel, Layout, Port, Ring};
use crate::pen::Pen;
use crate::random::Random;
use crate::shapes;
use crate::tables::{tables, FILLING, RECORDS};
use openrdson_core::geometry::{Bbox, Point};

/// A layout for the extraction, of at most `most` polygons.
pub fn for_extraction(random: &mut Random, most: usize) -> Layout {
    let mut layout = tables(random);
    let mut pen = Pen::of(random, &layout, most);
    match random.below(10) {
        0..=2 => pen.grid(random),
        3 => pen.cells(random),
        4..=6 => pen.wells(random),
        7 | 8 => pen.rows(random),
        _ => pen.shapes(random),
    }
    layout.polygons = pen.polygons(random);
    layout.ports = ports(random, &layout);
    layout
}

/// A layout for the cut, and the names to cut by.
pub fn for_cut(random: &mut Random, most: usize) -> (Channel, Layout) {
    let mut layout = tables(random);
    let channel = channel(random, &layout);
    let mut pen = Pen::of(random, &layout, most);
    let (gates, actives) = (
        pen.numbers_of(&channel.gate),
        pen.numbers_of(&channel.active),
    );
    match random.below(12) {
        0 => pen.grid(random),
        1 => pen.shapes(random),
        2 => pen.cells(random),
        _ => pen.channels(random, &gates, &actives),
    }
    layout.polygons = pen.polygons(random);
    layout.ports = ports(random, &layout);
    (channel, layout)
}

/// Gate and active: as a rule two conductors, now and then one name for both or a name without a layer.
fn channel(random: &mut Random, layout: &Layout) -> Channel {
    let drawn: Vec<&String> = (layout.layers.iter())
        .filter(|(number, _)| !FILLING.contains(number))
        .map(|(_, name)| name)
        .collect();
    let one = |random: &mut Random| match random.below(24) {
        0 => "nowhere".to_string(),
        _ => random.pick(&drawn).to_string(),
    };
    let active = one(random);
    let mut gate = one(random);
    for _ in 0..3 {
        if gate == active {
            gate = one(random);
        }
    }
    Channel { gate, active }
}

/// Ports on corners and edges, inside and beside polygons; names repeat, layers may be any.
fn ports(random: &mut Random, layout: &Layout) -> Vec<Port> {
    let count = if random.once_in(24) {
        RECORDS
    } else {
        random.count(0, 8)
    };
    let logicals: Vec<&String> = layout
        .conducting
        .iter()
        .map(|(logical, _)| logical)
        .collect();
    let mut ports = Vec::new();
    for i in 0..count {
        let (number, ring) = match layout.polygons.len() {
            0 => (0, Ring::new()),
            _ => random.pick(&layout.polygons).clone(),
        };
        let layer = match random.below(12) {
            0 => "nowhere".to_string(),
            1..=3 if !logicals.is_empty() => random.pick(&logicals).to_string(),
            _ => match layout.layers.iter().find(|(layer, _)| *layer == number) {
                Some((_, name)) => name.clone(),
                None => "cut".to_string(),
            },
        };
        let name = if random.once_in(3) {
            "D".to_string()
        } else {
            format!("{}{}", random.pick(&["S", "G", "D"]), i)
        };
        ports.push(Port {
            name,
            layer,
            at: about(random, &ring),
        });
    }
    ports
}

/// A point on, in or about a ring: at a corner, on an edge or at its ends' heights, in the box, next to these, far off.
pub fn about(random: &mut Random, ring: &[Point]) -> Point {
    if ring.is_empty() {
        return Point::new(0.0, 0.0);
    }
    let i = random.count(0, ring.len() - 1);
    let (a, b) = (ring[i], ring[(i + 1) % ring.len()]);
    let c = *random.pick(ring);
    let bbox = Bbox::from_points(ring);
    let (width, height) = (bbox.max_x - bbox.min_x, bbox.max_y - bbox.min_y);
    let (x, y) = match random.below(16) {
        0 => (a.x, a.y),
        1 => (shapes::beside(random, a.x), shapes::beside(random, a.y)),
        2 | 3 => (0.5 * (a.x + b.x), 0.5 * (a.y + b.y)),
        4 => on_edge(random, a, b),
        5 => (0.5 * (a.x + c.x), 0.5 * (a.y + c.y)),
        6 => (0.5 * (a.x + c.x), a.y),
        7 => (bbox.min_x - width - 1e-9, a.y),
        8..=11 => (
            0.5 * (bbox.min_x + bbox.max_x),
            0.5 * (bbox.min_y + bbox.max_y),
        ),
        _ => (
            bbox.min_x + random.part() * width,
            bbox.min_y + random.part() * height,
        ),
    };
    Point::new(shapes::bounded(x), shapes::bounded(y))
}

/// A point as near to the edge as f64 has it, at a height between its ends.
fn on_edge(random: &mut Random, a: Point, b: Point) -> (f64, f64) {
    let y = a.y + random.part() * (b.y - a.y);
    let x = if a.y == b.y {
        b.x
    } else {
        a.x + (y - a.y) / (b.y - a.y) * (b.x - a.x)
    };
    (shapes::beside(random, x), y)
}
