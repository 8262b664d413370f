//! Answers: what the source says to a job.

use crate::job::{Channel, Contact, Job, Join, Layout, Port, Ring, Via, MEMBERS};
use crate::writing::Line;
use layout_db::connectivity_probe::probe::{self, Joins};
use layout_db::{connectivity, connectivity_full};
use openrdson_core::geometry::{polygon_area, Bbox, LayerKey, Point};
use openrdson_core::geomops::{
    polygon_intersection_rects, polygon_minus_polygon, rects_area, x_intervals_at, Rect,
};
use openrdson_core::geomops_probe;
use openrdson_core::layout::{self, LayoutIR, LayoutPolygon};
use openrdson_core::tech::{self, LayerMap, TechStack};
use std::collections::BTreeMap;

/// The side of a cell and the room of the touch test, as extract_connectivity sets them.
pub const CELL: f64 = 4e-6;
pub const TOUCH: f64 = 1e-12;

/// The source makes a bucket for every cell a box covers; more than these are not asked for.
const BUCKETS: i128 = 2_000_000;

/// The answer's line, or why the source cannot be asked.
pub fn answer(job: &Job) -> Result<String, String> {
    let line = match job {
        Job::Cell(x) => Line::of(cell(*x)),
        Job::Area(ring) => floats(&[polygon_area(ring)]),
        Job::Box(ring) => bbox(ring),
        Job::Overlap(eps, a, b) => flag(probe::bbox_overlaps(
            &Bbox::from_points(a),
            &Bbox::from_points(b),
            *eps,
        )),
        Job::Intervals(y, ring) => Line::of("").list(&intervals(*y, ring), |line, (x0, x1)| {
            line.float(*x0).float(*x1)
        }),
        Job::Bands(a, b) => {
            Line::of("").list(&geomops_probe::probe::bands(a, b), |line, y| line.float(*y))
        }
        Job::Minus(a, b) => Line::of("").rects(&polygon_minus_polygon(a, b)),
        Job::Meet(a, b) => Line::of("").rects(&polygon_intersection_rects(a, b)),
        Job::Rects(rects) => floats(&[rects_area(rects)]),
        Job::Touch(a, b) => flag(probe::polygons_connected(a, b, TOUCH)),
        Job::Full(a, b) => flag(connectivity_full::probe::polygons_connected(a, b, TOUCH)),
        Job::Inside(p, ring) => flag(!ring.is_empty() && probe::point_in_polygon(*p, ring)),
        Job::Marker(name) => flag(probe::is_marker(name)),
        Job::Joins(joins) => after_joins(joins),
        Job::Extract(contact, layout) => nets(&extract(*contact, layout)?),
        Job::Channel(channel, layout) => Line::of("").rects(&regions(channel, layout)),
        Job::Cut(channel, layout) => pieces(&cut(channel, layout)),
        Job::CutExtract(contact, channel, layout) => {
            nets(&extract(*contact, &cut_layout(channel, layout))?)
        }
    };
    Ok(line.0)
}

/// 1 for yes, 0 for no.
fn flag(yes: bool) -> Line {
    Line::of(u8::from(yes))
}

/// Floats alone, without their number.
fn floats(list: &[f64]) -> Line {
    list.iter().fold(Line::of(""), |line, x| line.float(*x))
}

/// The cell that a coordinate is in, by union_same_layer's formula, which is local there.
pub fn cell(x: f64) -> i64 {
    (x / CELL).floor() as i64
}

/// The box of a ring's points, or `empty`.
fn bbox(ring: &[Point]) -> Line {
    let b = Bbox::from_points(ring);
    if b.is_empty() {
        Line::of("empty")
    } else {
        floats(&[b.min_x, b.min_y, b.max_x, b.max_y])
    }
}

/// The intervals of a ring at a height. The source has the function twice; both must say the same.
fn intervals(y: f64, ring: &[Point]) -> Vec<(f64, f64)> {
    let public = x_intervals_at(ring, y);
    let bits = |list: &[(f64, f64)]| -> Vec<(u64, u64)> {
        list.iter()
            .map(|(x0, x1)| (x0.to_bits(), x1.to_bits()))
            .collect()
    };
    if bits(&public) != bits(&probe::x_intervals_at(ring, y)) {
        astray("the two x_intervals_at differ");
    }
    public
}

/// The roots that the finds give, then the parents, then the ranks.
fn after_joins(joins: &[Join]) -> Line {
    let mut table = Joins::new(MEMBERS);
    let mut line = Line::of("");
    for join in joins {
        match join {
            Join::Union(a, b) => table.union(*a, *b),
            Join::Find(a) => line = line.word(table.find(*a)),
        }
    }
    let line = table
        .parents()
        .iter()
        .fold(line.word("/"), |line, p| line.word(p));
    table
        .ranks()
        .iter()
        .fold(line.word("/"), |line, r| line.word(r))
}

/// The parts of the source's `Connectivity` that are asked.
pub struct Nets {
    components: usize,
    component_of: Vec<Option<usize>>,
    pub connections: Vec<(usize, usize)>,
    port_polygon: BTreeMap<String, usize>,
    port_component: BTreeMap<String, usize>,
    /// The polygon that each port record keeps.
    landings: Vec<Option<usize>>,
}

/// One run of an extraction. The copies of the source have a type `Connectivity` each, so this is no function.
macro_rules! run {
    ($source:ident, $layout:expr, $stack:expr, $map:expr) => {{
        let found = $source::extract_connectivity($layout, $stack, $map);
        Nets {
            components: found.component_count(),
            component_of: (found.component_of.iter())
                .map(|&c| Some(c).filter(|&c| c != usize::MAX))
                .collect(),
            connections: found.same_layer_connections,
            port_polygon: found.port_polygon,
            port_component: found.port_component,
            landings: Vec::new(),
        }
    }};
}

/// The nets of a layout, or why its grid is too large to ask for.
pub fn extract(contact: Contact, layout: &Layout) -> Result<Nets, String> {
    let buckets = buckets(layout);
    if buckets > BUCKETS {
        return Err(format!("the source's grid would have {} buckets", buckets));
    }
    let (stack, map) = tables(layout);
    let run = |layout: &LayoutIR| match contact {
        Contact::Source => run!(connectivity, layout, &stack, &map),
        Contact::Full => run!(connectivity_full, layout, &stack, &map),
    };
    let whole = drawn(layout);
    let mut nets = run(&whole);
    if !layout.ports.is_empty() {
        // Ports know of each other by their names alone, so one run with a name for each record lands each as if alone.
        let mut apart = whole;
        for (i, port) in apart.ports.iter_mut().enumerate() {
            port.name = i.to_string();
        }
        let alone = run(&apart).port_polygon;
        nets.landings = landings(layout, &alone);
    }
    agree(layout, &nets);
    Ok(nets)
}

/// Each record's polygon: kept if it landed and no later record of its name did.
fn landings(layout: &Layout, alone: &BTreeMap<String, usize>) -> Vec<Option<usize>> {
    let landed = |i: usize| alone.get(&i.to_string()).copied();
    let replaced = |i: usize| {
        let name = &layout.ports[i].name;
        (i + 1..layout.ports.len()).any(|j| layout.ports[j].name == *name && landed(j).is_some())
    };
    (0..layout.ports.len())
        .map(|i| landed(i).filter(|_| !replaced(i)))
        .collect()
}

/// Stops the program if the records' landings are not the source's map, or ports and components part.
fn agree(layout: &Layout, nets: &Nets) {
    let kept: BTreeMap<String, usize> = (layout.ports.iter())
        .zip(&nets.landings)
        .filter_map(|(port, landing)| landing.map(|polygon| (port.name.clone(), polygon)))
        .collect();
    if kept != nets.port_polygon || kept.len() != nets.landings.iter().flatten().count() {
        astray("the landings of the records are not the map of the whole run");
    }
    let components = (nets.port_polygon.iter())
        .map(|(name, &polygon)| {
            (
                name.clone(),
                nets.component_of[polygon].unwrap_or(usize::MAX),
            )
        })
        .collect();
    if nets.port_component != components {
        astray("a port has not the component of its polygon");
    }
}

/// The number of buckets that the source's grid makes for all polygons, an overlap counted twice.
fn buckets(layout: &Layout) -> i128 {
    let side = |low: f64, high: f64| i128::from(cell(high)) - i128::from(cell(low)) + 1;
    (layout.polygons.iter())
        .map(|(_, ring)| Bbox::from_points(ring))
        .filter(|b| !b.is_empty())
        .map(|b| side(b.min_x, b.max_x) * side(b.min_y, b.max_y))
        .fold(0, i128::saturating_add)
}

/// Components, `K` and each polygon's, `J` and the connections, `N` and each record's landing.
fn nets(nets: &Nets) -> Line {
    let or_none = |line: Line, number: &Option<usize>| match number {
        Some(number) => line.word(number),
        None => line.word("-"),
    };
    let line = Line::of(nets.components).word("K");
    let line = nets.component_of.iter().fold(line, or_none).word("J");
    let line = line.list(&nets.connections, |line, (low, high)| {
        line.word(low).word(high)
    });
    nets.landings.iter().fold(line.word("N"), or_none)
}

/// The tables of a layout as the source takes them.
fn tables(layout: &Layout) -> (TechStack, LayerMap) {
    let via = |via: &Via| tech::Via {
        name: via.name.clone(),
        bottom_layer: via.bottom.clone(),
        top_layer: via.top.clone(),
        ..tech::Via::default()
    };
    let stack = TechStack {
        vias: layout.stack.iter().map(via).collect(),
        ..TechStack::default()
    };
    let map = LayerMap {
        conducting: layout.conducting.iter().cloned().collect(),
        via: layout.via.iter().cloned().collect(),
    };
    (stack, map)
}

/// A layout as the source takes it. Each polygon's net is its index, which the cut copies to the pieces.
fn drawn(layout: &Layout) -> LayoutIR {
    let polygon = |(i, (layer, ring)): (usize, &(i16, Ring))| LayoutPolygon {
        layer: LayerKey::new(*layer, 0),
        net: Some(i.to_string()),
        points: ring.clone(),
        props: Vec::new(),
    };
    let port = |port: &Port| layout::Port {
        name: port.name.clone(),
        id: None,
        net: String::new(),
        layer: port.layer.clone(),
        x: port.at.x,
        y: port.at.y,
        direction: None,
    };
    LayoutIR {
        polygons: layout.polygons.iter().enumerate().map(polygon).collect(),
        ports: layout.ports.iter().map(port).collect(),
        layer_names: layout.layers.iter().cloned().collect(),
        ..LayoutIR::default()
    }
}

/// The channel's rectangles.
pub fn regions(channel: &Channel, layout: &Layout) -> Vec<Rect> {
    connectivity::channel_regions(&drawn(layout), &channel.gate, &channel.active)
}

/// A polygon of the cut layout: its layer, the polygon that it came from, its ring.
pub struct Piece {
    layer: i16,
    source: usize,
    pub ring: Ring,
}

/// The polygons of the layout with every active cut by the gates.
pub fn cut(channel: &Channel, layout: &Layout) -> Vec<Piece> {
    let cut = connectivity::apply_channel_cut(&drawn(layout), &channel.gate, &channel.active);
    let piece = |polygon: LayoutPolygon| Piece {
        layer: polygon.layer.layer,
        source: match polygon.net.map(|net| net.parse()) {
            Some(Ok(source)) => source,
            _ => astray("the cut lost a polygon's index"),
        },
        ring: polygon.points,
    };
    cut.polygons.into_iter().map(piece).collect()
}

/// The layout with the cut's polygons in the place of its own.
pub fn cut_layout(channel: &Channel, layout: &Layout) -> Layout {
    Layout {
        polygons: (cut(channel, layout).into_iter())
            .map(|piece| (piece.layer, piece.ring))
            .collect(),
        ..layout.clone()
    }
}

/// The greatest number of rectangles that one active is in, before the first gate or behind any.
pub fn most_rects(channel: &Channel, layout: &Layout) -> usize {
    let layout = drawn(layout);
    let rings = |name: &str| -> Vec<&Ring> {
        (layout.polygons.iter())
            .filter(|p| layout.layer_name(p.layer.layer) == Some(name))
            .map(|p| &p.points)
            .collect()
    };
    let gates = rings(&channel.gate);
    let mut most = 0;
    for active in rings(&channel.active) {
        let mut rects = polygon_minus_polygon(active, &[]);
        most = most.max(rects.len());
        for gate in &gates {
            rects = (rects.iter())
                .flat_map(|r| polygon_minus_polygon(&r.to_ring(), gate))
                .collect();
            most = most.max(rects.len());
        }
    }
    most
}

/// How many polygons, then each one's layer, source and ring.
fn pieces(pieces: &[Piece]) -> Line {
    Line::of("").list(pieces, |line, piece| {
        line.word(piece.layer).word(piece.source).ring(&piece.ring)
    })
}

/// Ends the program: the source does not do what this program takes for granted.
fn astray(what: &str) -> ! {
    eprintln!("oracle: {}", what);
    std::process::exit(2)
}
