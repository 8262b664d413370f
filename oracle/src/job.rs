//! Jobs: one for each function of the source that is asked.

use openrdson_core::geometry::Point;
use openrdson_core::geomops::Rect;

pub type Ring = Vec<Point>;

/// The members of the table that a `joins` job works on.
pub const MEMBERS: usize = 512;

/// One operation on the table of joins.
#[derive(Clone, Debug)]
pub enum Join {
    Union(usize, usize),
    Find(usize),
}

/// A record of the via stack: the via, the layers below and above it.
#[derive(Clone, Debug)]
pub struct Via {
    pub name: String,
    pub bottom: Option<String>,
    pub top: Option<String>,
}

/// A port: its name, its logical layer, where it is.
#[derive(Clone, Debug)]
pub struct Port {
    pub name: String,
    pub layer: String,
    pub at: Point,
}

/// A layout with its tables. `channel` and `cut` jobs have layers and polygons only.
#[derive(Clone, Debug, Default)]
pub struct Layout {
    pub layers: Vec<(i16, String)>,
    pub conducting: Vec<(String, String)>,
    pub via: Vec<(String, String)>,
    pub stack: Vec<Via>,
    pub polygons: Vec<(i16, Ring)>,
    pub ports: Vec<Port>,
}

/// The logical names of a channel: the gate's and the active's.
#[derive(Clone, Debug)]
pub struct Channel {
    pub gate: String,
    pub active: String,
}

/// The touch test that an extraction goes by: the source's, or that and the same with x and y exchanged.
#[derive(Clone, Copy, Debug, PartialEq, Eq)]
pub enum Contact {
    Source,
    Full,
}

/// A job, with all that it is asked about.
#[derive(Clone, Debug)]
pub enum Job {
    Cell(f64),
    Area(Ring),
    Box(Ring),
    Overlap(f64, Ring, Ring),
    Intervals(f64, Ring),
    Bands(Ring, Ring),
    Minus(Ring, Ring),
    Meet(Ring, Ring),
    Rects(Vec<Rect>),
    Touch(Ring, Ring),
    Full(Ring, Ring),
    Inside(Point, Ring),
    Marker(String),
    Joins(Vec<Join>),
    Extract(Contact, Layout),
    Channel(Channel, Layout),
    Cut(Channel, Layout),
    CutExtract(Contact, Channel, Layout),
}
