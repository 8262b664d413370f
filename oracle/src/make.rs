//! Jobs by lot, a maker for each kind. A job over a bound of document 01 is dropped and another drawn.

use crate::answer::{self, CELL};
use crate::job::{Channel, Contact, Job, Join, Layout, Ring, MEMBERS};
use crate::layouts;
use crate::pairs;
use crate::random::Random;
use crate::shapes::{self, Sheet};
use openrdson_core::geometry::Point;
use openrdson_core::geomops::{polygon_intersection_rects, polygon_minus_polygon, Rect};

/// What `make` can be asked for: the kinds of jobs, and larger or wilder ones printed under a kind's name.
pub const KINDS: [&str; 24] = [
    "cell",
    "area",
    "box",
    "boxany",
    "overlap",
    "intervals",
    "bands",
    "minus",
    "meet",
    "rects",
    "touch",
    "full",
    "inside",
    "marker",
    "joins",
    "joins2000",
    "extract",
    "extract512",
    "channel",
    "channel512",
    "cut",
    "cut512",
    "cutextract",
    "cutextract512",
];

/// The most polygons of a small layout and of a large one, which is also the bound of a cut layout.
const SMALL: usize = 64;
const LARGE: usize = 512;

/// Bounds of results: connections, points of a cut layout, rectangles of one active, rectangles of all channels.
const CONNECTIONS: usize = 2048;
const CUT_POINTS: usize = 4096;
const ACTIVE_RECTS: usize = 512;
const CHANNEL_RECTS: usize = 1024;

/// The words that markers have.
const WORDS: [&str; 5] = ["seed_", "_prop", "marker", "BLOCK_", "drawing"];

/// The job of a kind with that number. It depends on these three words alone.
pub fn make(seed: u64, kind: &str, number: u64) -> Job {
    let mut random = Random::new(seed, kind, number);
    loop {
        let job = draw(&mut random, kind);
        if fits(&job) {
            return job;
        }
    }
}

/// A job of the kind, within bounds or not.
fn draw(random: &mut Random, kind: &str) -> Job {
    match kind {
        "cell" => Job::Cell(any_coordinate(random)),
        "area" => Job::Area(shapes::any_ring(random)),
        "box" => Job::Box(shapes::any_ring(random)),
        "boxany" => Job::Box(any_floats(random)),
        "overlap" => {
            let eps = *random.pick(&[0.0, answer::TOUCH]);
            let (a, b) = pairs::any_pair(random);
            Job::Overlap(eps, a, b)
        }
        "intervals" => intervals(random),
        "bands" => {
            let (a, b) = if random.once_in(2) {
                pairs::close_heights(random)
            } else {
                pairs::any_pair(random)
            };
            Job::Bands(a, b)
        }
        "minus" => two(random, Job::Minus),
        "meet" => meet(random),
        "rects" => rects(random),
        "touch" => two(random, Job::Touch),
        "full" => two(random, Job::Full),
        "inside" => {
            let ring = shapes::any_ring(random);
            Job::Inside(layouts::about(random, &ring), ring)
        }
        "marker" => Job::Marker(marker(random)),
        "joins" => Job::Joins(joins(random)),
        "joins2000" => Job::Joins((0..2000).map(|_| join(random, 0, MEMBERS)).collect()),
        _ => draw_layout(random, kind),
    }
}

/// The same for kinds that have a layout.
fn draw_layout(random: &mut Random, kind: &str) -> Job {
    let most = if kind.ends_with("512") { LARGE } else { SMALL };
    let contact = *random.pick(&[Contact::Source, Contact::Full]);
    if kind.starts_with("extract") {
        return Job::Extract(contact, layouts::for_extraction(random, most));
    }
    let (mut channel, mut layout) = layouts::for_cut(random, most);
    if answer::regions(&channel, &layout).is_empty() && !random.once_in(3) {
        (channel, layout) = layouts::for_cut(random, most);
    }
    match kind {
        "channel" | "channel512" => Job::Channel(channel, layout),
        "cut" | "cut512" => Job::Cut(channel, layout),
        _ => Job::CutExtract(contact, channel, layout),
    }
}

/// Whether the answer is within the bounds of document 01; the source has none.
fn fits(job: &Job) -> bool {
    match job {
        Job::Minus(a, b) => polygon_minus_polygon(a, b).len() <= ACTIVE_RECTS,
        Job::Meet(a, b) => polygon_intersection_rects(a, b).len() <= CHANNEL_RECTS,
        Job::Extract(contact, layout) => extraction_fits(*contact, layout),
        Job::Channel(channel, layout) => answer::regions(channel, layout).len() <= CHANNEL_RECTS,
        Job::Cut(channel, layout) => cut_fits(channel, layout),
        Job::CutExtract(contact, channel, layout) => {
            cut_fits(channel, layout)
                && extraction_fits(*contact, &answer::cut_layout(channel, layout))
        }
        _ => true,
    }
}

/// Whether an extraction keeps to the bound of connections, and its grid to what the source is asked for.
fn extraction_fits(contact: Contact, layout: &Layout) -> bool {
    match answer::extract(contact, layout) {
        Ok(nets) => nets.connections.len() <= CONNECTIONS,
        Err(_) => false,
    }
}

/// Whether a cut keeps to the bounds of polygons, points and rectangles.
fn cut_fits(channel: &Channel, layout: &Layout) -> bool {
    let pieces = answer::cut(channel, layout);
    let points: usize = pieces.iter().map(|piece| piece.ring.len()).sum();
    pieces.len() <= LARGE
        && points <= CUT_POINTS
        && answer::most_rects(channel, layout) <= ACTIVE_RECTS
}

/// A job on two rings.
fn two(random: &mut Random, job: fn(Ring, Ring) -> Job) -> Job {
    let (a, b) = pairs::any_pair(random);
    job(a, b)
}

/// Two rings, as a rule with something in common.
fn meet(random: &mut Random) -> Job {
    let (mut a, mut b) = pairs::any_pair(random);
    if polygon_intersection_rects(&a, &b).is_empty() && random.once_in(2) {
        let again = pairs::any_pair(random);
        a = again.0;
        b = again.1;
    }
    Job::Meet(a, b)
}

/// Any f64: coordinates, borders of cells, zeros, the ends of the range of whole numbers, infinities, no numbers.
fn any_coordinate(random: &mut Random) -> f64 {
    let sign = *random.pick(&[1.0, -1.0]);
    match random.below(16) {
        0..=3 => sign * random.part() * shapes::FARTHEST,
        4..=6 => shapes::border(random, 0) + random.between(-31_250, 31_250) as f64 * CELL,
        7 => {
            let k = random.between(-31_250, 31_250);
            shapes::border(random, k)
        }
        8 => {
            let k = random.between(-31_250, 31_250);
            shapes::beside(random, k as f64 * CELL)
        }
        9 => {
            sign * *random.pick(&[
                0.0,
                f64::from_bits(1),
                f64::MIN_POSITIVE,
                4e-6,
                8e-6,
                1e-300,
            ])
        }
        10 => sign * f64::from_bits(random.below(1 << 52)),
        11 => sign * *random.pick(&[f64::INFINITY, f64::NAN, f64::MAX, 1e300]),
        12 => {
            let k = 9_007_199_254_740_992 + random.between(-4, 4);
            shapes::beside(random, sign * (k as f64 * CELL))
        }
        13 => {
            let near = *random.pick(&[9_223_372_036_854_775_808.0, 9_223_372_036_854_774_784.0]);
            shapes::beside(random, sign * (near * CELL))
        }
        14 => f64::from_bits(random.draw()),
        _ => (random.draw() >> random.below(64)) as f64 * sign * CELL,
    }
}

/// Points with coordinates of every sort.
fn any_floats(random: &mut Random) -> Ring {
    (0..random.count(0, 6))
        .map(|_| Point::new(any_coordinate(random), any_coordinate(random)))
        .collect()
}

/// A ring and a height: at a corner, between two, next to one, anywhere.
fn intervals(random: &mut Random) -> Job {
    let ring = shapes::any_ring(random);
    let p = layouts::about(random, &ring);
    let y = match ring.len() {
        0 => p.y,
        _ => {
            let (a, b) = (random.pick(&ring).y, random.pick(&ring).y);
            match random.below(6) {
                0 => a,
                1 => shapes::beside(random, a),
                2 | 3 => 0.5 * (a + b),
                _ => p.y,
            }
        }
    };
    Job::Intervals(shapes::bounded(y), ring)
}

/// Rectangles, some of them inside out. Never none: the sign of an empty sum depends on the compiler.
fn rects(random: &mut Random) -> Job {
    let sheet = Sheet::any(random, 16);
    let count = random.count(1, 12);
    let one = |random: &mut Random| {
        let (a, b) = (
            shapes::slanted_ring(random, &sheet, 16)[0],
            shapes::slanted_ring(random, &sheet, 16)[1],
        );
        let (low, high) = if a.x <= b.x || random.once_in(3) {
            (a, b)
        } else {
            (b, a)
        };
        Rect {
            x0: low.x,
            y0: low.y.min(high.y),
            x1: high.x,
            y1: low.y.max(high.y),
        }
    };
    Job::Rects((0..count).map(|_| one(random)).collect())
}

/// A name with a marker's word in it, at the front or elsewhere, whole, cut short or in capitals; or with none.
fn marker(random: &mut Random) -> String {
    let mut word = random.pick(&WORDS).to_string();
    match random.below(6) {
        0 => word.truncate(word.len() - 1),
        1 => word = word.to_uppercase(),
        2 => word.insert(random.count(1, 4), 'x'),
        _ => (),
    }
    let front = if random.once_in(2) {
        0
    } else {
        random.count(0, 12)
    };
    let behind = random.count(0, 12);
    let mut name = bytes(random, front);
    name.push_str(&word);
    if random.once_in(6) {
        let second = *random.pick(&WORDS);
        name.push_str(second);
    }
    name.push_str(&bytes(random, behind));
    name.truncate(32);
    name
}

/// Bytes that a name may have, many of them from the markers' words.
fn bytes(random: &mut Random, count: usize) -> String {
    (0..count)
        .map(|_| match random.below(3) {
            0 => char::from(random.between(0x21, 0x7e) as u8),
            _ => *random.pick(&[
                's', 'e', 'd', '_', 'p', 'r', 'o', 'm', 'a', 'k', 'B', 'L', 'O', 'C', 'K', 'w',
                'i', 'n', 'g',
            ]),
        })
        .collect()
}

/// A lookup or, twice as often, a union of some of the members behind the first.
fn join(random: &mut Random, first: usize, members: usize) -> Join {
    let (a, b) = (first + random.count(0, members - 1), first + random.count(0, members - 1));
    if random.once_in(3) {
        Join::Find(a)
    } else {
        Join::Union(a, b)
    }
}

/// Joins and finds: by lot over few or all members, in a chain, or pairwise so that ranks grow.
fn joins(random: &mut Random) -> Vec<Join> {
    let members = *random.pick(&[4, 16, 64, MEMBERS, MEMBERS]);
    let first = random.count(0, MEMBERS - members);
    let member = |random: &mut Random| first + random.count(0, members - 1);
    let mut joins = Vec::new();
    match random.below(4) {
        0 => {
            let mut stride = 1;
            while stride < members {
                for a in (0..members - stride).step_by(2 * stride) {
                    let (a, b) = (first + a, first + a + stride);
                    joins.push(if random.once_in(2) {
                        Join::Union(a, b)
                    } else {
                        Join::Union(b, a)
                    });
                }
                stride *= 2;
            }
        }
        1 => joins.extend((1..members).map(|i| Join::Union(first + i - 1, first + i))),
        _ => (),
    }
    for _ in 0..random.count(0, 2 * members.min(100)) {
        joins.push(join(random, first, members));
    }
    joins.extend((0..random.count(0, 8)).map(|_| Join::Find(member(random))));
    joins
}
