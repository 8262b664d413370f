//! Lines on their way out: words parted by one space, floats as the 16 hex digits of their bits.

use crate::job::{Channel, Contact, Job, Join, Layout};
use openrdson_core::geometry::Point;
use openrdson_core::geomops::Rect;
use std::fmt;

/// A line that grows word by word: a job's or an answer's.
pub struct Line(pub String);

impl Line {
    /// A line with its first word.
    pub fn of(word: impl fmt::Display) -> Line {
        Line(word.to_string())
    }

    /// The line with one more word.
    pub fn word(mut self, word: impl fmt::Display) -> Line {
        use fmt::Write;
        if !self.0.is_empty() {
            self.0.push(' ');
        }
        let _ = write!(self.0, "{}", word);
        self
    }

    /// The line with a float.
    pub fn float(self, x: f64) -> Line {
        self.word(format_args!("{:016x}", x.to_bits()))
    }

    /// The line with a number of points and each point's x and y.
    pub fn ring(self, ring: &[Point]) -> Line {
        self.list(ring, |line, p| line.float(p.x).float(p.y))
    }

    /// The line with a number of rectangles and each one's x0, y0, x1, y1.
    pub fn rects(self, rects: &[Rect]) -> Line {
        self.list(rects, |line, r| {
            line.float(r.x0).float(r.y0).float(r.x1).float(r.y1)
        })
    }

    /// The line with a list: how many, then each.
    pub fn list<T>(self, items: &[T], one: impl Fn(Line, &T) -> Line) -> Line {
        let line = self.word(items.len());
        items.iter().fold(line, one)
    }

    /// The line with operations on the table of joins.
    fn joins(self, joins: &[Join]) -> Line {
        self.list(joins, |line, join| match join {
            Join::Union(a, b) => line.word("u").word(a).word(b),
            Join::Find(a) => line.word("f").word(a),
        })
    }

    /// The line with 0 for the source's touch test, 1 for full contact.
    fn contact(self, contact: Contact) -> Line {
        self.word(contact as u8)
    }

    /// The line with the names of gate and active.
    fn channel(self, channel: &Channel) -> Line {
        self.word(&channel.gate).word(&channel.active)
    }

    /// The line with the layer table.
    fn layers(self, layout: &Layout) -> Line {
        self.word("L").list(&layout.layers, |line, (number, name)| {
            line.word(number).word(name)
        })
    }

    /// The line with each polygon's layer and ring.
    fn polygons(self, layout: &Layout) -> Line {
        self.word("P")
            .list(&layout.polygons, |line, (layer, ring)| {
                line.word(layer).ring(ring)
            })
    }

    /// The line with what the cut needs of a layout.
    fn drawing(self, layout: &Layout) -> Line {
        self.layers(layout).polygons(layout)
    }

    /// The line with a whole layout: L, C, V, S, P, O.
    fn layout(self, layout: &Layout) -> Line {
        let pair =
            |line: Line, (logical, physical): &(String, String)| line.word(logical).word(physical);
        self.layers(layout)
            .word("C")
            .list(&layout.conducting, pair)
            .word("V")
            .list(&layout.via, pair)
            .word("S")
            .list(&layout.stack, |line, via| {
                let or_absent =
                    |name: &Option<String>| name.clone().unwrap_or_else(|| "-".to_string());
                line.word(&via.name)
                    .word(or_absent(&via.bottom))
                    .word(or_absent(&via.top))
            })
            .polygons(layout)
            .word("O")
            .list(&layout.ports, |line, port| {
                line.word(&port.name)
                    .word(&port.layer)
                    .float(port.at.x)
                    .float(port.at.y)
            })
    }
}

impl fmt::Display for Job {
    /// The job's line, without its end.
    fn fmt(&self, f: &mut fmt::Formatter<'_>) -> fmt::Result {
        let line = match self {
            Job::Cell(x) => Line::of("cell").float(*x),
            Job::Area(ring) => Line::of("area").ring(ring),
            Job::Box(ring) => Line::of("box").ring(ring),
            Job::Overlap(eps, a, b) => Line::of("overlap").float(*eps).ring(a).ring(b),
            Job::Intervals(y, ring) => Line::of("intervals").float(*y).ring(ring),
            Job::Bands(a, b) => Line::of("bands").ring(a).ring(b),
            Job::Minus(a, b) => Line::of("minus").ring(a).ring(b),
            Job::Meet(a, b) => Line::of("meet").ring(a).ring(b),
            Job::Rects(rects) => Line::of("rects").rects(rects),
            Job::Touch(a, b) => Line::of("touch").ring(a).ring(b),
            Job::Full(a, b) => Line::of("full").ring(a).ring(b),
            Job::Inside(p, ring) => Line::of("inside").float(p.x).float(p.y).ring(ring),
            Job::Marker(name) => Line::of("marker").word(name),
            Job::Joins(joins) => Line::of("joins").joins(joins),
            Job::Extract(contact, layout) => Line::of("extract").contact(*contact).layout(layout),
            Job::Channel(channel, layout) => Line::of("channel").channel(channel).drawing(layout),
            Job::Cut(channel, layout) => Line::of("cut").channel(channel).drawing(layout),
            Job::CutExtract(contact, channel, layout) => Line::of("cutextract")
                .contact(*contact)
                .channel(channel)
                .layout(layout),
        };
        f.write_str(&line.0)
    }
}
