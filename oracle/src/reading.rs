//! Lines on their way in: the job that a line says, or why it is none.

use crate::job::{Channel, Contact, Job, Join, Layout, Port, Ring, Via, MEMBERS};
use openrdson_core::geometry::Point;
use openrdson_core::geomops::Rect;
use std::fmt;

impl Job {
    /// The job that a line (without its end) says, or why it is none.
    pub fn read(line: &str) -> Result<Job, String> {
        let mut words = Words::of(line);
        let job = match words.word()? {
            "cell" => Job::Cell(words.float()?),
            "area" => Job::Area(words.ring()?),
            "box" => Job::Box(words.ring()?),
            "overlap" => Job::Overlap(words.float()?, words.ring()?, words.ring()?),
            "intervals" => Job::Intervals(words.float()?, words.ring()?),
            "bands" => Job::Bands(words.ring()?, words.ring()?),
            "minus" => Job::Minus(words.ring()?, words.ring()?),
            "meet" => Job::Meet(words.ring()?, words.ring()?),
            "rects" => Job::Rects(words.list(Words::rect)?),
            "touch" => Job::Touch(words.ring()?, words.ring()?),
            "full" => Job::Full(words.ring()?, words.ring()?),
            "inside" => Job::Inside(words.point()?, words.ring()?),
            "marker" => Job::Marker(words.text()?),
            "joins" => Job::Joins(words.list(Words::join)?),
            "extract" => Job::Extract(words.contact()?, words.layout()?),
            "channel" => Job::Channel(words.channel()?, words.drawing()?),
            "cut" => Job::Cut(words.channel()?, words.drawing()?),
            "cutextract" => Job::CutExtract(words.contact()?, words.channel()?, words.layout()?),
            other => return Err(format!("no kind of job: {}", other)),
        };
        words.end()?;
        Ok(job)
    }
}

/// What is left of a line's words. Each function takes one thing from its front, or says why it is not there.
struct Words<'a>(std::str::Split<'a, char>);

impl<'a> Words<'a> {
    /// All words of a line.
    fn of(line: &'a str) -> Words<'a> {
        Words(line.split(' '))
    }

    /// The next word.
    fn word(&mut self) -> Result<&'a str, String> {
        match self.0.next() {
            None => Err("the line ends early".to_string()),
            Some("") => Err("an empty word".to_string()),
            Some(word) => Ok(word),
        }
    }

    /// Refuses a line with words left.
    fn end(&mut self) -> Result<(), String> {
        match self.0.next() {
            None => Ok(()),
            Some(word) => Err(format!("a word too many: {}", word)),
        }
    }

    /// A whole number, as it prints: no plus, no needless zero.
    fn whole<T: std::str::FromStr + fmt::Display>(&mut self) -> Result<T, String> {
        let word = self.word()?;
        match word.parse::<T>() {
            Ok(number) if number.to_string() == word => Ok(number),
            _ => Err(format!("no whole number in range: {}", word)),
        }
    }

    /// A float, from its 16 hex digits.
    fn float(&mut self) -> Result<f64, String> {
        let word = self.word()?;
        let plain = |byte: u8| byte.is_ascii_digit() || (b'a'..=b'f').contains(&byte);
        if word.len() != 16 || !word.bytes().all(plain) {
            return Err(format!("no float of 16 hex digits: {}", word));
        }
        match u64::from_str_radix(word, 16) {
            Ok(bits) => Ok(f64::from_bits(bits)),
            Err(_) => Err(format!("no float of 16 hex digits: {}", word)),
        }
    }

    /// An x and a y.
    fn point(&mut self) -> Result<Point, String> {
        Ok(Point::new(self.float()?, self.float()?))
    }

    /// A number of points, then each.
    fn ring(&mut self) -> Result<Ring, String> {
        self.list(Words::point)
    }

    /// A rectangle: x0, y0, x1, y1.
    fn rect(&mut self) -> Result<Rect, String> {
        Ok(Rect {
            x0: self.float()?,
            y0: self.float()?,
            x1: self.float()?,
            y1: self.float()?,
        })
    }

    /// How many, then each.
    fn list<T>(&mut self, one: impl Fn(&mut Self) -> Result<T, String>) -> Result<Vec<T>, String> {
        let count: usize = self.whole()?;
        (0..count).map(|_| one(self)).collect()
    }

    /// A list behind its letter.
    fn table<T>(
        &mut self,
        letter: &str,
        one: impl Fn(&mut Self) -> Result<T, String>,
    ) -> Result<Vec<T>, String> {
        match self.word()? {
            word if word == letter => self.list(one),
            word => Err(format!("{} in the place of {}", word, letter)),
        }
    }

    /// Bytes from 0x21 to 0x7E.
    fn text(&mut self) -> Result<String, String> {
        let word = self.word()?;
        if word.bytes().all(|byte| byte.is_ascii_graphic()) {
            Ok(word.to_string())
        } else {
            Err(format!("a name has a byte outside 0x21 to 0x7E: {}", word))
        }
    }

    /// A name of a table: `-` is none.
    fn name(&mut self) -> Result<String, String> {
        match self.text()? {
            name if name == "-" => Err("- is no name".to_string()),
            name => Ok(name),
        }
    }

    /// A name of a table, or none for `-`.
    fn name_or_absent(&mut self) -> Result<Option<String>, String> {
        Ok(Some(self.text()?).filter(|name| name != "-"))
    }

    /// An operation on the table of joins.
    fn join(&mut self) -> Result<Join, String> {
        match self.word()? {
            "u" => Ok(Join::Union(self.member()?, self.member()?)),
            "f" => Ok(Join::Find(self.member()?)),
            word => Err(format!("{} in the place of u or f", word)),
        }
    }

    /// A member of that table.
    fn member(&mut self) -> Result<usize, String> {
        match self.whole()? {
            member if member < MEMBERS => Ok(member),
            member => Err(format!("no member of the table: {}", member)),
        }
    }

    /// 0 for the source's touch test, 1 for full contact.
    fn contact(&mut self) -> Result<Contact, String> {
        match self.word()? {
            "0" => Ok(Contact::Source),
            "1" => Ok(Contact::Full),
            word => Err(format!("{} in the place of 0 or 1", word)),
        }
    }

    /// The names of gate and active.
    fn channel(&mut self) -> Result<Channel, String> {
        Ok(Channel {
            gate: self.name()?,
            active: self.name()?,
        })
    }

    /// The layer table, each number once.
    fn layers(&mut self) -> Result<Vec<(i16, String)>, String> {
        let layers = self.table("L", |words| Ok((words.whole()?, words.name()?)))?;
        distinct(layers, "layer number")
    }

    /// The conducting or the via map, each logical name once.
    fn map(&mut self, letter: &str) -> Result<Vec<(String, String)>, String> {
        let map = self.table(letter, |words| Ok((words.name()?, words.name()?)))?;
        distinct(map, "logical name")
    }

    /// Each polygon's layer and ring.
    fn polygons(&mut self) -> Result<Vec<(i16, Ring)>, String> {
        self.table("P", |words| Ok((words.whole()?, words.ring()?)))
    }

    /// What the cut needs of a layout.
    fn drawing(&mut self) -> Result<Layout, String> {
        Ok(Layout {
            layers: self.layers()?,
            polygons: self.polygons()?,
            ..Layout::default()
        })
    }

    /// A whole layout.
    fn layout(&mut self) -> Result<Layout, String> {
        Ok(Layout {
            layers: self.layers()?,
            conducting: self.map("C")?,
            via: self.map("V")?,
            stack: self.table("S", |words| {
                Ok(Via {
                    name: words.name()?,
                    bottom: words.name_or_absent()?,
                    top: words.name_or_absent()?,
                })
            })?,
            polygons: self.polygons()?,
            ports: self.table("O", |words| {
                Ok(Port {
                    name: words.name()?,
                    layer: words.name()?,
                    at: words.point()?,
                })
            })?,
        })
    }
}

/// The records if no key stands twice: the source keeps them in maps, which would drop the earlier.
fn distinct<K: Ord + fmt::Display, V>(
    records: Vec<(K, V)>,
    what: &str,
) -> Result<Vec<(K, V)>, String> {
    let mut seen = std::collections::BTreeSet::new();
    match records.iter().find(|(key, _)| !seen.insert(key)) {
        Some((key, _)) => Err(format!("a {} stands twice: {}", what, key)),
        None => Ok(records),
    }
}
