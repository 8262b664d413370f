//! Rings by lot: boxes on a grid, combs, slanted and crossing rings, keyholes, runs of heights, short rings.
//!
//! Coordinates stay within 0.125 m of zero and are never negative zero. Only + - * / and whole numbers are used, so a
//! seed gives the same rings on every machine.

use crate::answer::CELL;
use crate::job::Ring;
use crate::random::Random;
use openrdson_core::geometry::Point;

/// The farthest coordinate, in metres and in nanometres.
pub const FARTHEST: f64 = 0.125;
const FARTHEST_NM: i64 = 125_000_000;

/// The most points of a ring.
const POINTS: usize = 256;

/// Distances about the room of the touch test, in metres.
const GAPS: [f64; 10] = [
    0.0, 0.0, 9e-13, 9e-13, 1e-12, 1e-12, 1.1e-12, -9e-13, -1e-12, 1e-15,
];

/// Distances about the one at which heights fall together.
const SLIVERS: [f64; 6] = [0.4e-15, 0.6e-15, 0.9e-15, 1e-15, 1.1e-15, 2e-15];

/// A distance about the room of the touch test.
pub fn gap(random: &mut Random) -> f64 {
    *random.pick(&GAPS)
}

/// A distance about the one at which heights fall together.
pub fn sliver(random: &mut Random) -> f64 {
    *random.pick(&SLIVERS)
}

/// The coordinate within bounds, zero without its sign.
pub fn bounded(x: f64) -> f64 {
    if x > FARTHEST {
        FARTHEST
    } else if x < -FARTHEST {
        -FARTHEST
    } else {
        x + 0.0
    }
}

/// The next f64 above a finite one.
pub fn next_above(x: f64) -> f64 {
    if x == 0.0 {
        f64::from_bits(1)
    } else if x > 0.0 {
        f64::from_bits(x.to_bits() + 1)
    } else {
        f64::from_bits(x.to_bits() - 1)
    }
}

/// The next f64 below a finite one.
pub fn next_below(x: f64) -> f64 {
    -next_above(-x)
}

/// The number itself, or the f64 next to it on either side.
pub fn beside(random: &mut Random, x: f64) -> f64 {
    match random.below(4) {
        0 => next_above(x),
        1 => next_below(x),
        _ => x,
    }
}

/// Where a drawing lies and how wide its steps are. Equal steps are equal numbers, so edges and corners coincide.
#[derive(Clone, Copy)]
pub struct Sheet {
    left: i64,
    low: i64,
    step: i64,
}

impl Sheet {
    /// A sheet with room for `side` steps each way, under a millimetre in all; at zero, at a border of the bounds or
    /// anywhere.
    pub fn any(random: &mut Random, side: i64) -> Sheet {
        let step = *random.pick(&[1, 5, 100, 250, 1000, 1000, 4000]);
        let step = if side > 200 { step.min(1000) } else { step };
        let left = Sheet::place(random, side, step);
        let low = Sheet::place(random, side, step);
        Sheet { left, low, step }
    }

    /// Where a sheet begins, in nanometres.
    fn place(random: &mut Random, side: i64, step: i64) -> i64 {
        match random.below(10) {
            0 => FARTHEST_NM - side * step,
            1 => -FARTHEST_NM,
            2 => random.between(-FARTHEST_NM, FARTHEST_NM - side * step),
            3 => 4000 * random.between(-30_000, 30_000),
            4..=6 => 0,
            _ => -step * random.between(0, side),
        }
    }

    /// The sheet moved, as a rule not at all, else so that the corner of two steps is at zero, where gaps are exact.
    pub fn at_zero(self, random: &mut Random, k: i64, m: i64) -> Sheet {
        let (left, low) = (-k * self.step, -m * self.step);
        if random.once_in(3) {
            Sheet { left, low, ..self }
        } else {
            self
        }
    }

    /// The x of a step.
    pub fn x(&self, k: i64) -> f64 {
        bounded((self.left + k * self.step) as f64 / 1e9)
    }

    /// The y of a step.
    pub fn y(&self, k: i64) -> f64 {
        bounded((self.low + k * self.step) as f64 / 1e9)
    }

    /// The corner of two steps.
    pub fn at(&self, k: i64, m: i64) -> Point {
        Point::new(self.x(k), self.y(m))
    }

    /// The box between two corners, `w` and `h` steps wide and high.
    pub fn rect(&self, k: i64, m: i64, w: i64, h: i64) -> Ring {
        rect(self.x(k), self.y(m), self.x(k + w), self.y(m + h))
    }
}

/// A box of four points.
pub fn rect(x0: f64, y0: f64, x1: f64, y1: f64) -> Ring {
    let corners = [(x0, y0), (x1, y0), (x1, y1), (x0, y1)];
    (corners.iter())
        .map(|&(x, y)| Point::new(bounded(x), bounded(y)))
        .collect()
}

/// The ring with x and y exchanged.
pub fn exchanged(ring: &[Point]) -> Ring {
    ring.iter().map(|p| Point::new(p.y, p.x)).collect()
}

/// The ring mirrored left to right.
pub fn mirrored(ring: &[Point]) -> Ring {
    ring.iter()
        .map(|p| Point::new(bounded(-p.x), p.y))
        .collect()
}

/// The ring upside down.
pub fn overturned(ring: &[Point]) -> Ring {
    ring.iter()
        .map(|p| Point::new(p.x, bounded(-p.y)))
        .collect()
}

/// The same outline written another way: other start, other direction, a point repeated, the first point at the end.
pub fn dressed(random: &mut Random, mut ring: Ring) -> Ring {
    if ring.is_empty() {
        return ring;
    }
    if random.once_in(3) {
        ring.reverse();
    }
    if random.once_in(2) {
        let start = random.count(0, ring.len() - 1);
        ring.rotate_left(start);
    }
    if random.once_in(8) && ring.len() < POINTS {
        let again = random.count(0, ring.len() - 1);
        ring.insert(again, ring[again]);
    }
    if random.once_in(5) && ring.len() < POINTS {
        ring.push(ring[0]);
    }
    ring
}

/// A box on the sheet, up to `most` steps wide and high, within `side` steps.
pub fn grid_box(random: &mut Random, sheet: &Sheet, side: i64, most: i64) -> Ring {
    let (w, h) = (random.between(1, most), random.between(1, most));
    let (k, m) = (random.between(0, side - w), random.between(0, side - h));
    let ring = sheet.rect(k, m, w, h);
    dressed(random, ring)
}

/// Points by lot on the sheet: slanted, as a rule crossing itself, many on one height.
pub fn crossing_ring(random: &mut Random, sheet: &Sheet, side: i64, points: usize) -> Ring {
    (0..points)
        .map(|_| sheet.at(random.between(0, side), random.between(0, side)))
        .collect()
}

/// A ring of three to six points by lot, on the sheet or between its steps.
pub fn slanted_ring(random: &mut Random, sheet: &Sheet, side: i64) -> Ring {
    let points = random.count(3, 6);
    if random.once_in(2) {
        return crossing_ring(random, sheet, side, points);
    }
    let (width, height) = (sheet.x(side) - sheet.x(0), sheet.y(side) - sheet.y(0));
    (0..points)
        .map(|_| {
            let x = bounded(sheet.x(0) + random.part() * width);
            let y = bounded(sheet.y(0) + random.part() * height);
            Point::new(x, y)
        })
        .collect()
}

/// A box with its corners cut off aslant, or a diamond.
pub fn chamfered_ring(random: &mut Random, sheet: &Sheet, side: i64) -> Ring {
    let cut = random.between(1, 2);
    let w = random.between(2 * cut, side.max(2 * cut));
    let h = random.between(2 * cut, side.max(2 * cut));
    let corners = [
        (cut, 0),
        (w - cut, 0),
        (w, cut),
        (w, h - cut),
        (w - cut, h),
        (cut, h),
        (0, h - cut),
        (0, cut),
    ];
    let ring = corners.iter().map(|&(k, m)| sheet.at(k, m)).collect();
    dressed(random, ring)
}

/// One tooth of a comb: from left to right, ending at its tip.
pub struct Tooth {
    pub left: f64,
    pub right: f64,
    pub tip: f64,
}

/// A comb: the bar lies between `back` and `base`, the teeth stand on `base`. Four points a tooth.
pub fn comb(back: f64, base: f64, teeth: &[Tooth]) -> Ring {
    let mut ring = Ring::new();
    if let (Some(first), Some(last)) = (teeth.first(), teeth.last()) {
        ring.push(Point::new(first.left, back));
        ring.push(Point::new(last.right, back));
    }
    for (i, tooth) in teeth.iter().enumerate().rev() {
        ring.push(Point::new(tooth.right, tooth.tip));
        ring.push(Point::new(tooth.left, tooth.tip));
        if i > 0 {
            ring.push(Point::new(tooth.left, base));
            ring.push(Point::new(teeth[i - 1].right, base));
        }
    }
    ring
}

/// How many teeth: as a rule few, now and then as many as a ring has room for.
pub fn tooth_count(random: &mut Random) -> usize {
    match random.below(24) {
        0 => 63,
        1..=3 => random.count(9, 40),
        _ => random.count(1, 8),
    }
}

/// A comb of one-step teeth four steps apart; the tips are on one height or on several.
pub fn comb_on(random: &mut Random, sheet: &Sheet, teeth: usize) -> Ring {
    let uneven = random.once_in(3);
    let teeth: Vec<Tooth> = (0..teeth as i64)
        .map(|i| Tooth {
            left: sheet.x(4 * i),
            right: sheet.x(4 * i + 1),
            tip: sheet.y(if uneven { random.between(2, 7) } else { 5 }),
        })
        .collect();
    let ring = comb(sheet.y(0), sheet.y(1), &teeth);
    dressed(random, ring)
}

/// A box with a hole, joined to its outline by a slit that is level or slanted.
pub fn keyhole(random: &mut Random, sheet: &Sheet, side: i64) -> Ring {
    let (k, m) = (random.between(1, side - 2), random.between(1, side - 2));
    let (w, h) = (
        random.between(1, side - 1 - k),
        random.between(1, side - 1 - m),
    );
    let entry = if random.once_in(2) { m } else { 0 };
    let steps = [
        (0, entry),
        (k, m),
        (k, m + h),
        (k + w, m + h),
        (k + w, m),
        (k, m),
        (0, entry),
        (0, 0),
        (side, 0),
        (side, side),
        (0, side),
    ];
    let ring = steps.iter().map(|&(k, m)| sheet.at(k, m)).collect();
    dressed(random, ring)
}

/// A ring whose right side climbs in a run of heights, each `rise` above the last.
pub fn stairs(random: &mut Random, sheet: &Sheet, rise: f64) -> Ring {
    let points = random.count(3, 12);
    let low = sheet.y(*random.pick(&[0, 0, 1, 2]));
    let mut ring = Ring::new();
    for i in 0..points {
        let x = sheet.x(random.between(2, 4));
        ring.push(Point::new(x, bounded(low + i as f64 * rise)));
    }
    let high = ring[points - 1].y;
    ring.push(Point::new(sheet.x(1), high));
    ring.push(Point::new(sheet.x(1), low));
    dressed(random, ring)
}

/// A box with corners on borders of cells, or next to them.
pub fn cell_box(random: &mut Random, k: i64, m: i64, w: i64, h: i64) -> Ring {
    let (x0, y0) = (border(random, k), border(random, m));
    let (x1, y1) = (border(random, k + w), border(random, m + h));
    let ring = rect(x0, y0, x1, y1);
    dressed(random, ring)
}

/// The border of a cell, by multiplication or by division; the f64 next to it; or one a small gap away.
pub fn border(random: &mut Random, k: i64) -> f64 {
    let x = if random.once_in(2) {
        k as f64 * CELL
    } else {
        (4000 * k) as f64 / 1e9
    };
    let x = match random.below(6) {
        0 => x + gap(random),
        1 => x - gap(random),
        2 | 3 => beside(random, x),
        _ => x,
    };
    bounded(x)
}

/// No, one or two points, or more that enclose nothing.
pub fn short_ring(random: &mut Random, sheet: &Sheet, side: i64) -> Ring {
    match random.below(6) {
        0 => Ring::new(),
        1 => crossing_ring(random, sheet, side, 1),
        2 | 3 => crossing_ring(random, sheet, side, 2),
        4 => vec![sheet.at(random.between(0, side), random.between(0, side)); random.count(3, 5)],
        _ => {
            let m = random.between(0, side);
            (0..4)
                .map(|_| sheet.at(random.between(0, side), m))
                .collect()
        }
    }
}

/// A ring of any shape.
pub fn any_ring(random: &mut Random) -> Ring {
    let sheet = Sheet::any(random, 16);
    match random.below(16) {
        0..=2 => grid_box(random, &sheet, 8, 6),
        3 | 4 => slanted_ring(random, &sheet, 8),
        5 => {
            let points = random.count(4, 24);
            crossing_ring(random, &sheet, 8, points)
        }
        6 => chamfered_ring(random, &sheet, 8),
        7 | 8 => {
            let teeth = tooth_count(random);
            let sheet = Sheet::any(random, 4 * teeth as i64);
            comb_on(random, &sheet, teeth)
        }
        9 | 10 => keyhole(random, &sheet, 8),
        11 => {
            let sheet = sheet.at_zero(random, 0, 0);
            let rise = sliver(random);
            stairs(random, &sheet, rise)
        }
        12 => {
            let (k, m) = (random.between(-9, 9), random.between(-9, 9));
            let (w, h) = (random.between(0, 3), random.between(0, 3));
            cell_box(random, k, m, w, h)
        }
        13 => short_ring(random, &sheet, 8),
        14 if random.once_in(8) => {
            let points = random.count(200, POINTS);
            crossing_ring(random, &sheet, 16, points)
        }
        _ => {
            let ring = grid_box(random, &sheet, 8, 6);
            let points = ring.iter().map(|p| jittered(random, *p)).collect();
            points
        }
    }
}

/// The point, each coordinate left as it is or moved by less than the tests tell apart, or little more.
pub fn jittered(random: &mut Random, p: Point) -> Point {
    Point::new(jitter(random, p.x), jitter(random, p.y))
}

/// The coordinate, left as it is or moved a little.
fn jitter(random: &mut Random, x: f64) -> f64 {
    bounded(match random.below(6) {
        0 => x + sliver(random),
        1 => x - gap(random),
        2 => beside(random, x),
        _ => x,
    })
}
