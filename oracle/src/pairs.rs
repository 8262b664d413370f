//! Two rings by lot that stand to each other as layouts have it: side by side, apart by a hair, one in the other.

use crate::job::Ring;
use crate::random::Random;
use crate::shapes::{self, Sheet, Tooth};
use openrdson_core::geometry::Point;

type Pair = (Ring, Ring);

/// Two rings of any shapes, turned about and in any order.
pub fn any_pair(random: &mut Random) -> Pair {
    let pair = match random.below(24) {
        0..=3 => grid_boxes(random),
        4..=7 => near_boxes(random),
        8 | 9 => level_sliver(random),
        10 | 11 => stairs_and_box(random),
        12 => hair(random),
        13 | 14 => combs(random),
        15 | 16 => slanted(random),
        17 => shared_slant(random),
        18 => crossing(random),
        19 => hole_and_box(random),
        20 => nested(random),
        21 => cells(random),
        _ => odd_ones(random),
    };
    turned(random, pair)
}

/// Two rings with heights close to each other.
pub fn close_heights(random: &mut Random) -> Pair {
    let pair = match random.below(4) {
        0 => level_sliver(random),
        1 => stairs_and_box(random),
        2 => {
            let sheet = Sheet::any(random, 8).at_zero(random, 0, 0);
            let rise = shapes::sliver(random);
            (
                shapes::stairs(random, &sheet, rise),
                shapes::stairs(random, &sheet, rise),
            )
        }
        _ => {
            let sheet = Sheet::any(random, 8);
            let one = shapes::grid_box(random, &sheet, 4, 4);
            let other = one.iter().map(|p| shapes::jittered(random, *p)).collect();
            (one, other)
        }
    };
    turned(random, pair)
}

/// The pair dressed, mirrored, with x and y exchanged, or the other way round.
fn turned(random: &mut Random, (a, b): Pair) -> Pair {
    let mut pair = (shapes::dressed(random, a), shapes::dressed(random, b));
    if random.once_in(2) {
        pair = (shapes::mirrored(&pair.0), shapes::mirrored(&pair.1));
    }
    if random.once_in(2) {
        pair = (shapes::overturned(&pair.0), shapes::overturned(&pair.1));
    }
    if random.once_in(4) {
        pair = (shapes::exchanged(&pair.0), shapes::exchanged(&pair.1));
    }
    if random.once_in(2) {
        pair = (pair.1, pair.0);
    }
    pair
}

/// Two boxes on one grid; edges and corners coincide.
fn grid_boxes(random: &mut Random) -> Pair {
    let sheet = Sheet::any(random, 8);
    let side = random.between(4, 8);
    (
        shapes::grid_box(random, &sheet, side, 4),
        shapes::grid_box(random, &sheet, side, 4),
    )
}

/// Two boxes side by side or corner to corner, about the room of the touch test apart.
fn near_boxes(random: &mut Random) -> Pair {
    let sheet = Sheet::any(random, 8).at_zero(random, 2, 2);
    let (left, low, right, high) = (sheet.x(0), sheet.y(0), sheet.x(2), sheet.y(2));
    let (gap_x, gap_y) = (shapes::gap(random), shapes::gap(random));
    let start = shapes::beside(random, right + gap_x);
    let (y0, y1) = match random.below(6) {
        0 => (high + gap_y, sheet.y(4)),
        1 => (high, sheet.y(4)),
        2 => (sheet.y(1), sheet.y(3)),
        _ => (low, high),
    };
    let one = shapes::rect(left, low, right, high);
    (one, shapes::rect(start, y0, sheet.x(5), y1))
}

/// Two boxes that share no more than a sliver of their heights.
fn level_sliver(random: &mut Random) -> Pair {
    let sheet = Sheet::any(random, 8).at_zero(random, 0, 2);
    let height = shapes::sliver(random);
    let border = sheet.y(2);
    let one = shapes::rect(sheet.x(0), sheet.y(0), sheet.x(2), border + height);
    let other = shapes::rect(
        sheet.x(random.between(1, 3)),
        border,
        sheet.x(4),
        sheet.y(4),
    );
    (one, other)
}

/// A run of close heights, and a box that begins or ends within it.
fn stairs_and_box(random: &mut Random) -> Pair {
    let sheet = Sheet::any(random, 8).at_zero(random, 0, 0);
    let rise = shapes::sliver(random);
    let stairs = shapes::stairs(random, &sheet, rise);
    let height = random.pick(&stairs).y;
    let far = sheet.y(*random.pick(&[-2, 6]));
    let other = shapes::rect(sheet.x(random.between(1, 4)), height, sheet.x(6), far);
    (stairs, other)
}

/// A box, and one that covers all of it but a hair or no more than a hair.
fn hair(random: &mut Random) -> Pair {
    let sheet = Sheet::any(random, 8).at_zero(random, 0, 0);
    let one = sheet.rect(0, 0, 4, 4);
    let border = sheet.x(0) + shapes::sliver(random);
    let end = sheet.x(*random.pick(&[-2, 5]));
    (
        one,
        shapes::rect(border, sheet.y(-1), end, sheet.y(random.between(3, 5))),
    )
}

/// Two combs that reach into each other, a step apart or about the room of the touch test at one tooth.
fn combs(random: &mut Random) -> Pair {
    let teeth = shapes::tooth_count(random) as i64;
    let sheet = Sheet::any(random, 4 * teeth + 4);
    let tip_up = if random.once_in(4) {
        sheet.y(6)
    } else {
        sheet.y(5)
    };
    let near = random.between(0, 2 * teeth);
    let gap = shapes::gap(random);
    let up: Vec<Tooth> = (0..teeth)
        .map(|i| Tooth {
            left: sheet.x(4 * i),
            right: sheet.x(4 * i + 1),
            tip: tip_up,
        })
        .collect();
    let down: Vec<Tooth> = (0..teeth)
        .map(|i| Tooth {
            left: if i == near {
                shapes::bounded(sheet.x(4 * i + 1) + gap)
            } else {
                sheet.x(4 * i + 2)
            },
            right: sheet.x(4 * i + 3),
            tip: sheet.y(2),
        })
        .collect();
    (
        shapes::comb(sheet.y(0), sheet.y(1), &up),
        shapes::comb(sheet.y(7), sheet.y(6), &down),
    )
}

/// Two slanted rings over each other.
fn slanted(random: &mut Random) -> Pair {
    let sheet = Sheet::any(random, 8);
    (
        shapes::slanted_ring(random, &sheet, 6),
        shapes::slanted_ring(random, &sheet, 6),
    )
}

/// Two rings on either side of one slanted edge, or of two that run beside each other.
fn shared_slant(random: &mut Random) -> Pair {
    let sheet = Sheet::any(random, 8);
    let (k, m) = (random.between(1, 6), random.between(1, 6));
    let away = *random.pick(&[0, 0, 0, 1]);
    let corner = |x: i64, y: i64| sheet.at(x, y);
    let one = vec![corner(0, 0), corner(k, m), corner(0, m)];
    let other = [corner(away, 0), corner(k + away, m), corner(k + away, 0)];
    let apart = shapes::gap(random);
    let other = (other.iter())
        .map(|p| Point::new(shapes::bounded(p.x + apart), p.y))
        .collect();
    (one, other)
}

/// A ring that crosses itself, and a small one over a quarter of it.
fn crossing(random: &mut Random) -> Pair {
    let sheet = Sheet::any(random, 12);
    let points = random.count(4, 12);
    let one = shapes::crossing_ring(random, &sheet, 8, points);
    let shift = sheet.at(4, 4);
    let small = shapes::slanted_ring(random, &sheet, 4);
    let other = (small.iter())
        .map(|p| {
            Point::new(
                shapes::bounded(p.x + shift.x - sheet.x(0)),
                shapes::bounded(p.y + shift.y - sheet.y(0)),
            )
        })
        .collect();
    (one, other)
}

/// A box with a hole, and a box in the hole, at its edge or across it.
fn hole_and_box(random: &mut Random) -> Pair {
    let sheet = Sheet::any(random, 10);
    let outline = shapes::keyhole(random, &sheet, 9);
    (outline, shapes::grid_box(random, &sheet, 9, 3))
}

/// A box in a box, far inside, at its edge or as large.
fn nested(random: &mut Random) -> Pair {
    let sheet = Sheet::any(random, 12);
    let inner = shapes::grid_box(random, &sheet, 8, 8);
    (sheet.rect(0, 0, 8, 8), inner)
}

/// Two boxes with corners about the borders of a few cells.
fn cells(random: &mut Random) -> Pair {
    let one = |random: &mut Random| {
        let (k, m) = (random.between(-2, 1), random.between(-2, 1));
        let (w, h) = (random.between(1, 2), random.between(1, 2));
        shapes::cell_box(random, k, m, w, h)
    };
    (one(random), one(random))
}

/// A ring with itself, or a ring that encloses nothing with a box over it.
fn odd_ones(random: &mut Random) -> Pair {
    if random.once_in(3) {
        let ring = shapes::any_ring(random);
        return (ring.clone(), ring);
    }
    let sheet = Sheet::any(random, 8);
    let short = shapes::short_ring(random, &sheet, 6);
    (short, sheet.rect(0, 0, 6, 6))
}
