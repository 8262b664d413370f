//! Polygons by lot on the layers of a layout, in the patterns of real ones: grids, wells, rows, combs, channels.

use crate::job::{Layout, Ring};
use crate::random::Random;
use crate::shapes::{self, Sheet};
use crate::tables::{welds, Weld, FILLING, NUMBERS};

/// The most points of all polygons.
const POINTS: usize = 4096;

/// Draws polygons on the layers of a layout.
pub struct Pen {
    most: usize,
    /// Every drawn number with its logical name and whether it is a contact.
    layers: Vec<(i16, String, bool)>,
    welds: Vec<Weld>,
    polygons: Vec<(i16, Ring)>,
}

impl Pen {
    /// A pen for at most `most` polygons, as a rule fewer.
    pub fn of(random: &mut Random, layout: &Layout, most: usize) -> Pen {
        let contact = |name: &String| layout.via.iter().any(|(logical, _)| logical == name);
        let layers = (layout.layers.iter())
            .filter(|(number, _)| !FILLING.contains(number))
            .map(|(number, name)| (*number, name.clone(), contact(name)))
            .collect();
        let most = match random.below(8) {
            0 => random.count(0, 4),
            1 => most,
            _ => random.count(2, most),
        };
        Pen {
            most,
            layers,
            welds: welds(layout),
            polygons: Vec::new(),
        }
    }

    /// The layer numbers that carry a name.
    pub fn numbers_of(&self, name: &str) -> Vec<i16> {
        let named = self.layers.iter().filter(|(_, layer, _)| layer == name);
        named.map(|(number, _, _)| *number).collect()
    }

    /// A conductor's, a contact's or, now and then, an unnamed layer's number.
    fn layer(&self, random: &mut Random, contact: bool) -> i16 {
        let fitting: Vec<i16> = (self.layers.iter())
            .filter(|(_, _, is_contact)| *is_contact == contact)
            .map(|(number, _, _)| *number)
            .collect();
        if fitting.is_empty() || random.once_in(40) {
            *random.pick(&NUMBERS)
        } else {
            *random.pick(&fitting)
        }
    }

    /// Adds a polygon, unless there are enough.
    fn draw(&mut self, layer: i16, ring: Ring) {
        if self.polygons.len() < self.most {
            self.polygons.push((layer, ring));
        }
    }

    /// Whether there are enough polygons.
    fn is_full(&self) -> bool {
        self.polygons.len() >= self.most
    }

    /// The polygons, some of them once more on another layer, in any order, within the bound of points.
    pub fn polygons(mut self, random: &mut Random) -> Vec<(i16, Ring)> {
        for _ in 0..random.count(0, self.polygons.len().min(3)) {
            let ring = random.pick(&self.polygons).1.clone();
            let contact = random.once_in(6);
            let layer = self.layer(random, contact);
            let place = random.count(0, self.polygons.len() - 1);
            self.polygons[place] = (layer, ring);
        }
        if random.once_in(2) {
            random.shuffle(&mut self.polygons);
        }
        let mut points = 0;
        self.polygons.retain(|(_, ring)| {
            points += ring.len();
            points <= POINTS
        });
        self.polygons
    }

    /// Boxes on a grid, contacts a step wide; edges, corners and areas coincide.
    pub fn grid(&mut self, random: &mut Random) {
        let side = side_for(self.most) * random.between(1, 3);
        let sheet = Sheet::any(random, side);
        while !self.is_full() {
            let contact = random.once_in(4);
            let layer = self.layer(random, contact);
            let most = if contact { 1 } else { 3 };
            let ring = shapes::grid_box(random, &sheet, side, most);
            self.draw(layer, ring);
        }
    }

    /// Boxes with corners on borders of cells or next to them.
    pub fn cells(&mut self, random: &mut Random) {
        let side = side_for(self.most);
        let far = random.between(-15_000, 15_000);
        let (left, low) = (
            *random.pick(&[0, 0, -side, far]),
            *random.pick(&[0, 0, -side, far]),
        );
        while !self.is_full() {
            let contact = random.once_in(6);
            let layer = self.layer(random, contact);
            let (k, m) = (
                left + random.between(0, side),
                low + random.between(0, side),
            );
            let (w, h) = (random.between(0, 2), random.between(0, 2));
            let ring = shapes::cell_box(random, k, m, w, h);
            self.draw(layer, ring);
        }
    }

    /// Wells, diffusions in them, contacts on these, metal above.
    pub fn wells(&mut self, random: &mut Random) {
        let wells = 1 + self.most as i64 / 16;
        let sheet = Sheet::any(random, 20 * wells);
        while !self.is_full() {
            let weld = self.weld(random);
            let k = 20 * random.between(0, wells - 1);
            let size = *random.pick(&[20, 20, 18]);
            self.draw(*random.pick(&weld.bottom), sheet.rect(k, 0, size, size));
            for _ in 0..random.count(1, 4) {
                self.diffusion(random, &sheet, k, &weld);
            }
        }
    }

    /// A weld that the tables allow, or any three layers.
    fn weld(&self, random: &mut Random) -> Weld {
        if self.welds.is_empty() || random.once_in(6) {
            Weld {
                contact: self.layer(random, true),
                bottom: vec![self.layer(random, false)],
                top: vec![self.layer(random, false)],
            }
        } else {
            random.pick(&self.welds).clone()
        }
    }

    /// A diffusion in a well that starts at step `k`, now and then twice; contacts on it, metal on these.
    fn diffusion(&mut self, random: &mut Random, sheet: &Sheet, k: i64, weld: &Weld) {
        let (left, low) = (k + random.between(0, 12), random.between(0, 12));
        let (w, h) = (random.between(3, 8), *random.pick(&[3, 4, 8]));
        for _ in 0..*random.pick(&[1, 1, 2]) {
            let ring = sheet.rect(left, low, w, h);
            let ring = shapes::dressed(random, ring);
            self.draw(*random.pick(&weld.bottom), ring);
        }
        for _ in 0..random.count(0, 3) {
            let (x, y) = (left + random.between(0, w), low + random.between(0, h));
            let ring = sheet.rect(x, y, 1, 1);
            let ring = shapes::dressed(random, ring);
            self.draw(weld.contact, ring);
            for _ in 0..*random.pick(&[0, 1, 1, 2]) {
                let reach = random.between(0, 2);
                self.draw(
                    *random.pick(&weld.top),
                    sheet.rect(x - reach, y - 1, 2 * reach + 1, 3),
                );
            }
        }
    }

    /// Rows of boxes, each a gap about the room of the touch test behind the last or above it.
    pub fn rows(&mut self, random: &mut Random) {
        let zero = 3 * random.between(1, 5);
        let sheet = Sheet::any(random, 64).at_zero(random, zero, 0);
        let mut row = 0;
        while !self.is_full() {
            let contact = random.once_in(12);
            let layer = self.layer(random, contact);
            let (mut x, mut low) = (sheet.x(0), sheet.y(3 * (row % 16)));
            for k in 0..random.between(1, 12) {
                let (right, high) = (sheet.x(3 * k + 3), low + (sheet.y(2) - sheet.y(0)));
                let ring = shapes::rect(x, low, right, high);
                let ring = shapes::dressed(random, ring);
                self.draw(layer, ring);
                let gap = shapes::gap(random);
                x = shapes::beside(random, right + gap);
                if random.once_in(6) {
                    low = high + shapes::gap(random);
                    x = sheet.x(3 * k);
                }
            }
            row += 1;
        }
    }

    /// Rings of every shape on one sheet.
    pub fn shapes(&mut self, random: &mut Random) {
        let side = side_for(self.most).max(12);
        let sheet = Sheet::any(random, 4 * side);
        while !self.is_full() {
            let contact = random.once_in(5);
            let layer = self.layer(random, contact);
            let ring = self.shape(random, &sheet, side);
            self.draw(layer, ring);
        }
    }

    /// A ring of any shape, small enough for a layout.
    fn shape(&self, random: &mut Random, sheet: &Sheet, side: i64) -> Ring {
        match random.below(12) {
            0..=3 => shapes::grid_box(random, sheet, side, 4),
            4 | 5 => shapes::slanted_ring(random, sheet, side),
            6 => {
                let teeth = if self.most > 64 {
                    3
                } else {
                    random.count(1, 20).min(side as usize)
                };
                shapes::comb_on(random, sheet, teeth)
            }
            7 => shapes::keyhole(random, sheet, 8),
            8 => shapes::chamfered_ring(random, sheet, 6),
            9 => shapes::short_ring(random, sheet, side),
            10 => {
                let points = random.count(4, 9);
                shapes::crossing_ring(random, sheet, side, points)
            }
            _ => {
                let rise = shapes::sliver(random);
                shapes::stairs(random, sheet, rise)
            }
        }
    }

    /// Actives with gates across them, into them, beside them; among them whatever else a layout has.
    pub fn channels(&mut self, random: &mut Random, gates: &[i16], actives: &[i16]) {
        let side = side_for(self.most).max(10);
        let sheet = Sheet::any(random, 2 * side);
        let pieces = random.count(1, 6);
        while !self.is_full() {
            let (k, m) = (random.between(0, side), random.between(0, side));
            if let Some(layer) = actives.first().map(|_| *random.pick(actives)) {
                let ring = if random.once_in(4) {
                    self.shape(random, &sheet, side)
                } else {
                    sheet.rect(k, m, 8, 4)
                };
                let ring = shapes::dressed(random, ring);
                self.draw(layer, ring);
            }
            if !gates.is_empty() && !random.once_in(pieces as u64 + 1) {
                let ring = self.gate(random, &sheet, side, k, m);
                self.draw(*random.pick(gates), ring);
            }
            for _ in 0..random.count(0, pieces) {
                let contact = random.once_in(2);
                let layer = self.layer(random, contact);
                let ring = shapes::grid_box(random, &sheet, side + 8, 3);
                self.draw(layer, ring);
            }
        }
    }

    /// A gate for an active of 8 by 4 steps at `k`, `m`: through it, into it, at its edge, slanted, or any shape.
    fn gate(&self, random: &mut Random, sheet: &Sheet, side: i64, k: i64, m: i64) -> Ring {
        let x = k + random.between(0, 7);
        match random.below(8) {
            0 | 1 => sheet.rect(x, m - 1, random.between(1, 2), 6),
            2 => sheet.rect(x, m + random.between(0, 3), 2, 6),
            3 => sheet.rect(k - 1, m + random.between(0, 3), 10, 1),
            4 => {
                let x0 = sheet.x(x) + shapes::sliver(random);
                shapes::rect(
                    x0,
                    sheet.y(m - 1),
                    sheet.x(x + 1) + shapes::gap(random),
                    sheet.y(m + 5),
                )
            }
            5 => vec![
                sheet.at(x, m - 1),
                sheet.at(x + 2, m - 1),
                sheet.at(x + 3, m + 5),
                sheet.at(x + 1, m + 5),
            ],
            6 => shapes::short_ring(random, sheet, side),
            _ => self.shape(random, sheet, side),
        }
    }
}

/// A side of a square in which so many boxes lie neither all apart nor all on one heap.
fn side_for(count: usize) -> i64 {
    let mut side = 4;
    while side * side < 4 * count as i64 {
        side += 1;
    }
    side
}
