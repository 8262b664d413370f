// Appended to a generated copy of connectivity.rs: lends what is private there.
pub mod probe {
    use openrdson_core::geometry::{Bbox, Point};

    /// Whether two boxes overlap, with the room `eps` between them.
    pub fn bbox_overlaps(a: &Bbox, b: &Bbox, eps: f64) -> bool {
        super::bbox_overlaps(a, b, eps)
    }

    /// The intervals of a ring at a height, by this file's own twin of the public function.
    pub fn x_intervals_at(ring: &[Point], y: f64) -> Vec<(f64, f64)> {
        super::x_intervals_at(ring, y)
    }

    /// Whether two rings touch.
    pub fn polygons_connected(a: &[Point], b: &[Point], eps: f64) -> bool {
        super::polygons_connected(a, b, eps)
    }

    /// Whether a point is inside a ring that has a point.
    pub fn point_in_polygon(p: Point, ring: &[Point]) -> bool {
        super::point_in_polygon(p, ring)
    }

    /// Whether a logical name marks a layer that conducts nothing.
    pub fn is_marker(logical: &str) -> bool {
        super::is_marker(logical)
    }

    /// A table of joins, open to the eye.
    pub struct Joins(super::UnionFind);

    impl Joins {
        /// `n` members, each alone.
        pub fn new(n: usize) -> Joins {
            Joins(super::UnionFind::new(n))
        }

        /// The root of `x`; the way to it is shortened.
        pub fn find(&mut self, x: usize) -> usize {
            self.0.find(x)
        }

        /// Joins the classes of `a` and `b`.
        pub fn union(&mut self, a: usize, b: usize) {
            self.0.union(a, b)
        }

        /// The parent of each member.
        pub fn parents(&self) -> &[usize] {
            &self.0.parent
        }

        /// The rank of each member.
        pub fn ranks(&self) -> &[u8] {
            &self.0.rank
        }
    }
}
