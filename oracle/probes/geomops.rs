// Appended to a generated copy of geomops.rs: lends what is private there.
pub mod probe {
    use crate::geometry::Point;

    /// The heights of two rings, sorted, those under 1e-15 from the last kept dropped.
    pub fn bands(a: &[Point], b: &[Point]) -> Vec<f64> {
        super::bands(a, b)
    }
}
