// Appended to a generated copy of connectivity.rs in which the touch test is renamed: full contact takes its place.

/// Whether two rings touch as they are, or with x and y exchanged in both.
fn polygons_connected(pa: &[Point], pb: &[Point], eps: f64) -> bool {
    polygons_connected_in_x(pa, pb, eps)
        || polygons_connected_in_x(&probe::exchanged(pa), &probe::exchanged(pb), eps)
}

pub mod probe {
    use openrdson_core::geometry::Point;

    /// The ring with x and y exchanged in every point.
    pub fn exchanged(ring: &[Point]) -> Vec<Point> {
        ring.iter().map(|p| Point::new(p.y, p.x)).collect()
    }

    /// The test above, lent.
    pub fn polygons_connected(a: &[Point], b: &[Point], eps: f64) -> bool {
        super::polygons_connected(a, b, eps)
    }
}
