//! Quadratic curves as lines.

use super::Point;

/// The points of a curve after its first, so close that no line is further from it than a sixteenth of a pixel, but for
/// the rounding of its points to sixteenths.
pub fn flattened(from: Point, control: Point, to: Point) -> Vec<Point> {
    let bend = |a: i32, b: i32, c: i32| f64::from(a) - 2.0 * f64::from(b) + f64::from(c);
    let length = bend(from.x, control.x, to.x).hypot(bend(from.y, control.y, to.y));
    // A line of a curve cut into n is at most length / (4 n²) from it.
    let count = (length.sqrt() / 2.0).ceil().max(1.0) as i32;
    let at = |step: i32| {
        let t = f64::from(step) / f64::from(count);
        let mixed = |a: i32, b: i32, c: i32| {
            let (a, b, c) = (f64::from(a), f64::from(b), f64::from(c));
            ((1.0 - t) * (1.0 - t) * a + 2.0 * t * (1.0 - t) * b + t * t * c).round() as i32
        };
        Point { x: mixed(from.x, control.x, to.x), y: mixed(from.y, control.y, to.y), line: to.line }
    };
    (1..count).map(at).chain([to]).collect()
}
