//! The example `outline`: areas, windings, what it refuses, and the part drawing of the tour.

#[path = "../examples/support/mod.rs"]
mod support;

use std::{fs, path::PathBuf};

use support::{
    driven::{drive_row, FRAME},
    job::Job,
    outline::{cut, job_text, text, Figure, Point},
    plates::draw,
};
use tile_rows::{FillRule, Layer, LayerTable, PixelSegment, Plane, Plate, Row, Style};

/// How many rows and tiles the random polygons lie in.
const ROWS: i16 = 3;
const TILES: i32 = 4;

fn point(x: i32, y: i32) -> Point {
    Point { x, y, line: 1 }
}

/// The coverages of one layer over all tiles, by pixel rows.
fn coverages(segments: &[PixelSegment], rule: FillRule) -> Vec<Vec<f32>> {
    let layer = Layer { rule, ..Layer::draw(1, Style::solid(FRAME.clear)) };
    let table = LayerTable::new(&[layer]);
    let mut pixels = vec![vec![0.0; 16 * TILES as usize]; 16 * ROWS as usize];
    for j in 0..ROWS as usize {
        let mut row = Row::open(Plate::new(segments).row(j), &table, j as i32, 0..TILES).unwrap();
        for tile in 0..TILES {
            row.work(tile, &FRAME, None).unwrap();
            let mut plane = Plane::new();
            row.paint(1, &mut plane).unwrap();
            for (y, numbers) in plane.rows().enumerate() {
                let at = 16 * tile as usize;
                pixels[16 * j + y][at..at + 16].copy_from_slice(&numbers);
            }
        }
    }
    pixels
}

fn packed(outline: &[Point]) -> Vec<PixelSegment> {
    let mut segments = Vec::new();
    cut::outline(1, outline, &mut segments).unwrap();
    segments.sort_by(PixelSegment::compare);
    segments
}

/// Twice the area of a polygon, in squares of a sixteenth of a pixel; below 0 by the direction.
fn doubled_area(outline: &[Point]) -> i64 {
    let cross = |at: usize| {
        let (a, b) = (outline[at], outline[(at + 1) % outline.len()]);
        i64::from(a.x) * i64::from(b.y) - i64::from(b.x) * i64::from(a.y)
    };
    (0..outline.len()).map(cross).sum()
}

/// How often a polygon goes around a point, by the edges to its left.
fn winding(outline: &[Point], x: i64, y: i64) -> i64 {
    let side = |at: usize| {
        let [(ax, ay), (bx, by)] =
            [at, (at + 1) % outline.len()].map(|at| (i64::from(outline[at].x), i64::from(outline[at].y)));
        let cross = (bx - ax) * (y - ay) - (by - ay) * (x - ax);
        match (ay <= y, by <= y) {
            (true, false) if cross < 0 => 1,
            (false, true) if cross > 0 => -1,
            _ => 0,
        }
    };
    (0..outline.len()).map(side).sum()
}

/// A polygon around a middle, with no two edges that cross.
fn star(seed: &mut u32) -> Vec<Point> {
    let corners = 3 + draw(seed) % 10;
    let (x, y) = (512.0, 384.0);
    let corner = |k: u32| {
        let angle = (f64::from(k) + f64::from(draw(seed) % 100) / 101.0) / f64::from(corners) * std::f64::consts::TAU;
        let far = 20.0 + f64::from(draw(seed) % 350);
        point((x + far * angle.cos()) as i32, (y + far * angle.sin()) as i32)
    };
    let mut corners: Vec<Point> = (0..corners).map(corner).collect();
    if draw(seed).is_multiple_of(2) {
        corners.reverse();
    }
    corners
}

/// Any polygon, with edges that cross and some that run along pixel borders; some of it left of the first tile.
fn tangle(seed: &mut u32) -> Vec<Point> {
    let corners = 3 + draw(seed) % 6;
    let place = |seed: &mut u32, first: i32, size: u32| {
        let at = first + (draw(seed) % size) as i32;
        if draw(seed).is_multiple_of(4) {
            at.div_euclid(16) * 16
        } else {
            at
        }
    };
    (0..corners).map(|_| point(place(seed, -200, 1_200), place(seed, 0, 768))).collect()
}

#[test]
fn coverages_sum_up_to_the_area() {
    let mut seed = 51;
    let mut worst: f64 = 0.0;
    for at in 0..1_000 {
        let outline = star(&mut seed);
        let due = doubled_area(&outline).abs() as f64 / 512.0;
        for rule in [FillRule::NonZero, FillRule::EvenOdd] {
            let sum: f64 = coverages(&packed(&outline), rule).concat().iter().map(|&one| f64::from(one)).sum();
            worst = worst.max((sum - due).abs());
            assert!((sum - due).abs() < 1.0 / 16.0, "polygon {at}: {sum} of {due}, {rule:?}");
        }
    }
    println!("the worst is {worst} of a pixel");
}

/// The doubled areas of all pieces, with those of the pixels to their right, are the polygon's, edges that cross or not.
#[test]
fn doubled_areas_sum_up_to_the_area() {
    let mut seed = 7;
    for at in 0..1_000 {
        let outline = tangle(&mut seed);
        let right = 16 * 16 * i64::from(TILES);
        let of = |segment: &PixelSegment| {
            let column = 16 * i64::from(segment.tile_x()) + i64::from(segment.local_x());
            let past = right - 16 * (column + 1);
            i64::from(segment.double_area()) + 2 * past * i64::from(segment.cover())
        };
        let sum: i64 = packed(&outline).iter().map(of).sum();
        // Down the left side and up the right one is inside: seen so the area is below 0.
        assert!((sum + doubled_area(&outline)).abs() <= 16, "polygon {at}: {sum} of {}", -doubled_area(&outline));
    }
}

/// Whether an edge comes into a pixel or touches its border.
fn is_met(outline: &[Point], column: i64, row: i64) -> bool {
    let [left, top] = [16 * column, 16 * row];
    (0..outline.len()).any(|at| {
        let [(ax, ay), (bx, by)] =
            [at, (at + 1) % outline.len()].map(|at| (i64::from(outline[at].x), i64::from(outline[at].y)));
        let side = |x: i64, y: i64| ((bx - ax) * (y - ay) - (by - ay) * (x - ax)).signum();
        let sides = [side(left, top), side(left + 16, top), side(left, top + 16), side(left + 16, top + 16)];
        let is_apart = sides == [1; 4] || sides == [-1; 4];
        let is_beside = ax.max(bx) < left || ax.min(bx) > left + 16 || ay.max(by) < top || ay.min(by) > top + 16;
        !is_apart && !is_beside
    })
}

#[test]
fn windings_at_pixel_centres_agree_with_full_and_empty_pixels() {
    let mut seed = 2_026;
    let mut counts = [0; 2];
    for at in 0..1_000 {
        let outline = tangle(&mut seed);
        let segments = packed(&outline);
        for rule in [FillRule::NonZero, FillRule::EvenOdd] {
            for (y, row) in coverages(&segments, rule).iter().enumerate() {
                for (x, &coverage) in row.iter().enumerate() {
                    if is_met(&outline, x as i64, y as i64) {
                        continue;
                    }
                    let winding = winding(&outline, 16 * x as i64 + 8, 16 * y as i64 + 8);
                    let is_inside = if rule == FillRule::NonZero { winding != 0 } else { winding % 2 != 0 };
                    assert_eq!(
                        coverage,
                        if is_inside { 1.0 } else { 0.0 },
                        "polygon {at}: column {x}, row {y}, {rule:?}"
                    );
                    counts[usize::from(is_inside)] += 1;
                }
            }
        }
    }
    assert!(counts.iter().all(|&count| count > 100_000), "{counts:?} pixels are outside and inside");
}

#[test]
fn curves_stay_close() {
    let mut seed = 3;
    for _ in 0..200 {
        let mut any = || point((draw(&mut seed) % 2_000) as i32, (draw(&mut seed) % 2_000) as i32);
        let (from, control, to) = (any(), any(), any());
        let points = support::outline::curve::flattened(from, control, to);
        let all: Vec<Point> = std::iter::once(from).chain(points.iter().copied()).collect();
        assert_eq!(points.last(), Some(&to));
        // Halfway between two points the curve is within a sixteenth and the rounding of its points.
        for (k, pair) in all.windows(2).enumerate() {
            let t = (k as f64 + 0.5) / points.len() as f64;
            let on = |a: i32, b: i32, c: i32| {
                (1.0 - t) * (1.0 - t) * f64::from(a) + 2.0 * t * (1.0 - t) * f64::from(b) + t * t * f64::from(c)
            };
            let (x, y) = (on(from.x, control.x, to.x), on(from.y, control.y, to.y));
            let middle = |a: i32, b: i32| f64::from(a + b) / 2.0;
            let far = (x - middle(pair[0].x, pair[1].x)).hypot(y - middle(pair[0].y, pair[1].y));
            assert!(far <= 2.0, "{far} sixteenths");
        }
    }
}

#[test]
fn what_is_refused_says_where() {
    let read = |lines: &str| text::read(&format!("plate 1 2\n{lines}"));
    let segments = |lines: &str| read(lines).and_then(|figure| figure.segments()).unwrap_err().to_string();
    let layer = "layer 1 nonzero draw 000000 256\n";
    assert!(segments(&format!("{layer}from 0 0\nline 0 100\nline -300 50\n"))
        .starts_with("line 5: the point -300 50 of layer 1: refused 11"));
    assert!(segments(&format!("{layer}from 0 -300\nline 0 100\nline 9 9\n"))
        .starts_with("line 3: the point 0 -300 of layer 1: refused 11"));
    assert!(segments(&format!("{layer}from 0 0\nline 1048400 100\nline 9 1048576\n")).contains("refused 11"));
    assert!(segments("layer 2000000 nonzero draw 000000 256\n".replace("2000000", "1999999999").as_str())
        .contains("within two million"));
    let fault = |lines: &str| read(lines).unwrap_err().to_string();
    assert_eq!(fault("line 1 2\n"), "line 2: no layer or shape was begun");
    assert_eq!(fault("layer 1 odd draw 0 0\n"), "line 2: a rule is nonzero or evenodd");
    assert_eq!(fault(&format!("{layer}put ring 0 0\n")), "line 3: there is no shape `ring`");
    assert_eq!(fault(&format!("{layer}{layer}")), "line 3: layer 1 stands twice");
    assert_eq!(
        fault(&format!("{layer}from 1\n")),
        "line 3: 2 whole numbers, each within two million of 0, stand there"
    );
    assert_eq!(text::read("# nothing\n").unwrap_err().to_string(), "line 1: no line `plate ROWS TILES`");
}

fn part(name: &str) -> (Figure, Vec<PixelSegment>) {
    let file = PathBuf::from(env!("CARGO_MANIFEST_DIR")).join("../../docs/tour/plate").join(name);
    let figure = text::read(&fs::read_to_string(file).unwrap()).unwrap();
    let segments = figure.segments().unwrap();
    (figure, segments)
}

#[test]
fn the_part_drawing_is_a_plate() {
    let (figure, segments) = part("part.outline");
    assert_eq!((figure.rows, figure.tiles, figure.layers.len()), (6, 20, 42));
    let table = figure.table(|_| false);
    for row in 0..figure.rows {
        let driven = drive_row(figure.row(&segments, row), &table, row.into(), 0..20, 0..20);
        assert_eq!((driven.tiles.len(), driven.refusal), (20, None), "row {row}");
        assert!(driven.tiles.iter().any(|tile| tile.decision.word() == "solid"), "row {row}");
        // Every outline is closed; the paper alone ends past the last tile.
        let left: Vec<u32> = driven.tiles.last().unwrap().carries.iter().map(|carry| carry.id).collect();
        assert_eq!(left, [1], "row {row}");
    }
    // The other text moves the German labels, and nothing else.
    let (moved, _) = part("part_moved.outline");
    for (one, other) in figure.layers.iter().zip(&moved.layers) {
        let places = |layer: &support::outline::Layer| -> Vec<(i32, i32)> {
            layer.outlines.iter().flatten().map(|point| (point.x, point.y)).collect()
        };
        assert_eq!(places(one) != places(other), one.name.starts_with("German"), "{}", one.name);
        assert_eq!((one.id, one.func, one.rule, &one.name), (other.id, other.func, other.rule, &other.name));
    }
}

/// A job text of some tiles gives these tiles' lines of the whole row.
#[test]
fn a_job_of_some_tiles_gives_their_lines() {
    let (figure, segments) = part("part.outline");
    let table = figure.table(|_| false);
    for row in 0..figure.rows {
        let all = figure.row(&segments, row);
        let driven = drive_row(all, &table, row.into(), 0..20, 0..20);
        for from in (0..20).step_by(4) {
            let text = job_text::job_text(&figure, row, from..from + 4, all).unwrap();
            let job = Job::read(text.as_bytes()).unwrap();
            let part = drive_row(&job.segments().unwrap(), &job.table(), row.into(), job.from..job.to, job.due());
            let lines = |tiles: &[support::driven::Tile]| tiles.iter().map(|tile| tile.line()).collect::<Vec<_>>();
            assert_eq!(lines(&part.tiles), lines(&driven.tiles[from as usize..from as usize + 4]), "row {row}");
        }
    }
}
