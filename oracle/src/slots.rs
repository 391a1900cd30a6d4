//! Outlines that pass a point twice, at random: plates whose holes are drawn by slots, and two outlines that touch in one point.
use crate::random::Random;
use crate::shapes::Outline;

/// A hole's border between its left and its right end, which are as high as each other: over it, or with `side` -1 under it.
fn chain(r: &mut Random, (left, right): (i32, i32), y: i32, side: i32) -> Outline {
    let mut at = left + r.within(0, 2);
    let mut points = Vec::new();
    while at <= right {
        points.push((at, y + side * r.within(1, 4)));
        at += r.within(1, 4);
    }
    points
}

/// In along a line, round a hole clockwise and back, with the next hole of the row by a slot from the far end of this one.
fn hole(r: &mut Random, x: i32, y: i32, more: usize) -> Outline {
    let (left, right) = (x + r.within(2, 4), x + r.within(6, 10));
    let over = chain(r, (left, right), y, 1);
    let under = chain(r, (left, right), y, -1);
    let mut ring = vec![(left, y)];
    ring.extend(over);
    ring.push((right, y));
    if more > 0 {
        ring.extend(hole(r, x + 12, y, more - 1));
        ring.push((right, y));
    }
    ring.extend(under.into_iter().rev());
    ring.push((left, y));
    ring
}

/// A plate with up to three rows of holes. The slots come from its left side, and at times the highest from its corner.
fn plate(r: &mut Random) -> Outline {
    let rows = 1 + r.below(3) as i32;
    let (width, height) = (12 * 3 + 4, 12 * rows);
    let mut outline = vec![(0, 0), (width, 0), (width, height), (0, height)];
    for row in (0..rows).rev() {
        let y = 12 * row + r.within(5, 7);
        let many = r.below(3);
        if row == rows - 1 && r.below(3) == 0 {
            outline.extend(hole(r, 0, y, many));
            outline.push((0, height));
        } else {
            outline.push((0, y));
            outline.extend(hole(r, 0, y, many));
            outline.push((0, y));
        }
    }
    outline
}

/// Two outlines of three or four corners on either side of the point in which they touch.
fn touching(r: &mut Random) -> Outline {
    let mut outline = Vec::new();
    for side in [1, -1] {
        let (x, y) = (side * r.within(1, 9), side * r.within(1, 9));
        outline.push((0, 0));
        outline.extend([(x, 0), (x, y), (0, y)].iter().skip(r.below(2)));
    }
    outline
}

/// One of them, larger or smaller, begun at any corner, and at times turned by a quarter.
pub fn random(r: &mut Random) -> Outline {
    let mut outline = if r.below(4) == 0 { touching(r) } else { plate(r) };
    let scale = 1 + r.below(20) as i32;
    let quarter = r.below(2) == 0;
    for p in &mut outline {
        let (x, y) = (scale * p.0, scale * p.1);
        *p = if quarter { (-y, x) } else { (x, y) };
    }
    let first = r.below(outline.len());
    outline.rotate_left(first);
    outline
}
