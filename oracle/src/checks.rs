//! One input, both sides: every number, count, answer and byte must agree, the guard bytes included.
use crate::hull::Tally;
use crate::inputs::Side;
use crate::lent::Lent;
use crate::{expected, ours, text};

fn differ(entry: &str, inputs: &str, ours: &str, theirs: &str) -> ! {
    eprintln!("{entry}: {inputs}\n  ours:     {ours}\n  expected: {theirs}");
    std::process::exit(1);
}

/// The archives, called; the program ends at the first difference.
#[derive(Default)]
pub struct Linked {
    pub inputs: u64,
    pub accepted: u64,
    /// Of those accepted, the cuts of outlines that pass a point twice.
    pub twice: u64,
    /// Spots on the border of an outline.
    pub border: u64,
    pub filled: u64,
    pub hulls: Tally,
}

impl Linked {
    /// A line filled by both plans.
    pub fn fill(&mut self, line: &[u8], room: usize) {
        for triangles_only in [false, true] {
            let (mut a, mut b) = (Lent::new(room), Lent::new(room));
            let r = ours::fill(line, triangles_only, a.lent());
            let s = text::fill(line, triangles_only, b.lent());
            if r != s || a != b {
                let inputs = format!("triangles {triangles_only}, {room} bytes of room, {:?}", String::from_utf8_lossy(line));
                let show = |x: &Lent, count: u32| String::from_utf8_lossy(&x.read()[..(count as usize).min(room)]).into_owned();
                let other = a.read().iter().zip(b.read()).position(|(x, y)| x != y);
                let ours = format!("{r:?} {:?}, the first other byte at {other:?}", show(&a, r.count));
                differ("fill", &inputs, &ours, &format!("{s:?} {:?}", show(&b, s.count)));
            }
            self.inputs += 1;
            self.filled += (r.number == 0) as u64;
        }
    }
}

impl Side for Linked {
    fn cut(&mut self, coords: &[u8], room: usize) -> Option<Vec<u8>> {
        let (mut a, mut b) = (Lent::new(room), Lent::new(room));
        let r = ours::triangulate_ear_clipping(coords, a.lent());
        let s = expected::triangulate_ear_clipping(coords, b.lent());
        if r != s || a != b {
            let inputs = format!("coords {coords:?}, {room} bytes of room");
            differ("cut", &inputs, &format!("{r:?} {:?}", a.read()), &format!("{s:?} {:?}", b.read()));
        }
        self.inputs += 1;
        self.accepted += (r.number == 0) as u64;
        self.twice += (r.number == 0 && expected::passes_twice(coords)) as u64;
        (r.number == 0).then(|| a.read()[..12 * r.count as usize].to_vec())
    }

    fn merge(&mut self, coords: &[u8], triangles: &[u8], room: usize, places: usize) {
        let (mut a, mut b) = (Lent::new(room), Lent::new(room));
        let (mut c, mut d) = (Lent::new(places), Lent::new(places));
        let r = ours::hertel_mehlhorn_idx(coords, triangles, a.lent(), c.lent());
        let s = expected::hertel_mehlhorn_idx(coords, triangles, b.lent(), d.lent());
        if r != s || a != b || c != d {
            let inputs = format!("coords {coords:?}, triangles {triangles:?}, {room} and {places} bytes of room");
            let show = |x: &Lent, y: &Lent| format!("{:?} {:?}", x.read(), y.read());
            differ("merge", &inputs, &format!("{r:?} {}", show(&a, &c)), &format!("{s:?} {}", show(&b, &d)));
        }
        self.inputs += 1;
    }

    fn ask(&mut self, x: f32, y: f32, coords: &[u8]) {
        let tests = [
            ("spot", ours::point_in_poly2d(x, y, coords), expected::point_in_poly2d(x, y, coords)),
            ("spot, convex", ours::point_in_convex_poly2d(x, y, coords), expected::point_in_convex_poly2d(x, y, coords)),
        ];
        for (entry, r, s) in tests {
            if r != s {
                differ(entry, &format!("({x}, {y}), coords {coords:?}"), &format!("{r:?}"), &format!("{s:?}"));
            }
            self.inputs += 1;
            self.border += (r.answer == 2) as u64;
        }
    }

    fn hull(&mut self, coords: &[u8], room: usize) {
        let (mut a, mut b) = (Lent::new(room), Lent::new(room));
        let r = ours::convex_hull2_idx(coords, a.lent());
        let s = expected::convex_hull2_idx(coords, b.lent());
        if r != s || a != b {
            let inputs = format!("coords {coords:?}, {room} bytes of room");
            differ("hull", &inputs, &format!("{r:?} {:?}", a.read()), &format!("{s:?} {:?}", b.read()));
        }
        self.inputs += 1;
        if s.number == 0 {
            self.hulls.add(expected::beside_crate(coords, &b.read()[..4 * s.count as usize]));
        }
    }

    fn roots(&mut self, first: u32, count: u32) {
        for m in first..first + count {
            let (r, s) = (ours::root(m), expected::root(m));
            if r.to_bits() != s.to_bits() {
                differ("root", &format!("{m}"), &format!("{r:?}"), &format!("{s:?}"));
            }
        }
        self.inputs += count as u64;
    }
}
