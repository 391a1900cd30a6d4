//! Inputs with what must come back, as records for the program `replay`: crates/replay/src/record.rt says how one stands.
use crate::expected;
use crate::hull::Tally;
use crate::inputs::Side;
use crate::lent::{bytes_of, bytes_of_floats, words};

const FILL: u8 = 90;

/// The most roots in a record.
const ROOTS_EACH: u32 = 2048;

/// Hands each record on, with its number, counted from 1.
pub struct Records<F: FnMut(u64, &[u8])> {
    put: F,
    pub records: u64,
    pub inputs: u64,
    pub accepted: u64,
    /// Of those accepted, the cuts of outlines that pass a point twice.
    pub twice: u64,
    /// Spots on the border of an outline.
    pub border: u64,
    pub hulls: Tally,
}

impl<F: FnMut(u64, &[u8])> Records<F> {
    pub fn new(put: F) -> Records<F> {
        Records { put, records: 0, inputs: 0, accepted: 0, twice: 0, border: 0, hulls: Tally::default() }
    }

    fn record(&mut self, entry: u32, parts: [&[u8]; 4], number: u32, count: u32) {
        let sizes = parts.map(|p| p.len() as u32);
        let mut record = bytes_of(&[entry, sizes[0], sizes[1], sizes[2], sizes[3], number, count]);
        parts.iter().for_each(|p| record.extend(*p));
        self.records += 1;
        self.inputs += if entry == 5 { count as u64 } else { 1 };
        (self.put)(self.records, &record);
    }
}

impl<F: FnMut(u64, &[u8])> Side for Records<F> {
    fn cut(&mut self, coords: &[u8], room: usize) -> Option<Vec<u8>> {
        let mut indices = vec![FILL; room];
        let a = expected::triangulate_ear_clipping(coords, &mut indices);
        self.record(1, [coords, &[], &indices, &[]], a.number, a.count);
        self.accepted += (a.number == 0) as u64;
        self.twice += (a.number == 0 && expected::passes_twice(coords)) as u64;
        (a.number == 0).then(|| indices[..12 * a.count as usize].to_vec())
    }

    fn merge(&mut self, coords: &[u8], triangles: &[u8], room: usize, places: usize) {
        let (mut indices, mut lengths) = (vec![FILL; room], vec![FILL; places]);
        let a = expected::hertel_mehlhorn_idx(coords, triangles, &mut indices, &mut lengths);
        self.record(2, [coords, triangles, &indices, &lengths], a.number, a.count);
    }

    fn ask(&mut self, x: f32, y: f32, coords: &[u8]) {
        let spot = bytes_of_floats(&[x, y]);
        let v = expected::point_in_poly2d(x, y, coords);
        self.record(3, [coords, &spot, &[], &[]], v.number, v.answer);
        self.border += (v.answer == 2) as u64;
        let v = expected::point_in_convex_poly2d(x, y, coords);
        self.record(4, [coords, &spot, &[], &[]], v.number, v.answer);
    }

    fn hull(&mut self, coords: &[u8], room: usize) {
        let mut indices = vec![FILL; room];
        let a = expected::convex_hull2_idx(coords, &mut indices);
        self.record(6, [coords, &[], &indices, &[]], a.number, a.count);
        if a.number == 0 {
            self.hulls.add(expected::beside_crate(coords, &indices[..4 * a.count as usize]));
        }
    }

    fn roots(&mut self, first: u32, count: u32) {
        let end = first + count;
        for m in (first..end).step_by(ROOTS_EACH as usize) {
            let bits: Vec<u32> = (m..end.min(m + ROOTS_EACH)).map(|k| expected::root(k).to_bits()).collect();
            self.record(5, [&[], &m.to_le_bytes(), &bytes_of(&bits), &[]], 0, bits.len() as u32);
        }
    }
}

/// A record for a person to read.
pub fn shown(record: &[u8]) -> String {
    let head = words(&record[..28]);
    let mut rest = &record[28..];
    let mut parts = Vec::new();
    for &size in &head[1..5] {
        let (part, behind) = rest.split_at(size as usize);
        parts.push(part);
        rest = behind;
    }
    let entry = ["cut", "merge", "spot", "spot, convex", "roots", "hull"][head[0] as usize - 1];
    format!("{entry}: {parts:?}\n  expected: number {}, count or answer {}", head[5], head[6])
}
