//! The entries of the archive.

use crate::expected::{Answer, Verdict};

// A lent slice is its address and its number of bytes.
#[allow(improper_ctypes)]
#[link(name = "hasplight", kind = "static")]
extern "C" {
    fn hasplight_triangulate_ear_clipping(coords: &[u8], indices: &mut [u8]) -> Answer;
    fn hasplight_hertel_mehlhorn_idx(coords: &[u8], triangles: &[u8], indices: &mut [u8], lengths: &mut [u8]) -> Answer;
    fn hasplight_point_in_poly2d(x: f32, y: f32, coords: &[u8]) -> Verdict;
    fn hasplight_point_in_convex_poly2d(x: f32, y: f32, coords: &[u8]) -> Verdict;
    fn hasplight_convex_hull2_idx(coords: &[u8], indices: &mut [u8]) -> Answer;
    fn hasplight_fill_areas(line: &[u8], out: &mut [u8]) -> Answer;
    fn hasplight_fill_triangles(line: &[u8], out: &mut [u8]) -> Answer;
}

#[link(name = "radicands", kind = "static")]
extern "C" {
    fn hasplight_root(m: u32) -> f32;
}

pub fn root(m: u32) -> f32 {
    unsafe { hasplight_root(m) }
}

pub fn triangulate_ear_clipping(coords: &[u8], indices: &mut [u8]) -> Answer {
    unsafe { hasplight_triangulate_ear_clipping(coords, indices) }
}

pub fn hertel_mehlhorn_idx(coords: &[u8], triangles: &[u8], indices: &mut [u8], lengths: &mut [u8]) -> Answer {
    unsafe { hasplight_hertel_mehlhorn_idx(coords, triangles, indices, lengths) }
}

pub fn point_in_poly2d(x: f32, y: f32, coords: &[u8]) -> Verdict {
    unsafe { hasplight_point_in_poly2d(x, y, coords) }
}

pub fn point_in_convex_poly2d(x: f32, y: f32, coords: &[u8]) -> Verdict {
    unsafe { hasplight_point_in_convex_poly2d(x, y, coords) }
}

pub fn convex_hull2_idx(coords: &[u8], indices: &mut [u8]) -> Answer {
    unsafe { hasplight_convex_hull2_idx(coords, indices) }
}

pub fn fill(line: &[u8], triangles_only: bool, out: &mut [u8]) -> Answer {
    let entry = if triangles_only { hasplight_fill_triangles } else { hasplight_fill_areas };
    unsafe { entry(line, out) }
}
