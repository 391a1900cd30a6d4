//! CGAL's two partitions of an outline into convex areas, of `oracle/cgal.cpp`.
use std::ffi::c_void;

#[link(name = "partitions", kind = "static")]
extern "C" {
    fn cgal_outline(coords: *const f32, n: usize) -> *mut c_void;
    fn cgal_drop(outline: *mut c_void);
    fn cgal_approx_convex_partition_2(outline: *const c_void) -> usize;
    fn cgal_greene_approx_convex_partition_2(outline: *const c_void) -> usize;
    fn cgal_approx_convex_is_valid(outline: *const c_void) -> bool;
    fn cgal_greene_approx_convex_is_valid(outline: *const c_void) -> bool;
}

#[link(name = "gmp")]
#[link(name = "stdc++")]
extern "C" {}

/// A polygon of CGAL's, ready for its partitions. Each gives the number of areas, and says whether CGAL's own check takes them for a convex
/// partition.
pub struct Polygon(*mut c_void);

impl Polygon {
    /// Of coordinates that are x and y in turn.
    pub fn new(coords: &[f32]) -> Polygon {
        Polygon(unsafe { cgal_outline(coords.as_ptr(), coords.len() / 2) })
    }

    /// By Hertel and Mehlhorn.
    pub fn approx_convex_partition_2(&self) -> usize {
        unsafe { cgal_approx_convex_partition_2(self.0) }
    }

    pub fn approx_convex_is_valid(&self) -> bool {
        unsafe { cgal_approx_convex_is_valid(self.0) }
    }

    /// By Greene.
    pub fn greene_approx_convex_partition_2(&self) -> usize {
        unsafe { cgal_greene_approx_convex_partition_2(self.0) }
    }

    pub fn greene_approx_convex_is_valid(&self) -> bool {
        unsafe { cgal_greene_approx_convex_is_valid(self.0) }
    }
}

impl Drop for Polygon {
    fn drop(&mut self) {
        unsafe { cgal_drop(self.0) }
    }
}
