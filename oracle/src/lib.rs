//! The crate's files, compiled from where they stand, beside the entries of Hasplight: called through its archives (`linked`), or by the
//! program `replay`, for which records are written.
extern crate alloc;
extern crate num as num_traits;

#[cfg(feature = "cgal")]
pub mod cgal;
#[cfg(feature = "linked")]
pub mod checks;
pub mod clouds;
pub mod cutter;
pub mod expected;
pub mod handing;
pub mod hull;
pub mod inputs;
pub mod lent;
pub mod lines;
pub mod logs;
pub mod math;
#[cfg(feature = "linked")]
pub mod ours;
pub mod plane;
pub mod playback;
pub mod random;
pub mod records;
pub mod shapes;
pub mod slots;
pub mod text;
mod transformation;
mod utils;

/// What the comparison and the benchmark call of the crate.
pub mod parry {
    use crate::math::Vector;
    pub use crate::transformation::convex_hull2::convex_hull2_idx;
    pub use crate::transformation::hertel_mehlhorn::hertel_mehlhorn_idx;
    pub use crate::utils::point_in_poly2d::{point_in_convex_poly2d, point_in_poly2d};

    pub fn triangulate_ear_clipping(points: &[Vector]) -> Option<Vec<[u32; 3]>> {
        crate::transformation::ear_clipping::triangulate_ear_clipping(points)
    }
}
