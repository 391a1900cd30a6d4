#[path = "../../../shared/docs/src/src/utils/point_in_poly2d.rs"]
pub mod point_in_poly2d;
#[path = "../../../shared/docs/src/src/utils/point_in_triangle.rs"]
pub mod point_in_triangle;
