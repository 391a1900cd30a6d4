#[path = "../../../shared/docs/src/src/transformation/convex_hull2.rs"]
#[allow(unexpected_cfgs)]
pub mod convex_hull2;
#[path = "../../../shared/docs/src/src/transformation/ear_clipping.rs"]
pub mod ear_clipping;
#[path = "../../../shared/docs/src/src/transformation/hertel_mehlhorn.rs"]
#[allow(dead_code)]
pub mod hertel_mehlhorn;
