use std::env::var_os;
use std::path::{Path, PathBuf};

/// Where the archives are: in target/staticlib, or in the folder that HASPLIGHT_ARCHIVES names; CGAL's partitions in target/cgal.
fn main() {
    println!("cargo:rerun-if-changed=build.rs");
    println!("cargo:rerun-if-env-changed=HASPLIGHT_ARCHIVES");
    if var_os("CARGO_FEATURE_LINKED").is_none() {
        return;
    }
    let root = Path::new(env!("CARGO_MANIFEST_DIR")).parent().expect("oracle/ stands in the repository");
    let archives = var_os("HASPLIGHT_ARCHIVES").map_or(root.join("target/staticlib"), PathBuf::from);
    println!("cargo:rustc-link-search=native={}", archives.display());
    for library in ["libhasplight.a", "libradicands.a"] {
        println!("cargo:rerun-if-changed={}", archives.join(library).display());
    }
    if var_os("CARGO_FEATURE_CGAL").is_some() {
        let partitions = root.join("target/cgal");
        println!("cargo:rustc-link-search=native={}", partitions.display());
        println!("cargo:rerun-if-changed={}", partitions.join("libpartitions.a").display());
    }
}
