// Links the static library of the proved index, which `rt lib` leaves in crates/exports/out.
use std::env;
use std::path::Path;

fn main() {
    let here = env::var("CARGO_MANIFEST_DIR").unwrap();
    let out = Path::new(&here).join("../crates/exports/out");
    println!("cargo:rustc-link-search=native={}", out.display());
    println!("cargo:rustc-link-lib=static=exports");
    println!("cargo:rerun-if-changed={}", out.join("libexports.a").display());
}
