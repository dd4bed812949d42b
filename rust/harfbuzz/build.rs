//! Gives the shared library the name by which programs that were linked to HarfBuzz ask for it.
fn main() {
    println!("cargo:rustc-cdylib-link-arg=-Wl,-soname,libharfbuzz.so.0");
    println!("cargo:rerun-if-changed=build.rs");
}
