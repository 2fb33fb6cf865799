//! The shared library has the name that tools/library.sh gives the proved one.

fn main() {
    println!("cargo:rustc-cdylib-link-arg=-Wl,-soname,libspanprof.so.0");
}
