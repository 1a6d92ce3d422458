//! Each published file ends in a module of its own for tests, under `cfg(test)`, and the tests themselves
//! are not published. The cfg is switched on, and probe.rs stands in the place of linear_programming.rs's
//! tests: so it sees that file's private functions, and the file stays as it was published.
fn main() {
    println!("cargo::rustc-cfg=test");
    println!("cargo::rerun-if-changed=build.rs");
}
