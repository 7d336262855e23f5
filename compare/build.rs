fn main() {
    println!("cargo:rustc-link-search=native=out");
    for name in ["firmware", "comparing"] {
        println!("cargo:rerun-if-changed=out/lib{name}.a");
    }
}
