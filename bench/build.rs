fn main() {
    println!("cargo:rustc-link-search=native=out");
    for way in ["drain_slice", "drain_reader", "skip_slice", "skip_reader"] {
        println!("cargo:rerun-if-changed=out/lib{way}.a");
    }
}
