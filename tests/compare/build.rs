// Links the component's static library, from the folder in SLOTS_LIB.
fn main() {
    println!("cargo:rerun-if-env-changed=SLOTS_LIB");
    let lib = std::env::var("SLOTS_LIB").expect("SLOTS_LIB: the folder of libslots.a");
    println!("cargo:rustc-link-search=native={lib}");
    println!("cargo:rustc-link-lib=static=slots");
    println!("cargo:rerun-if-changed={lib}/libslots.a");
}
