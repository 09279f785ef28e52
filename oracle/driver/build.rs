// Links the static library of the folder that LIBRARY names.
fn main() {
    let folder = std::env::var("LIBRARY").expect("LIBRARY: the folder of libexports.a");
    println!("cargo:rerun-if-env-changed=LIBRARY");
    println!("cargo:rerun-if-changed={folder}/libexports.a");
    println!("cargo:rustc-link-search=native={folder}");
}
