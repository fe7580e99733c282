//! Links the proved readers: PROVED_READERS is the folder of libexports.a.

fn main() {
    println!("cargo:rerun-if-env-changed=PROVED_READERS");
    if let Ok(folder) = std::env::var("PROVED_READERS") {
        println!("cargo:rerun-if-changed={folder}/libexports.a");
        println!("cargo:rustc-link-search=native={folder}");
    }
}
