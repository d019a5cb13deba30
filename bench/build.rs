//! Links the proved libraries, libyarkovesh.a and libyarkovesh_events.a, from the folder that YARKOVESH_LIB names.

fn main() {
    println!("cargo:rerun-if-env-changed=YARKOVESH_LIB");
    if let Ok(folder) = std::env::var("YARKOVESH_LIB") {
        println!("cargo:rustc-link-search=native={folder}");
        for library in ["yarkovesh", "yarkovesh_events"] {
            println!("cargo:rerun-if-changed={folder}/lib{library}.a");
            println!("cargo:rustc-link-lib=static={library}");
        }
    }
}
