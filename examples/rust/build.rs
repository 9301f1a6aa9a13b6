//! Links liblv.a of the folder that LV_FOLDER names, or else of out/lib, where `make lib` puts it.

fn main() {
    let folder = std::env::var("LV_FOLDER").unwrap_or_else(|_| "../../out/lib".to_string());
    println!("cargo:rustc-link-search=native={folder}");
    println!("cargo:rustc-link-lib=static=lv");
    println!("cargo:rerun-if-env-changed=LV_FOLDER");
}
