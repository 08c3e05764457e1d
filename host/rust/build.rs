//! Tells cargo where libngachodui.a is: in `NGACHODUI_LIB`, or where `host/library` puts it.

use std::env;
use std::path::Path;

fn main() {
    let folder = env::var("NGACHODUI_LIB").unwrap_or_else(|_| {
        let here = env::var("CARGO_MANIFEST_DIR").expect("cargo sets it");
        let folder = Path::new(&here).join("../../target/staticlib");
        folder.to_str().expect("a path in UTF-8").to_string()
    });
    println!("cargo:rustc-link-search=native={}", folder);
    println!("cargo:rerun-if-env-changed=NGACHODUI_LIB");
    println!("cargo:rerun-if-changed={}/libngachodui.a", folder);
}
