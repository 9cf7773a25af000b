// Where the static library is: the folder that CWAZIBUTHU_LIB names, else the one that boards/build writes to.
use std::env;
use std::path::PathBuf;

fn main() {
    let own = PathBuf::from(env::var_os("CARGO_MANIFEST_DIR").expect("cargo names the folder"));
    let folder = env::var_os("CWAZIBUTHU_LIB").map_or(own.join("../crates/cwazibuthu/out"), PathBuf::from);
    println!("cargo:rerun-if-env-changed=CWAZIBUTHU_LIB");
    println!("cargo:rerun-if-changed={}", folder.join("libcwazibuthu.a").display());
    println!("cargo:rustc-link-search=native={}", folder.display());
    println!("cargo:rustc-link-lib=static=cwazibuthu");
}
