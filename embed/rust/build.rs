// Says where libpolydb.a lies: in embed/out, where embed/build puts it, or in the folder that POLYDB_FOLDER names.
use std::env;
use std::path::PathBuf;

fn main() {
    let folder = match env::var_os("POLYDB_FOLDER") {
        Some(folder) => PathBuf::from(folder),
        None => PathBuf::from(env::var_os("CARGO_MANIFEST_DIR").unwrap()).join("../out"),
    };
    println!("cargo:rustc-link-search=native={}", folder.display());
    println!("cargo:rerun-if-env-changed=POLYDB_FOLDER");
    println!(
        "cargo:rerun-if-changed={}",
        folder.join("libpolydb.a").display()
    );
}
