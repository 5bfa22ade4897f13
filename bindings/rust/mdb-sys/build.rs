//! Links libmdb.a: that of the folder that MDB_LIB_DIR names, else the one that lies in this crate for the target, else that of bindings/out in a checkout.
use std::env;
use std::path::PathBuf;

fn variable(name: &str) -> String {
    env::var(name).unwrap_or_default()
}

/// The folders that may have libmdb.a, the first one first.
fn places() -> Vec<PathBuf> {
    if let Some(folder) = env::var_os("MDB_LIB_DIR") {
        return vec![PathBuf::from(folder)];
    }
    let here = PathBuf::from(variable("CARGO_MANIFEST_DIR"));
    let target = format!("{}-{}", variable("CARGO_CFG_TARGET_ARCH"), variable("CARGO_CFG_TARGET_OS"));
    vec![here.join("lib").join(target), here.join("../../out")]
}

fn main() {
    println!("cargo:rerun-if-env-changed=MDB_LIB_DIR");
    let places = places();
    for folder in &places {
        println!("cargo:rerun-if-changed={}", folder.join("libmdb.a").display());
    }
    match places.iter().find(|folder| folder.join("libmdb.a").is_file()) {
        Some(folder) => {
            println!("cargo:rustc-link-search=native={}", folder.display());
            println!("cargo:rustc-link-lib=static=mdb");
        }
        None => {
            let looked: Vec<String> = places.iter().map(|folder| folder.display().to_string()).collect();
            eprintln!("mdb-sys: no libmdb.a in {}: run `make -C bindings`, or name its folder by MDB_LIB_DIR", looked.join(" or "));
            std::process::exit(1);
        }
    }
}
