//! Links libpeer.a, which tools/bench/rust makes of simdjson.cpp in the folder PEER_DIR, and Debian's simdjson.
fn main() {
    println!("cargo:rerun-if-env-changed=PEER_DIR");
    println!("cargo:rustc-link-search=native={}", std::env::var("PEER_DIR").unwrap());
    println!("cargo:rustc-link-lib=static=peer");
    println!("cargo:rustc-link-lib=simdjson");
    println!("cargo:rustc-link-lib=stdc++");
}
