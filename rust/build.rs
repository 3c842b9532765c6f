//! Tells the linker where liblcf.a stands: in LCF_LIB_DIR, or where pkg-config says that it was installed.
use std::{env, process::Command};

fn main() {
    let folder = env::var("LCF_LIB_DIR").unwrap_or_else(|_| {
        let asked = Command::new("pkg-config").args(["--variable=libdir", "lcf"]).output();
        let told = asked.ok().filter(|o| o.status.success()).and_then(|o| String::from_utf8(o.stdout).ok());
        told.expect("liblcf.a isn't installed: run `make install`, or set LCF_LIB_DIR to its folder").trim().into()
    });
    println!("cargo:rustc-link-search=native={folder}");
    println!("cargo:rustc-link-lib=static=lcf");
    println!("cargo:rerun-if-env-changed=LCF_LIB_DIR");
}
