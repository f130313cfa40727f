use std::process::Command;

// Where libgfshare is installed, the benchmarks run it too. Nothing else needs it or is linked with it.
fn main() {
    println!("cargo:rustc-check-cfg=cfg(gfshare)");
    let Ok(found) = Command::new("pkg-config").args(["--libs", "libgfshare"]).output() else {
        return;
    };
    if found.status.success() {
        println!("cargo:rustc-cfg=gfshare");
        for flag in String::from_utf8_lossy(&found.stdout).split_whitespace() {
            println!("cargo:rustc-link-arg-benches={flag}");
        }
    }
}
