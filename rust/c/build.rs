//! Names the shared library by the number of its ABI, so that a program that was linked with another one
//! doesn't start.

fn main() {
    println!("cargo::rerun-if-changed=include/gpu_descriptor.h");
    let header = std::fs::read_to_string("include/gpu_descriptor.h").expect("the header is there");
    let mut abi = header
        .lines()
        .filter_map(|line| line.strip_prefix("#define GD_ABI "));
    let abi = abi
        .next()
        .expect("the header has the ABI's number")
        .trim_end_matches('u');
    let is_elf = std::env::var("CARGO_CFG_UNIX").is_ok()
        && std::env::var("CARGO_CFG_TARGET_VENDOR").is_ok_and(|vendor| vendor != "apple");
    if is_elf {
        println!("cargo::rustc-cdylib-link-arg=-Wl,-soname,libgpu_descriptor_c.so.{abi}");
    }
}
