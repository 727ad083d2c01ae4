//! The line program: each line of standard input is a call of the allocator, over a device that grants and
//! refuses by a script, and each gets an answer on standard output. rust/line-program/LINES.md has the commands.
//!
//! Generated from proved sources are the modules `descriptor_script` and `descriptor_lines`,
//! and `gpu_descriptor_types` and `gpu_descriptor`, which are the files of
//! rust/gpu-descriptor. By hand are `kit`, `indexmap`, `itoa` and `macros`, in which the sources find what
//! they take of the kit's std, `main`, and `many` for tests.
extern crate alloc as std_alloc;

#[path = "../../gpu-descriptor/src/kit/mod.rs"]
#[allow(dead_code)]
#[forbid(unsafe_code)]
mod crate_kit;
#[macro_use]
mod macros;

// Of the generated modules this program calls a part: the rest is for other programs.
#[allow(dead_code, unused_imports, clippy::all)]
#[forbid(unsafe_code)]
#[rustfmt::skip]
mod descriptor_lines;
#[allow(dead_code, unused_imports, unused_variables, clippy::all)]
#[forbid(unsafe_code)]
#[rustfmt::skip]
mod descriptor_script;
#[path = "../../gpu-descriptor/src/gpu_descriptor/mod.rs"]
#[allow(dead_code, unused_imports, clippy::all)]
#[rustfmt::skip]
mod gpu_descriptor;
#[path = "../../gpu-descriptor/src/gpu_descriptor_types/mod.rs"]
#[allow(dead_code, unused_imports, clippy::all)]
#[forbid(unsafe_code)]
#[rustfmt::skip]
mod gpu_descriptor_types;
#[cfg(test)]
mod ids;
mod indexmap;
mod itoa;
mod kit;
mod many;
#[cfg(test)]
mod memory;
#[cfg(test)]
mod names;
#[cfg(test)]
mod runs;

use std::io;
use std::process::ExitCode;

fn main() -> io::Result<ExitCode> {
    let (mut input, mut output) = (io::stdin().lock(), io::stdout().lock());
    if std::env::args().skip(1).eq(["--many"]) {
        many::run(&mut input, &mut output)?;
        return Ok(ExitCode::SUCCESS);
    }
    let exit = descriptor_lines::run_lines(kit::alloc::Global, &mut input, &mut output);
    Ok(ExitCode::from(exit.code()))
}
