//! Many programs in one process, which saves the start of a process for each.
//!
//! The input has one program after the other, each after its length in bytes, 8 bytes with the
//! lowest first. To each program the exit code is written, in one byte, then the length of its
//! output in the same way, then the output.

use crate::descriptor_lines::run_lines;
use crate::kit::alloc::Global;
use std::io::{BufReader, BufWriter, Read, Result, Write};

/// Runs the programs of `input`. Each run begins with a new device and a new allocator.
pub fn run(input: &mut impl Read, output: &mut impl Write) -> Result<()> {
    let (mut input, mut output) = (BufReader::new(input), BufWriter::new(output));
    let mut program = Vec::new();
    while let Some(len) = read_len(&mut input)? {
        program.resize(len, 0);
        input.read_exact(&mut program)?;
        let mut written = Vec::new();
        let exit = run_lines(Global, &mut program.as_slice(), &mut written);
        output.write_all(&[exit.code()])?;
        output.write_all(&(written.len() as u64).to_le_bytes())?;
        output.write_all(&written)?;
    }
    output.flush()
}

/// The next length, or `None` at the end of the input.
fn read_len(input: &mut impl Read) -> Result<Option<usize>> {
    let mut len = [0; 8];
    if input.read(&mut len[..1])? == 0 {
        return Ok(None);
    }
    input.read_exact(&mut len[1..])?;
    Ok(Some(u64::from_le_bytes(len) as usize))
}
