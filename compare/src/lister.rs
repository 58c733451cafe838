//! The proved lister, run as a program.

use std::io::{self, Read, Write};
use std::path::PathBuf;
use std::process::{Child, Command, Stdio};
use std::thread;

/// Odd on purpose: the lister has to assemble a long pool from pieces.
const PIECE: usize = 4_093;

pub struct Lister {
    program: PathBuf,
}

impl Lister {
    pub fn new(program: PathBuf) -> Self {
        Lister { program }
    }

    /// What the lister prints for `pool`.
    pub fn output(&self, pool: &[u8]) -> io::Result<Vec<u8>> {
        let mut child = Command::new(&self.program)
            .stdin(Stdio::piped())
            .stdout(Stdio::piped())
            .spawn()?;
        let output = exchange(&mut child, pool);
        let status = child.wait()?;
        if status.code().is_none() {
            return Err(io::Error::other("the lister was ended by a signal"));
        }
        output
    }
}

/// Writes and reads at the same time, so that neither side waits on a full
/// pipe.
fn exchange(child: &mut Child, pool: &[u8]) -> io::Result<Vec<u8>> {
    let mut input = child.stdin.take().expect("standard input is piped");
    let mut stdout = child.stdout.take().expect("standard output is piped");
    thread::scope(|scope| {
        scope.spawn(move || {
            // The lister may stop reading at its limit, which breaks the pipe.
            let _ = pool
                .chunks(PIECE)
                .try_for_each(|piece| input.write_all(piece));
        });
        let mut output = Vec::new();
        stdout.read_to_end(&mut output)?;
        Ok(output)
    })
}
