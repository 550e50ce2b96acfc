//! Copies standard input to standard output by `io::copy`. Under any word it hides from that what the two are, so that it asks
//! the kernel for reads and writes of 8192 bytes alone.
use std::fs::File;
use std::io::{self, Read, Write};
use std::os::fd::AsFd;

struct Hidden<S>(S);

impl<S: Read> Read for Hidden<S> {
    fn read(&mut self, out: &mut [u8]) -> io::Result<usize> {
        self.0.read(out)
    }
}

impl<S: Write> Write for Hidden<S> {
    fn write(&mut self, bytes: &[u8]) -> io::Result<usize> {
        self.0.write(bytes)
    }

    fn flush(&mut self) -> io::Result<()> {
        self.0.flush()
    }
}

fn main() -> io::Result<()> {
    let mut input = File::from(io::stdin().as_fd().try_clone_to_owned()?);
    let mut output = File::from(io::stdout().as_fd().try_clone_to_owned()?);
    if std::env::args().count() > 1 {
        io::copy(&mut Hidden(input), &mut Hidden(output))?;
        return Ok(());
    }
    io::copy(&mut input, &mut output)?;
    Ok(())
}
