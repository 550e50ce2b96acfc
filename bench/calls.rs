//! The cases of `crates/bench/src/calls.rt` over the types of Rust's std.
use crate::{Sink, format_often};
use std::hint::black_box;
use std::io::{self, BufRead, BufReader, BufWriter, LineWriter, Read, Seek, SeekFrom, Write};

struct Place<'a> {
    all: &'a [u8],
    at: usize,
}

impl Read for Place<'_> {
    #[inline(never)]
    fn read(&mut self, out: &mut [u8]) -> io::Result<usize> {
        let left = &self.all[self.at.min(self.all.len())..];
        let n = out.len().min(left.len());
        out[..n].copy_from_slice(&left[..n]);
        self.at += n;
        Ok(n)
    }
}

impl Seek for Place<'_> {
    #[inline(never)]
    fn seek(&mut self, to: SeekFrom) -> io::Result<u64> {
        let at = match to {
            SeekFrom::Start(at) => Some(at),
            SeekFrom::End(by) => (self.all.len() as u64).checked_add_signed(by),
            SeekFrom::Current(by) => (self.at as u64).checked_add_signed(by),
        };
        let at = at.ok_or(io::ErrorKind::InvalidInput)?;
        self.at = at as usize;
        Ok(at)
    }
}

#[inline(never)]
fn until_end(mut reader: impl BufRead) -> io::Result<u64> {
    let (mut total, mut line) = (0, Vec::new());
    for _ in 0..u64::MAX {
        line.clear();
        let n = reader.read_until(b'\n', &mut line)?;
        if n == 0 {
            break;
        }
        total += n as u64;
    }
    Ok(total)
}

#[inline(never)]
fn skip_to_end(mut reader: impl BufRead) -> io::Result<u64> {
    let mut total = 0;
    for _ in 0..u64::MAX {
        let n = reader.skip_until(b'\n')?;
        if n == 0 {
            break;
        }
        total += n as u64;
    }
    Ok(total)
}

#[inline(never)]
fn line_by_line(mut reader: impl BufRead) -> io::Result<u64> {
    let (mut total, mut line) = (0, String::new());
    for _ in 0..u64::MAX {
        line.clear();
        let n = reader.read_line(&mut line)?;
        if n == 0 {
            break;
        }
        total += n as u64;
    }
    Ok(total)
}

#[inline(never)]
fn lines_to_end(reader: impl BufRead) -> io::Result<u64> {
    let mut total = 0;
    for line in reader.lines() {
        total += line?.len() as u64 + 1;
    }
    Ok(total)
}

#[inline(never)]
fn split_to_end(reader: impl BufRead) -> io::Result<u64> {
    let mut total = 0;
    for piece in reader.split(b'\n') {
        total += piece?.len() as u64 + 1;
    }
    Ok(total)
}

#[inline(never)]
fn bytes_to_end(reader: impl Read) -> io::Result<u64> {
    let (mut total, mut sum, mut bytes) = (0, 0u8, reader.bytes());
    for _ in 0..u64::MAX {
        match bytes.next() {
            Some(byte) => sum = sum.wrapping_add(byte?),
            None => break,
        }
        total += 1;
    }
    black_box(sum);
    Ok(total)
}

#[inline(never)]
fn onward(mut reader: BufReader<Place<'_>>, piece: usize) -> io::Result<u64> {
    let mut turns = 0;
    for _ in 0..u64::MAX {
        if reader.fill_buf()?.is_empty() {
            break;
        }
        reader.seek_relative(piece as i64)?;
        turns += 1;
    }
    Ok(turns)
}

#[inline(never)]
fn positions(mut reader: BufReader<Place<'_>>, piece: usize) -> io::Result<u64> {
    let (mut turns, mut sum) = (0, 0u64);
    for _ in 0..u64::MAX {
        if reader.fill_buf()?.is_empty() {
            break;
        }
        sum = sum.wrapping_add(reader.stream_position()?);
        reader.consume(piece);
        turns += 1;
    }
    black_box(sum);
    Ok(turns)
}

#[inline(never)]
fn write_bytes(mut writer: impl Write, bytes: &[u8]) -> io::Result<u64> {
    let mut total = 0;
    for byte in bytes {
        writer.write_all(&[*byte])?;
        total += 1;
    }
    writer.flush()?;
    Ok(total)
}

/// Whether lines are read by it.
pub fn takes_lines(shape: &str) -> bool {
    matches!(shape, "read_until" | "skip_until" | "read_line" | "lines_of" | "split")
}

pub fn calls(shape: &str, capacity: usize, piece: usize, bytes: &[u8]) -> io::Result<u64> {
    let reader = BufReader::with_capacity(capacity, Place { all: bytes, at: 0 });
    match shape {
        "read_until" => until_end(reader),
        "skip_until" => skip_to_end(reader),
        "read_line" => line_by_line(reader),
        "lines_of" => lines_to_end(reader),
        "split" => split_to_end(reader),
        "bytes" => bytes_to_end(reader),
        "onward" => onward(reader, piece),
        "positions" => positions(reader, piece),
        "write_bytes" => write_bytes(BufWriter::with_capacity(capacity, Sink::default()), bytes),
        "own_format" => format_often(BufWriter::with_capacity(capacity, Sink::default()), bytes.len() as u64),
        "own_format_lines" => format_often(LineWriter::with_capacity(capacity, Sink::default()), bytes.len() as u64),
        _ => Ok(0),
    }
}
