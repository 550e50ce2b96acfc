//! The cases of `crates/bench` over the types of Rust's std: `std SHAPE CAPACITY PIECE TOTAL TURNS`, the first three numbers in
//! bytes. It goes over the same bytes so many times, and prints how many went over in one. Its loops are those of `crates/bench`:
//! where one there has a bound, so that it ends, the one here counts too. `std get` does what bench/parts.py asks.
mod calls;
mod parts;

use std::hint::black_box;
use std::io::{self, BufRead, BufReader, BufWriter, LineWriter, Read, Write};

struct Source<'a> {
    left: &'a [u8],
}

impl Read for Source<'_> {
    #[inline(never)]
    fn read(&mut self, out: &mut [u8]) -> io::Result<usize> {
        let n = out.len().min(self.left.len());
        let (given, left) = self.left.split_at(n);
        out[..n].copy_from_slice(given);
        self.left = left;
        Ok(n)
    }
}

struct Packets<'a> {
    left: &'a [u8],
    most: usize,
}

impl Read for Packets<'_> {
    #[inline(never)]
    fn read(&mut self, out: &mut [u8]) -> io::Result<usize> {
        let n = out.len().min(self.most).min(self.left.len());
        let (given, left) = self.left.split_at(n);
        out[..n].copy_from_slice(given);
        self.left = left;
        Ok(n)
    }
}

#[derive(Default)]
struct Sink {
    firsts: u64,
}

impl Write for Sink {
    #[inline(never)]
    fn write(&mut self, bytes: &[u8]) -> io::Result<usize> {
        if let Some(first) = bytes.first() {
            self.firsts = self.firsts.wrapping_add(u64::from(*first));
        }
        Ok(bytes.len())
    }

    fn flush(&mut self) -> io::Result<()> {
        Ok(())
    }
}

#[inline(never)]
fn read_to_end(mut reader: impl Read, out: &mut [u8]) -> io::Result<u64> {
    let mut total = 0;
    for _ in 0..u64::MAX {
        let n = reader.read(out)?;
        if n == 0 {
            break;
        }
        total += n as u64;
    }
    Ok(total)
}

#[inline(never)]
fn fill_to_end(mut reader: impl BufRead, piece: usize) -> io::Result<u64> {
    let mut total = 0;
    for _ in 0..u64::MAX {
        let n = reader.fill_buf()?.len().min(piece);
        if n == 0 {
            break;
        }
        reader.consume(n);
        total += n as u64;
    }
    Ok(total)
}

#[inline(never)]
fn write_often(mut writer: impl Write, piece: &[u8], least: u64) -> io::Result<u64> {
    let mut total = 0;
    while total < least {
        total += writer.write(piece)? as u64;
    }
    writer.flush()?;
    Ok(total)
}

#[inline(never)]
fn each_byte(mut reader: impl Read) -> io::Result<u64> {
    let mut byte = [0u8; 1];
    let mut total = 0;
    for _ in 0..u64::MAX {
        let n = reader.read(&mut byte)?;
        if n == 0 {
            break;
        }
        total += n as u64;
    }
    Ok(total)
}

#[inline(never)]
fn exact_to_end(mut reader: impl Read, least: u64) -> io::Result<u64> {
    let mut word = [0u8; 8];
    let (mut total, mut sum) = (0u64, 0u8);
    while total < least {
        reader.read_exact(&mut word)?;
        sum = sum.wrapping_add(word[7]);
        total += 8;
    }
    Ok(if sum == 255 { total + 1 } else { total })
}

#[inline(never)]
fn write_all_often(mut writer: impl Write, piece: &[u8], least: u64) -> io::Result<u64> {
    let mut total = 0;
    while total < least {
        writer.write_all(piece)?;
        total += piece.len() as u64;
    }
    writer.flush()?;
    Ok(total)
}

#[inline(never)]
fn format_often(mut writer: impl Write, least: u64) -> io::Result<u64> {
    let name = black_box("value");
    let (mut total, mut at) = (0, 0u64);
    while total < least {
        let number = 1000000 + at;
        at += 1;
        write!(writer, "{name} {number}: {name}\n")?;
        total += 21;
    }
    writer.flush()?;
    Ok(total)
}

#[inline(never)]
fn copy_to_end(mut reader: impl BufRead, mut writer: impl Write) -> io::Result<u64> {
    let mut total = 0;
    for _ in 0..u64::MAX {
        let n = writer.write(reader.fill_buf()?)?;
        if n == 0 {
            break;
        }
        reader.consume(n);
        total += n as u64;
    }
    writer.flush()?;
    Ok(total)
}

fn copy_at_once(mut reader: impl BufRead, mut writer: impl Write) -> io::Result<u64> {
    let total = io::copy(&mut reader, &mut writer)?;
    writer.flush()?;
    Ok(total)
}

#[inline(never)]
fn until_end(mut reader: impl BufRead) -> io::Result<u64> {
    let (mut total, mut line) = (0, Vec::new());
    for _ in 0..u64::MAX {
        line.clear();
        let n = reader.read_until(b'\n', &mut line)?;
        if n == 0 {
            break;
        }
        total += n as u64;
    }
    Ok(total)
}

#[inline(never)]
fn lines_to_end(reader: impl BufRead) -> io::Result<u64> {
    let mut total = 0;
    for line in reader.lines() {
        total += line?.len() as u64 + 1;
    }
    Ok(total)
}

/// Lends frames out of the buffer where they stand there whole, and else reads them into a block of its own.
struct Frames<R> {
    inner: R,
    payload: Vec<u8>,
    lent: usize,
}

impl<R: BufRead> Frames<R> {
    #[inline(never)]
    fn next(&mut self) -> io::Result<Option<&[u8]>> {
        self.inner.consume(self.lent);
        self.lent = 0;
        let shown = self.inner.fill_buf()?;
        if shown.is_empty() {
            return Ok(None);
        }
        if let [high, low, ..] = *shown {
            let whole = 2 + fitting([high, low], self.payload.len())?;
            if shown.len() >= whole {
                self.lent = whole;
                return Ok(Some(&self.inner.fill_buf()?[2..whole]));
            }
        }
        let mut header = [0; 2];
        self.inner.read_exact(&mut header)?;
        let length = fitting(header, self.payload.len())?;
        self.inner.read_exact(&mut self.payload[..length])?;
        Ok(Some(&self.payload[..length]))
    }
}

fn fitting(header: [u8; 2], greatest: usize) -> io::Result<usize> {
    let length = usize::from(u16::from_be_bytes(header));
    if length > greatest {
        return Err(io::ErrorKind::InvalidData.into());
    }
    Ok(length)
}

#[inline(never)]
fn frames_to_end(mut reader: Frames<impl BufRead>) -> io::Result<u64> {
    let mut total = 0;
    for _ in 0..u64::MAX {
        match reader.next()? {
            Some(payload) => total += payload.len() as u64 + 2,
            None => break,
        }
    }
    Ok(total)
}

#[inline(never)]
fn write_frame(writer: &mut impl Write, payload: &[u8]) -> io::Result<()> {
    if payload.len() > 1024 {
        return Err(io::ErrorKind::InvalidInput.into());
    }
    writer.write_all(&(payload.len() as u16).to_be_bytes())?;
    writer.write_all(payload)
}

#[inline(never)]
fn write_frames(mut writer: impl Write, payload: &[u8], least: u64) -> io::Result<u64> {
    let mut total = 0;
    while total < least {
        write_frame(&mut writer, payload)?;
        total += payload.len() as u64 + 2;
    }
    writer.flush()?;
    Ok(total)
}

/// Reads the payload of a body in the chunked coding, without extensions or trailers.
struct Chunks<R> {
    inner: R,
    line: Vec<u8>,
    left: usize,
    first: bool,
}

impl<R: BufRead> Chunks<R> {
    #[inline(never)]
    fn read(&mut self, out: &mut [u8]) -> io::Result<usize> {
        if self.left == 0 {
            self.left = self.next_size()?;
            if self.left == 0 {
                return Ok(0);
            }
        }
        let most = out.len().min(self.left);
        let n = self.inner.read(&mut out[..most])?;
        if n == 0 {
            return Err(io::ErrorKind::UnexpectedEof.into());
        }
        self.left -= n;
        Ok(n)
    }

    fn next_size(&mut self) -> io::Result<usize> {
        if !self.first {
            self.next_line()?;
        }
        self.first = false;
        let line = self.next_line()?;
        let size = std::str::from_utf8(line).ok().and_then(|text| usize::from_str_radix(text, 16).ok());
        size.ok_or_else(|| io::ErrorKind::InvalidData.into())
    }

    fn next_line(&mut self) -> io::Result<&[u8]> {
        self.line.clear();
        self.inner.by_ref().take(64).read_until(b'\n', &mut self.line)?;
        self.line.strip_suffix(b"\r\n").ok_or_else(|| io::ErrorKind::InvalidData.into())
    }
}

#[inline(never)]
fn body_to_end(mut body: Chunks<impl BufRead>) -> io::Result<u64> {
    let mut out = [0; 4096];
    let mut total = 0;
    for _ in 0..u64::MAX {
        let n = body.read(&mut out)?;
        if n == 0 {
            break;
        }
        total += n as u64;
    }
    Ok(total)
}

/// Writes a chunk by hand.
#[inline(never)]
fn write_chunk(writer: &mut impl Write, payload: &[u8]) -> io::Result<()> {
    write!(writer, "{:x}\r\n", payload.len())?;
    writer.write_all(payload)?;
    writer.write_all(b"\r\n")
}

#[inline(never)]
fn write_body(mut writer: impl Write, payload: &[u8], least: u64) -> io::Result<u64> {
    let mut total = 0;
    while total < least {
        write_chunk(&mut writer, payload)?;
        total += payload.len() as u64;
    }
    writer.write_all(b"0\r\n\r\n")?;
    writer.flush()?;
    Ok(total)
}

#[no_mangle]
#[inline(never)]
fn measured(shape: &str, capacity: usize, piece: usize, bytes: &[u8]) -> io::Result<u64> {
    let reader = || BufReader::with_capacity(capacity, Source { left: bytes });
    let writer = |capacity| BufWriter::with_capacity(capacity, Sink::default());
    let lines = |capacity| LineWriter::with_capacity(capacity, Sink::default());
    match shape {
        "read" => read_to_end(reader(), &mut vec![0; piece]),
        "fill" => fill_to_end(reader(), piece),
        "write" => write_often(writer(capacity), &bytes[..piece], bytes.len() as u64),
        "lines" => {
            let mut line = vec![b'x'; piece];
            line[piece - 1] = b'\n';
            write_often(lines(capacity), &line, bytes.len() as u64)
        }
        "copy" => copy_to_end(reader(), writer(piece)),
        "copy_buf" => copy_at_once(reader(), writer(piece)),
        "byte" => each_byte(reader()),
        "exact" => exact_to_end(reader(), bytes.len() as u64),
        "write_all" => write_all_often(writer(capacity), &bytes[..piece], bytes.len() as u64),
        "format" => format_often(writer(capacity), bytes.len() as u64),
        "format_lines" => format_often(lines(capacity), bytes.len() as u64),
        "next" => until_end(BufReader::new(Packets { left: bytes, most: piece })),
        "next_trimmed" => lines_to_end(BufReader::new(Packets { left: bytes, most: piece })),
        "read_parts" | "fill_parts" => parts::parts(shape, reader()),
        "frames" => frames_to_end(Frames { inner: reader(), payload: vec![0; 1024], lent: 0 }),
        "bodies" => body_to_end(Chunks { inner: reader(), line: Vec::new(), left: 0, first: true }),
        "write_bodies" => write_body(writer(capacity), &bytes[..piece], bytes.len() as u64),
        "write_frames" => write_frames(writer(capacity), &bytes[..piece], bytes.len() as u64),
        _ => calls::calls(shape, capacity, piece, bytes),
    }
}

fn framed(length: usize, total: usize) -> Vec<u8> {
    let mut bytes = Vec::with_capacity(total);
    for at in 0..total / (2 + length) {
        bytes.extend_from_slice(&(length as u16).to_be_bytes());
        bytes.resize(bytes.len() + length, at as u8);
    }
    bytes
}

fn chunked_body(length: usize, total: usize) -> Vec<u8> {
    let mut bytes = Vec::with_capacity(total);
    for at in 0..total / length {
        bytes.extend_from_slice(format!("{length:x}\r\n").as_bytes());
        bytes.resize(bytes.len() + length, at as u8);
        bytes.extend_from_slice(b"\r\n");
    }
    bytes.extend_from_slice(b"0\r\n\r\n");
    bytes
}

fn noise(total: usize) -> Vec<u8> {
    let mut state = 1u32;
    (0..total)
        .map(|_| {
            state = state.wrapping_mul(1103515245).wrapping_add(12345);
            (state >> 16) as u8
        })
        .collect()
}

fn text(length: usize, total: usize) -> Vec<u8> {
    (1..=total).map(|at| if at % length == 0 { b'\n' } else { b'x' }).collect()
}

fn main() -> io::Result<()> {
    let words: Vec<String> = std::env::args().skip(1).collect();
    let [shape, numbers @ ..] = words.as_slice() else {
        return Err(io::ErrorKind::InvalidInput.into());
    };
    if shape == "get" {
        return parts::get();
    }
    let numbers: Vec<usize> = numbers.iter().filter_map(|word| word.parse().ok()).collect();
    let [capacity, piece, total, turns] = numbers[..] else {
        return Err(io::ErrorKind::InvalidInput.into());
    };
    let bytes = match shape.as_str() {
        "next" | "next_trimmed" => text(capacity, total),
        "frames" => framed(piece, total),
        "bodies" => chunked_body(piece, total),
        "read_parts" | "fill_parts" => parts::form(piece, &noise(total)),
        shape if calls::takes_lines(shape) => text(piece, total),
        _ => noise(total),
    };
    let mut over = 0;
    for _ in 0..turns {
        over = measured(shape, capacity, piece, black_box(&bytes))?;
    }
    println!("{over}");
    Ok(())
}
