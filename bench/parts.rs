//! The cases of `crates/bench/src/parts.rt` over the types of Rust's std, by hand.
use std::fs::File;
use std::io::{self, BufRead, BufReader, BufWriter, Read, Write};
use std::ops::Range;
use std::os::fd::AsFd;

const BOUNDARY: &[u8] = b"------------------------7e8e528b8b54de33";
const HEAD: &[u8] = b"\r\nContent-Disposition: form-data; name=\"file\"\r\n\r\n";
const MOST_HEAD: u64 = 4096;
const ASKED: usize = 65536;

/// Searches for some bytes as Horspool did: by the last byte of a window it knows how far the next one stands behind it.
struct Search {
    needle: Vec<u8>,
    skip: [usize; 256],
}

impl Search {
    fn new(needle: Vec<u8>) -> Self {
        let mut skip = [needle.len(); 256];
        for (at, byte) in needle[..needle.len() - 1].iter().enumerate() {
            skip[usize::from(*byte)] = needle.len() - 1 - at;
        }
        Search { needle, skip }
    }

    fn find(&self, bytes: &[u8]) -> Option<usize> {
        let (last, front) = self.needle.split_last()?;
        let mut at = front.len();
        while at < bytes.len() {
            if bytes[at] == *last && bytes[at - front.len()..at] == *front {
                return Some(at - front.len());
            }
            at += self.skip[usize::from(bytes[at])];
        }
        None
    }

    /// Where the needle may begin in bytes in which it doesn't stand.
    fn may_begin(&self, bytes: &[u8]) -> usize {
        let least = bytes.len().saturating_sub(self.needle.len() - 1);
        (least..bytes.len()).find(|at| self.needle.starts_with(&bytes[*at..])).unwrap_or(bytes.len())
    }
}

/// Reads the parts of a multipart body. The text of one goes on up to a line end and a boundary, or up to a boundary that begins it.
struct Parts<R> {
    inner: BufReader<R>,
    end: Search,
    head: Vec<u8>,
    /// Which bytes of `end` were taken, behind which the rest of it may come; a line end stands in front of each text.
    begun: Range<usize>,
    /// Which bytes of `end` are text, since its rest didn't come, and how many that are buffered.
    held: Range<usize>,
    known: usize,
    ended: bool,
    over: bool,
}

impl<R: Read> Parts<R> {
    fn new(inner: BufReader<R>, boundary: &[u8]) -> Self {
        let end = Search::new([b"\r\n--", boundary].concat());
        Parts { inner, end, head: Vec::new(), begun: 2..2, held: 0..0, known: 0, ended: false, over: false }
    }

    #[inline(never)]
    fn next_part(&mut self) -> io::Result<bool> {
        for _ in 0..u64::MAX {
            let count = self.fill()?;
            if count == 0 {
                break;
            }
            self.consume(count);
        }
        if self.over {
            return Ok(false);
        }
        let mut mark = [0; 2];
        self.inner.read_exact(&mut mark)?;
        if mark == *b"--" {
            self.over = true;
            return Ok(false);
        }
        self.head.clear();
        self.head.extend_from_slice(&mark);
        while !self.head.ends_with(b"\r\n\r\n") {
            let most = MOST_HEAD.saturating_sub(self.head.len() as u64);
            if self.inner.by_ref().take(most).read_until(b'\n', &mut self.head)? == 0 {
                return Err(io::ErrorKind::InvalidData.into());
            }
        }
        let blanks = self.head.iter().take_while(|byte| matches!(byte, b' ' | b'\t')).count();
        if !self.head[blanks..].starts_with(b"\r\n") {
            return Err(io::ErrorKind::InvalidData.into());
        }
        (self.begun, self.ended) = (2..2, false);
        Ok(true)
    }

    /// How many bytes of text `piece` lends: none only where it ended.
    #[inline(never)]
    fn fill(&mut self) -> io::Result<usize> {
        if !self.piece().is_empty() {
            return Ok(self.piece().len());
        }
        while !self.ended {
            let shown = self.inner.fill_buf()?;
            if shown.is_empty() {
                return Err(io::ErrorKind::UnexpectedEof.into());
            }
            if self.begun.end > 0 {
                let rest = &self.end.needle[self.begun.end..];
                let count = rest.len().min(shown.len());
                if shown[..count] == rest[..count] {
                    self.ended = count == rest.len();
                    self.begun.end += count;
                    self.inner.consume(count);
                    continue;
                }
                // The next CR of the needle is its first byte, so what was taken is text.
                self.held = self.begun.clone();
                self.begun = 0..0;
                if !self.held.is_empty() {
                    return Ok(self.held.len());
                }
            }
            match self.end.find(shown) {
                Some(0) => {
                    self.ended = true;
                    self.inner.consume(self.end.needle.len());
                }
                Some(at) => {
                    self.known = at;
                    return Ok(at);
                }
                None => {
                    let at = self.end.may_begin(shown);
                    if at > 0 {
                        self.known = at;
                        return Ok(at);
                    }
                    self.begun = 0..shown.len();
                    self.inner.consume(self.begun.end);
                }
            }
        }
        Ok(0)
    }

    fn piece(&self) -> &[u8] {
        if self.held.is_empty() { &self.inner.buffer()[..self.known] } else { &self.end.needle[self.held.clone()] }
    }

    fn consume(&mut self, count: usize) {
        if self.held.is_empty() {
            self.inner.consume(count);
            self.known -= count;
        } else {
            self.held.start += count;
        }
    }

    #[inline(never)]
    fn read(&mut self, out: &mut [u8]) -> io::Result<usize> {
        let count = self.fill()?.min(out.len());
        out[..count].copy_from_slice(&self.piece()[..count]);
        self.consume(count);
        Ok(count)
    }
}

#[inline(never)]
fn read_texts<R: Read>(mut parts: Parts<R>, out: &mut [u8]) -> io::Result<u64> {
    let mut total = 0;
    for _ in 0..u64::MAX {
        if !parts.next_part()? {
            break;
        }
        for _ in 0..u64::MAX {
            let n = parts.read(out)?;
            if n == 0 {
                break;
            }
            total += n as u64;
        }
    }
    Ok(total)
}

#[inline(never)]
fn fill_texts<R: Read>(mut parts: Parts<R>) -> io::Result<u64> {
    let mut total = 0;
    for _ in 0..u64::MAX {
        if !parts.next_part()? {
            break;
        }
        for _ in 0..u64::MAX {
            let n = parts.fill()?;
            if n == 0 {
                break;
            }
            total += parts.piece().len() as u64;
            parts.consume(n);
        }
    }
    Ok(total)
}

pub fn parts<R: Read>(shape: &str, reader: BufReader<R>) -> io::Result<u64> {
    let parts = Parts::new(reader, BOUNDARY);
    match shape {
        "read_parts" => read_texts(parts, &mut vec![0; ASKED]),
        _ => fill_texts(parts),
    }
}

/// A body whose parts have these bytes as their texts, each so many of them.
pub fn form(length: usize, texts: &[u8]) -> Vec<u8> {
    let mut bytes = Vec::with_capacity(texts.len());
    for text in texts.chunks(length) {
        bytes.extend_from_slice(&[b"--", BOUNDARY, HEAD, text, b"\r\n"].concat());
    }
    bytes.extend_from_slice(&[b"--", BOUNDARY, b"--"].concat());
    bytes
}

/// Writes the text of the first part of standard input to standard output, through as many bytes as `parts get` does.
pub fn get() -> io::Result<()> {
    let input = File::from(io::stdin().as_fd().try_clone_to_owned()?);
    let mut output = BufWriter::with_capacity(16384, File::from(io::stdout().as_fd().try_clone_to_owned()?));
    let mut parts = Parts::new(BufReader::with_capacity(16384, input), BOUNDARY);
    if !parts.next_part()? {
        return Err(io::ErrorKind::NotFound.into());
    }
    loop {
        let count = parts.fill()?;
        if count == 0 {
            return output.flush();
        }
        output.write_all(parts.piece())?;
        parts.consume(count);
    }
}
