//! Job lines: one, or all that a reader has.

use std::io::{self, ErrorKind, Read, Write};

use crate::slices::{self, NotFed, Stream};

/// Bytes that are read at once; and lent output, long enough for any answer.
const BLOCK: usize = 65_536;

/// The answer to a job line, both without LF. A refused job is an answer, too: `no` and the number.
pub fn answer_line(line: &[u8]) -> Vec<u8> {
    let mut out = vec![0; crate::LINE_BYTES];
    let count =
        slices::job_line(line, &mut out).expect("no answer is longer than the longest line");
    out.truncate(count);
    out
}

/// Answers every job line of a reader, one line each, in memory that does not grow. The answers of a block that is read are written
/// before the next is read. The first error of either is handed on, that of the last flush too.
///
/// ```
/// let mut answers = Vec::new();
/// lizardwire::answer_jobs(&b"no job\nanother"[..], &mut answers)?;
/// assert_eq!(answers, b"no,22\nno,22\n");
/// # Ok::<(), std::io::Error>(())
/// ```
pub fn answer_jobs<R: Read, W: Write>(mut jobs: R, mut answers: W) -> io::Result<()> {
    let mut stream = Box::new(Stream::new());
    let (mut block, mut out) = (vec![0; BLOCK], vec![0; BLOCK]);
    loop {
        match read(&mut jobs, &mut block)? {
            0 => break,
            count => feed(&mut stream, &block[..count], &mut out, &mut answers)?,
        }
    }
    let fed = stream.finish(&mut out).map_err(broken)?;
    answers.write_all(&out[..fed.written])?;
    answers.flush()
}

/// The next bytes, none at the end.
fn read<R: Read>(jobs: &mut R, block: &mut [u8]) -> io::Result<usize> {
    loop {
        match jobs.read(block) {
            Err(error) if error.kind() == ErrorKind::Interrupted => {}
            told => return told,
        }
    }
}

/// Feeds a whole block, and writes the answers.
fn feed<W: Write>(
    stream: &mut Stream,
    mut block: &[u8],
    out: &mut [u8],
    answers: &mut W,
) -> io::Result<()> {
    while !block.is_empty() {
        let fed = stream.feed(block, out).map_err(broken)?;
        answers.write_all(&out[..fed.written])?;
        block = &block[fed.taken..];
    }
    Ok(())
}

fn broken(not: NotFed) -> io::Error {
    io::Error::new(ErrorKind::Other, not)
}
