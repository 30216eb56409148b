//! Job lines, and a stream of them.

use std::fmt;

use super::answers;
use crate::ffi;
use crate::refusal::Refusal;

/// Writes the answer to a job line to `out`, both without LF, and says how many bytes it has: 20. A refused job is an answer, too.
pub fn job_line(line: &[u8], out: &mut [u8]) -> Result<usize, Refusal> {
    // SAFETY: both pointers lead to as many bytes as are said, and a `&mut` is apart from a `&`.
    answers::line(unsafe {
        ffi::lw_job_line(line.as_ptr(), line.len(), out.as_mut_ptr(), out.len())
    })
}

/// A stream of job lines: feed the input block by block, cut anywhere, and finish. What is written, joined, has one answer a line.
///
/// It holds the line that is begun, 16 KB, in itself; [`answer_jobs`](crate::answer_jobs) runs one from a reader to a writer.
///
/// ```
/// use lizardwire::{slices::Stream, STREAM_OUTPUT};
///
/// let (mut stream, mut out) = (Stream::new(), [0; STREAM_OUTPUT]);
/// let fed = stream.feed(b"no job\nanother", &mut out)?;
/// assert_eq!((fed.taken, &out[..fed.written]), (14, &b"no,22\n"[..]));
/// let fed = stream.finish(&mut out)?;
/// assert_eq!(&out[..fed.written], b"no,22\n");
/// # Ok::<(), lizardwire::slices::NotFed>(())
/// ```
#[derive(Clone)]
pub struct Stream {
    state: [u8; crate::STREAM_BYTES],
}

/// What a stream has done.
#[derive(Debug, Clone, Copy, PartialEq, Eq, Hash)]
#[non_exhaustive]
pub struct Fed {
    /// Bytes of the block that are done with.
    pub taken: usize,
    /// Bytes of the output that are answers.
    pub written: usize,
}

/// The output is too short for the next answer: nothing is written, and what is taken of the block is kept.
#[derive(Debug, Clone, Copy, PartialEq)]
#[non_exhaustive]
pub struct NotFed {
    /// 20, with the bytes that the answer needs.
    pub refusal: Refusal,
    /// Bytes of the block that are done with.
    pub taken: usize,
}

impl Stream {
    /// A stream that holds nothing.
    pub fn new() -> Self {
        let mut state = [0; crate::STREAM_BYTES];
        // SAFETY: the pointer leads to as many bytes as are said.
        let told = answers::line(unsafe { ffi::lw_stream(state.as_mut_ptr(), state.len()) });
        told.expect("the state has the bytes that the library asks for");
        Self { state }
    }

    /// Takes the next bytes of the input, and writes the answers of the lines that end in them to `out`, each with its LF: 20.
    ///
    /// It stops where the next answer does not fit what is left of the output: write out what is there, and feed the rest of the
    /// block, from `taken` on. A granted call takes the whole block or writes something. An output of
    /// [`STREAM_OUTPUT`](crate::STREAM_OUTPUT) bytes is never too short.
    pub fn feed(&mut self, block: &[u8], out: &mut [u8]) -> Result<Fed, NotFed> {
        let (b, s, o) = (block, &mut self.state, out);
        // SAFETY: each pointer leads to as many bytes as are said, and a `&mut` is apart from anything else.
        fed(unsafe {
            ffi::lw_feed(
                b.as_ptr(),
                b.len(),
                s.as_mut_ptr(),
                s.len(),
                o.as_mut_ptr(),
                o.len(),
            )
        })
    }

    /// The end of the input: a last line without LF is answered, and the stream holds nothing then: 20, the stream being as it was.
    pub fn finish(&mut self, out: &mut [u8]) -> Result<Fed, NotFed> {
        let (s, o) = (&mut self.state, out);
        // SAFETY: both pointers lead to as many bytes as are said, and a `&mut` is apart from anything else.
        fed(unsafe { ffi::lw_finish(s.as_mut_ptr(), s.len(), o.as_mut_ptr(), o.len()) })
    }
}

fn fed(a: ffi::LwFed) -> Result<Fed, NotFed> {
    let (taken, written) = (a.taken, a.written);
    match Refusal::told(a.refusal, 0, a.first, 0, 0.0) {
        Ok(()) => Ok(Fed { taken, written }),
        Err(refusal) => Err(NotFed { refusal, taken }),
    }
}

impl Default for Stream {
    fn default() -> Self {
        Self::new()
    }
}

impl fmt::Debug for Stream {
    fn fmt(&self, f: &mut fmt::Formatter<'_>) -> fmt::Result {
        f.debug_struct("Stream").finish_non_exhaustive()
    }
}

impl fmt::Display for NotFed {
    fn fmt(&self, f: &mut fmt::Formatter<'_>) -> fmt::Result {
        match self.refusal {
            Refusal::Short { needed } => {
                write!(f, "the output is too short: {needed} bytes are needed")
            }
            refusal => refusal.fmt(f),
        }
    }
}

impl std::error::Error for NotFed {}

impl From<NotFed> for Refusal {
    fn from(not: NotFed) -> Self {
        not.refusal
    }
}
