//! A stream of bytes, split into lines.

use std::io::{BufRead, Result};

use crate::job::LONGEST;

/// The next line without its LF, into `line`; `false` at the end of input.
///
/// A line ends at its LF or at the end of input; nothing follows a last LF. Of
/// a line above the limit one byte past it is kept, and the rest is passed
/// over to its LF.
pub fn next_line(input: &mut impl BufRead, line: &mut Vec<u8>) -> Result<bool> {
    line.clear();
    let mut any = false;
    loop {
        let block = input.fill_buf()?;
        if block.is_empty() {
            return Ok(any);
        }
        any = true;
        let end = block.iter().position(|byte| *byte == b'\n');
        let part = &block[..end.unwrap_or(block.len())];
        let room = LONGEST + 1 - line.len();
        line.extend_from_slice(&part[..part.len().min(room)]);
        let used = part.len() + usize::from(end.is_some());
        input.consume(used);
        if end.is_some() {
            return Ok(true);
        }
    }
}
