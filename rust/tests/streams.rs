//! Streams of job lines, cut anywhere; and readers and writers that fail.

use std::io::{self, ErrorKind, Read, Write};

use lizardwire::slices::Stream;
use lizardwire::{answer_jobs, answer_line, Refusal, LINE_BYTES, STREAM_OUTPUT};

/// The square of side 4, inset by 1.
const JOB: &[u8] = concat!(
    "inset,3ff0000000000000,1,4,",
    "0000000000000000,0000000000000000,4010000000000000,0000000000000000,",
    "4010000000000000,4010000000000000,0000000000000000,4010000000000000",
)
.as_bytes();

/// Lines of every kind, the last without LF.
fn jobs() -> Vec<u8> {
    let full = vec![b'x'; LINE_BYTES];
    let long = vec![b'x'; LINE_BYTES + 1];
    let lines: [&[u8]; 8] = [JOB, b"", b"no job", b"\r", &full, JOB, &long, JOB];
    lines.join(&b'\n')
}

/// One answer a line; nothing follows a last LF.
fn expected(jobs: &[u8]) -> Vec<u8> {
    let mut lines: Vec<&[u8]> = jobs.split(|byte| *byte == b'\n').collect();
    if lines.last().is_some_and(|last| last.is_empty()) {
        lines.pop();
    }
    let ended = |line: &&[u8]| [answer_line(line), vec![b'\n']].concat();
    lines.iter().flat_map(ended).collect()
}

/// Feeds blocks, each as often as it takes, with lent output of so many bytes; where that is too short, of as many as are needed.
fn streamed<'a>(blocks: impl Iterator<Item = &'a [u8]>, room: usize) -> Vec<u8> {
    let mut stream = Stream::new();
    let (mut answers, mut out) = (Vec::new(), vec![0; room]);
    for mut block in blocks {
        while !block.is_empty() {
            let fed = stream.feed(block, &mut out);
            let taken = match fed {
                Ok(fed) => {
                    assert!(fed.taken == block.len() || fed.written > 0);
                    answers.extend(&out[..fed.written]);
                    fed.taken
                }
                Err(not) => {
                    out.resize(needed(not.refusal, out.len()), 0);
                    not.taken
                }
            };
            block = &block[taken..];
        }
    }
    let fed = stream.finish(&mut out).or_else(|not| {
        out.resize(needed(not.refusal, out.len()), 0);
        stream.finish(&mut out)
    });
    answers.extend(&out[..fed.unwrap().written]);
    assert_eq!(stream.finish(&mut []).unwrap().written, 0);
    answers
}

/// The bytes that a 20 asks for, which are more than there were.
fn needed(refusal: Refusal, had: usize) -> usize {
    match refusal {
        Refusal::Short { needed } => {
            assert!(had < needed && needed <= STREAM_OUTPUT);
            needed
        }
        other => panic!("{other}"),
    }
}

#[test]
fn blocks_of_any_length() {
    let jobs = jobs();
    for length in [1, 2, 7, 163, 1000, 16_384, 16_385, 65_536] {
        for room in [0, 1, 6, 200, STREAM_OUTPUT] {
            let answers = streamed(jobs.chunks(length), room);
            assert_eq!(answers, expected(&jobs), "{length} {room}");
        }
    }
}

#[test]
fn one_cut_anywhere() {
    let jobs = [JOB, b"no job", b"", JOB].join(&b'\n');
    for cut in 0..=jobs.len() {
        let blocks = [&jobs[..cut], &jobs[cut..]];
        assert_eq!(streamed(blocks.into_iter(), STREAM_OUTPUT), expected(&jobs));
    }
}

#[test]
fn no_line_and_a_last_lf() {
    for jobs in [&b""[..], b"\n", b"\n\n", b"no job\n", b"no job"] {
        assert_eq!(streamed([jobs].into_iter(), 0), expected(jobs));
    }
}

#[test]
fn short_output_is_left_as_it_was() {
    let mut stream = Stream::new();
    let mut out = [b'#'; 9];
    let answer = expected(JOB);
    let not = stream.feed(&[JOB, b"\n"].concat(), &mut out).unwrap_err();
    let short = Refusal::Short {
        needed: answer.len(),
    };
    assert_eq!(not.refusal, short);
    assert_eq!(Refusal::from(not), short);
    let words = format!("the output is too short: {} bytes are needed", answer.len());
    assert_eq!(not.to_string(), words);
    assert_eq!(out, [b'#'; 9]);
    let mut rest = [JOB, b"\n"].concat().split_off(not.taken);
    rest.extend(b"no job\nbegun");
    let mut out = vec![b'#'; answer.len() + 6];
    let fed = stream.feed(&rest, &mut out).unwrap();
    assert_eq!((fed.taken, fed.written), (rest.len(), out.len()));
    assert_eq!(out, [&answer[..], b"no,22\n"].concat());
    let refused = stream.finish(&mut []).unwrap_err();
    assert_eq!(refused.refusal, Refusal::Short { needed: 6 });
    assert_eq!(stream.finish(&mut [0; 6]).unwrap().written, 6);
    assert_eq!(stream.finish(&mut []).unwrap().written, 0);
}

#[test]
fn a_stream_is_used_again_and_copied() {
    let mut stream = Stream::default();
    let mut out = [0; STREAM_OUTPUT];
    stream.feed(b"begun", &mut out).unwrap();
    let mut copy = stream.clone();
    assert_eq!(stream.finish(&mut out).unwrap().written, 6);
    let fed = stream.feed(b"\n", &mut out).unwrap();
    assert_eq!(&out[..fed.written], b"no,22\n");
    assert_eq!(copy.finish(&mut out).unwrap().written, 6);
    assert_eq!(format!("{copy:?}"), "Stream { .. }");
}

/// A file beside the repository's papers.
fn paper(name: &str) -> Vec<u8> {
    std::fs::read(format!("{}/../docs/{name}", env!("CARGO_MANIFEST_DIR"))).unwrap()
}

#[test]
fn the_sample() {
    let mut answers = Vec::new();
    answer_jobs(&paper("sample.jobs")[..], &mut answers).unwrap();
    assert_eq!(answers, paper("sample.answers"));
}

/// The answers of one block that is read, many times as long as it.
#[test]
fn more_answers_than_there_is_room_for() {
    let jobs = vec![b'\n'; 60_000];
    let mut answers = Vec::new();
    answer_jobs(&jobs[..], &mut answers).unwrap();
    assert_eq!(answers, b"no,22\n".repeat(60_000));
}

/// Gives single bytes, each after an interruption, and then an error where there is one.
struct Slow<'a> {
    bytes: &'a [u8],
    interrupted: bool,
    end: Option<ErrorKind>,
}

impl Read for Slow<'_> {
    fn read(&mut self, block: &mut [u8]) -> io::Result<usize> {
        self.interrupted = !self.interrupted;
        if self.interrupted {
            return Err(ErrorKind::Interrupted.into());
        }
        match self.end {
            Some(kind) if self.bytes.is_empty() => Err(kind.into()),
            _ => self.bytes.read(&mut block[..1]),
        }
    }
}

fn slow(bytes: &[u8], end: Option<ErrorKind>) -> Slow<'_> {
    let interrupted = false;
    Slow {
        bytes,
        interrupted,
        end,
    }
}

#[test]
fn a_reader_that_is_slow_or_fails() {
    let jobs = jobs();
    let mut answers = Vec::new();
    answer_jobs(slow(&jobs, None), &mut answers).unwrap();
    assert_eq!(answers, expected(&jobs));
    let mut answers = Vec::new();
    let error = answer_jobs(
        slow(b"no job\nbegun", Some(ErrorKind::TimedOut)),
        &mut answers,
    )
    .unwrap_err();
    assert_eq!(error.kind(), ErrorKind::TimedOut);
    assert_eq!(answers, b"no,22\n");
}

/// Takes so many bytes; and fails at the flush where it is told to.
struct Full {
    room: usize,
    flushes: bool,
}

impl Write for Full {
    fn write(&mut self, bytes: &[u8]) -> io::Result<usize> {
        let taken = bytes.len().min(self.room);
        self.room -= taken;
        Ok(taken)
    }

    fn flush(&mut self) -> io::Result<()> {
        if self.flushes {
            Ok(())
        } else {
            Err(ErrorKind::BrokenPipe.into())
        }
    }
}

#[test]
fn a_writer_that_fails() {
    for end in [&b""[..], b"\n"] {
        let jobs = [&jobs(), end].concat();
        let all = expected(&jobs).len();
        let told = |room, flushes| answer_jobs(&jobs[..], Full { room, flushes });
        for room in [0, 1, all - 1] {
            assert_eq!(told(room, true).unwrap_err().kind(), ErrorKind::WriteZero);
        }
        assert_eq!(told(all, false).unwrap_err().kind(), ErrorKind::BrokenPipe);
        told(all, true).unwrap();
    }
}
