//! Counts over many answers.

use std::fmt;

use crate::answer::Answer;

/// The last refusal's number.
pub const LAST: usize = 27;

/// How often each number, and how many events.
#[derive(Debug, Clone, Default)]
pub struct Tally {
    /// Answers with `ok`.
    pub accepted: usize,
    /// Refusals by number.
    pub refused: [usize; LAST + 1],
    /// Of these, 4, 5 and 6 of a piece.
    pub pieces: [usize; 3],
    /// Of these, 27 of a hole.
    pub of_holes: usize,
    /// Of these, 17 before a finished ring was visited.
    pub walk: usize,
    /// Accepted answers with a collapse, a division, a join.
    pub with: [usize; 3],
    /// Most collapses, divisions and joins of an accepted answer.
    pub most: [usize; 3],
}

impl Tally {
    /// Counts one answer.
    pub fn add(&mut self, answer: &Answer) {
        match &answer.result {
            Err(refusal) => {
                self.refused[refusal.number as usize] += 1;
                match refusal.number {
                    4..=6 if answer.rings > 0 => self.pieces[refusal.number as usize - 4] += 1,
                    17 if answer.rings == 0 => self.walk += 1,
                    27 if refusal.ring > Some(0) => self.of_holes += 1,
                    _ => {}
                }
            }
            Ok(_) => {
                self.accepted += 1;
                let events = answer.events;
                let counts = [events.collapses, events.divides, events.joins];
                for (kind, count) in counts.into_iter().enumerate() {
                    self.with[kind] += usize::from(count > 0);
                    self.most[kind] = self.most[kind].max(count);
                }
            }
        }
    }
}

impl fmt::Display for Tally {
    fn fmt(&self, f: &mut fmt::Formatter<'_>) -> fmt::Result {
        writeln!(f, "ok {}", self.accepted)?;
        for (kind, name) in ["collapses", "divisions", "joins"].into_iter().enumerate() {
            writeln!(
                f,
                "ok with {name} {}, at most {}",
                self.with[kind], self.most[kind]
            )?;
        }
        for (number, count) in self.refused.iter().enumerate() {
            match number {
                4..=6 => writeln!(
                    f,
                    "no,{number} {count}, of a piece {}",
                    self.pieces[number - 4]
                )?,
                17 => writeln!(f, "no,17 {count}, in the walk {}", self.walk)?,
                27 => writeln!(f, "no,27 {count}, of a hole {}", self.of_holes)?,
                1..=19 | 22 => writeln!(f, "no,{number} {count}")?,
                _ => {}
            }
        }
        Ok(())
    }
}
