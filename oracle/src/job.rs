//! Job lines, byte by byte.

/// Longest line, its LF not counted.
pub const LONGEST: usize = 16_384;

/// A well-formed job line.
#[derive(Debug, Clone, PartialEq)]
pub struct Job {
    /// Grown rather than shrunk.
    pub outset: bool,
    /// Distance, any bits.
    pub distance: f64,
    /// Vertex counts, outer ring first.
    pub counts: Vec<usize>,
    /// Coordinates, east then north, any bits.
    pub numbers: Vec<f64>,
}

impl Job {
    /// The job of a line without its LF; `None` where question 22 is no.
    pub fn read(line: &[u8]) -> Option<Self> {
        if line.len() > LONGEST {
            return None;
        }
        let mut fields = line.split(|byte| *byte == b',');
        let outset = match fields.next()? {
            b"inset" => false,
            b"outset" => true,
            _ => return None,
        };
        let distance = float(fields.next()?)?;
        let rings = count(fields.next()?)?;
        if outset && rings != 1 {
            return None;
        }
        let mut counts = Vec::with_capacity(rings);
        for _ in 0..rings {
            counts.push(count(fields.next()?)?);
        }
        let numbers = fields.map(float).collect::<Option<Vec<f64>>>()?;
        Some(Self {
            outset,
            distance,
            counts,
            numbers,
        })
    }

    /// The line of a job, without LF.
    pub fn line(&self) -> String {
        let mut line = String::from(if self.outset { "outset" } else { "inset" });
        line.push_str(&format!(",{:016x}", self.distance.to_bits()));
        line.push_str(&format!(",{}", self.counts.len()));
        for count in &self.counts {
            line.push_str(&format!(",{count}"));
        }
        for number in &self.numbers {
            line.push_str(&format!(",{:016x}", number.to_bits()));
        }
        line
    }
}

/// 16 lower-case hexadecimal digits, as the bits of a float.
fn float(field: &[u8]) -> Option<f64> {
    if field.len() != 16 {
        return None;
    }
    let mut bits = 0_u64;
    for byte in field {
        let digit = match byte {
            b'0'..=b'9' => byte - b'0',
            b'a'..=b'f' => byte - b'a' + 10,
            _ => return None,
        };
        bits = bits << 4 | u64::from(digit);
    }
    Some(f64::from_bits(bits))
}

/// 1 to 3 decimal digits, no leading zero but for 0 itself.
fn count(field: &[u8]) -> Option<usize> {
    if field.is_empty() || field.len() > 3 || (field.len() > 1 && field[0] == b'0') {
        return None;
    }
    let mut value = 0;
    for byte in field {
        if !byte.is_ascii_digit() {
            return None;
        }
        value = value * 10 + usize::from(byte - b'0');
    }
    Some(value)
}
