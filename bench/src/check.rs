//! What a sheet has, or the number and the line of its first refusal, as plain Rust that shares no code with the library.

/// The number is 0 for a sound sheet; what does not apply is 0.
#[derive(Clone, Copy, Debug, Default, PartialEq, Eq)]
pub struct Check {
    pub plans: u64,
    pub line: u64,
    pub sites: u16,
    pub legs: u16,
    pub number: u8,
}

/// The value of 1 to 10 digits, with no leading 0 unless it is `0`.
fn number(field: &[u8]) -> Option<u64> {
    let digits = (1..=10).contains(&field.len()) && field.iter().all(u8::is_ascii_digit);
    if !digits || field.len() > 1 && field[0] == b'0' {
        return None;
    }
    std::str::from_utf8(field).ok()?.parse().ok()
}

/// The fields of a line as numbers from `low` to `high`: tested first for their count, then each for its form, then for its range.
fn numbers(fields: &[&[u8]], low: u64, high: &[u64]) -> Result<Vec<u64>, u8> {
    if fields.len() != high.len() {
        return Err(4);
    }
    let values: Option<Vec<u64>> = fields.iter().map(|field| number(field)).collect();
    let values = values.ok_or(5)?;
    let fit = values
        .iter()
        .zip(high)
        .all(|(v, high)| low <= *v && v <= high);
    if fit {
        Ok(values)
    } else {
        Err(6)
    }
}

impl Check {
    /// Reads one line more, without its end byte.
    fn read(&mut self, line: &[u8], first: bool) -> Result<(), u8> {
        let fields: Vec<&[u8]> = line.split(|byte| *byte == b',').collect();
        let (word, fields) = (fields[0], &fields[1..]);
        let last = u64::from(self.sites).saturating_sub(1);
        match word {
            b"network" if first => {
                self.sites = numbers(fields, 1, &[1024])?[0] as u16;
            }
            b"leg" if !first && self.plans == 0 => {
                numbers(fields, 0, &[last, last, 1_000_000, 255, 100_000, 7])?;
                if self.legs == 4096 {
                    return Err(7);
                }
                self.legs += 1;
            }
            b"plan" if !first => {
                numbers(fields, 0, &[999, last, last, 1_000_000])?;
                self.plans += 1;
            }
            b"network" | b"leg" | b"plan" => return Err(3),
            _ => return Err(2),
        }
        Ok(())
    }
}

fn refused(number: u8, line: u64) -> Check {
    Check {
        number,
        line,
        ..Check::default()
    }
}

/// Checks a sheet from its first line to its last.
pub fn check(sheet: &[u8]) -> Check {
    let mut found = Check::default();
    let mut line = 0;
    for text in sheet.split_inclusive(|byte| *byte == b'\n') {
        line += 1;
        let Some(text) = text.strip_suffix(b"\n") else {
            return refused(1, line);
        };
        if let Err(number) = found.read(text, line == 1) {
            return refused(number, line);
        }
    }
    if line == 0 {
        return refused(3, 1);
    }
    found
}

#[cfg(test)]
mod tests {
    use super::*;

    fn number_and_line(sheet: &str) -> (u8, u64) {
        let found = check(sheet.as_bytes());
        (found.number, found.line)
    }

    #[test]
    fn each_number() {
        assert_eq!(number_and_line("network,2\nleg,0,1,0,0,0,0"), (1, 2));
        assert_eq!(number_and_line("network,2\n\n"), (2, 2));
        assert_eq!(number_and_line(""), (3, 1));
        assert_eq!(number_and_line("network,2\nplan,1,0,1,5\nleg\n"), (3, 3));
        assert_eq!(number_and_line("network\n"), (4, 1));
        assert_eq!(number_and_line("network,\n"), (5, 1));
        assert_eq!(number_and_line("network,2\nleg,0,1,02,0,0,0\n"), (5, 2));
        assert_eq!(number_and_line("network,1025\n"), (6, 1));
        assert_eq!(number_and_line("network,2\nleg,0,2,0,0,0,0\n"), (6, 2));
        let full = "leg,0,0,0,0,0,0\n".repeat(4097);
        assert_eq!(number_and_line(&format!("network,1\n{full}")), (7, 4098));
    }
}
