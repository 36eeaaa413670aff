//! What a fault looks like on paper: records and replies with their tabs and
//! odd bytes made visible, the record that caused the fault, and the inputs
//! that show it.

use crate::judge::{lines, Difference};
use crate::program::{Feeding, Trouble};
use std::fmt::Write;

/// What is wrong with the run of a program on an input.
#[derive(Clone, PartialEq, Eq, Debug)]
pub struct Fault {
    pub trouble: Option<Trouble>,
    /// The first wrong or missing reply, where there is one.
    pub difference: Option<Difference>,
}

/// The longest line that is shown in full, in characters.
const WIDEST: usize = 100;
/// The most lines of an input that are shown in full.
const TALLEST: usize = 60;

/// A line with its tabs, odd bytes and a missing byte 10 made visible.
pub fn visible(line: &[u8]) -> String {
    let body = line.strip_suffix(b"\n").unwrap_or(line);
    let mut text = String::new();
    for &byte in body {
        match byte {
            b'\t' => text.push('⇥'),
            b'\\' => text.push_str("\\\\"),
            b' '..=b'~' => text.push(byte as char),
            _ => text.push_str(&format!("\\x{byte:02x}")),
        }
    }
    let count = text.chars().count();
    if count > WIDEST {
        let start: String = text.chars().take(WIDEST / 2).collect();
        let end: String = text.chars().skip(count - WIDEST / 4).collect();
        text = format!("{start} .. {end} ({} bytes)", body.len());
    }
    if body.len() == line.len() {
        text.push_str(" (without byte 10)");
    }
    text
}

/// The lines of an input or a reply, indented; of very many the last ones.
pub fn block(bytes: &[u8]) -> String {
    let all = lines(bytes);
    let mut text = String::new();
    if all.is_empty() {
        text.push_str("      (nothing)\n");
    }
    let skipped = all.len().saturating_sub(TALLEST);
    if skipped > 0 {
        text.push_str(&format!("      .. {skipped} lines before these\n"));
    }
    for line in &all[skipped..] {
        text.push_str(&format!("      {}\n", visible(line)));
    }
    text
}

/// How the input was handed over, in words.
pub fn manner(feeding: Feeding) -> &'static str {
    match feeding {
        Feeding::Whole => "in one piece",
        Feeding::Bytes => "byte by byte",
        Feeding::Cuts(_) => "in odd pieces",
    }
}

impl Fault {
    /// The fault in one line.
    pub fn headline(&self) -> String {
        match (&self.trouble, &self.difference) {
            (Some(Trouble::NotStarted(why)), _) => format!("the program did not start: {why}"),
            (Some(Trouble::Hung), _) => "the program did not end in its time".into(),
            (Some(Trouble::Died(how)), _) => format!("the program died: {how}"),
            (Some(Trouble::Unread), _) => "the program ended with input unread".into(),
            (None, Some(difference)) => {
                format!("a reply differs at record {}", difference.index + 1)
            }
            (None, None) => "no fault".into(),
        }
    }

    /// The record and the two replies, where a reply is wrong or missing.
    pub fn details(&self) -> String {
        let Some(difference) = &self.difference else {
            return "    every reply that was expected is there\n".into();
        };
        let mut text = String::new();
        let record = visible(&difference.record);
        // Writing to a string cannot fail.
        let _ = writeln!(text, "    record {}: {record}", difference.index + 1);
        let _ = write!(text, "    expected:\n{}", block(&difference.expected));
        let _ = write!(text, "    got:\n{}", block(&difference.got));
        text
    }
}

#[cfg(test)]
mod tests {
    use super::*;

    #[test]
    fn tabs_and_odd_bytes_can_be_seen() {
        assert_eq!(visible(b"P\tA\t2\t1\n"), "P⇥A⇥2⇥1");
        assert_eq!(visible(b"\0\r\xff\\\n"), "\\x00\\x0d\\xff\\\\");
        assert_eq!(visible(b"T"), "T (without byte 10)");
    }

    #[test]
    fn long_lines_are_cut_and_measured() {
        let line = [b"W\tA\t".as_slice(), &[b'1'; 1000], b"2\n"].concat();
        let text = visible(&line);
        assert!(text.starts_with("W⇥A⇥11") && text.ends_with("112 (1005 bytes)"));
        assert!(text.chars().count() < 120);
    }

    #[test]
    fn of_many_lines_the_last_are_shown() {
        let text = block(&b"T\n".repeat(70));
        assert!(text.contains(".. 10 lines before these"));
        assert_eq!(text.matches("      T\n").count(), 60);
        assert_eq!(block(b""), "      (nothing)\n");
    }

    #[test]
    fn a_fault_names_its_record() {
        let fault = Fault {
            trouble: None,
            difference: Some(Difference {
                index: 4,
                record: b"T\n".to_vec(),
                expected: b"ok\t1\n".to_vec(),
                got: b"ok\t2\n".to_vec(),
            }),
        };
        assert_eq!(fault.headline(), "a reply differs at record 5");
        let details = fault.details();
        for part in ["record 5: T\n", "ok⇥1", "ok⇥2"] {
            assert!(details.contains(part), "{details}");
        }
    }
}
