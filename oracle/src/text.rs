//! Document 01's texts: a question's six lines read, an answer printed.
use crate::measures::plain;
use crate::question::{Hall, Listed, Question};
use std::fmt::Write as _;

/// A line's key, how many digits its value may have, and the least and greatest value.
type Line = (&'static str, usize, i128, i128);

const U32: i128 = u32::MAX as i128;
const LINES: [Line; 6] = [
    ("x=", 10, i32::MIN as i128, i32::MAX as i128),
    ("y=", 10, i32::MIN as i128, i32::MAX as i128),
    ("k=", 10, 0, U32),
    ("badge=", 10, 0, U32),
    ("afterdsq=", 20, 0, u64::MAX as i128),
    ("afterbay=", 10, 0, U32),
];

fn value(line: &str, (key, most, low, high): Line) -> Option<i128> {
    let text = line.strip_prefix(key)?;
    let digits = if low < 0 { text.strip_prefix('-').unwrap_or(text) } else { text };
    let plain = (1..=most).contains(&digits.len()) && digits.bytes().all(|b| b.is_ascii_digit());
    if !plain || (digits.starts_with('0') && text != "0") {
        return None;
    }
    text.parse().ok().filter(|v| (low..=high).contains(v))
}

/// The question, or nothing where the text is not one.
pub fn read(input: &[u8]) -> Option<Question> {
    let text = std::str::from_utf8(input).ok()?;
    let lines: Vec<&str> = text.strip_suffix('\n')?.split('\n').collect();
    if lines.len() != LINES.len() {
        return None;
    }
    let values: Option<Vec<i128>> = lines.iter().zip(LINES).map(|(line, form)| value(line, form)).collect();
    let v = values?;
    let mark = (v[4] as u64, v[5] as u32);
    Some(Question { x: v[0] as i32, y: v[1] as i32, k: v[2] as u32, badge: v[3] as u32, mark })
}

/// The whole output of `nearby`, and its answer's number.
pub fn answered(hall: &Hall, input: &[u8]) -> (u32, String) {
    let mut room = [0; 1600];
    let (answer, page) = read(input).map_or((6, vec![]), |q| hall.reply(&q, &mut room));
    (answer, printed(answer, &page))
}

fn printed(answer: u32, page: &[Listed]) -> String {
    let mut out = format!("answer={answer}\nfound={}\n", page.len());
    for (dsq, bay, zone) in page {
        writeln!(out, "bay={bay} zone={zone} dsq={dsq} mm={}", plain(*dsq)).unwrap();
    }
    out
}
