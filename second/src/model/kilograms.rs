//! Whole grams as kilograms for people, a number a line of a typed text.

use crate::model::programs::Told;

const THIN_SPACE: &str = "\u{202f}";
const MINUS: &str = "\u{2212}";
/// What may stand before a line's #.
const LONGEST: usize = 1023;

/// A line for each line; what stands after the last line feed is one unless it is empty.
pub fn kilograms(text: &[u8]) -> Told {
    let text = text.strip_prefix(b"\xef\xbb\xbf").unwrap_or(text);
    let mut lines: Vec<&[u8]> = text.split(|&b| b == b'\n').collect();
    if lines.last().is_some_and(|last| before_comment(last).is_empty()) {
        lines.pop();
    }
    let mut told = Told { printed: String::new(), said: String::new(), right: true };
    for (number, line) in (1..).zip(lines) {
        match read(before_comment(line)) {
            Ok(words) => told.printed += &words,
            Err(()) => {
                told.said += &format!(
                    "line {number}: expected one whole number of grams, of at most 20 digits\n"
                );
                told.right = false;
            }
        }
        told.printed.push('\n');
    }
    told
}

fn before_comment(line: &[u8]) -> &[u8] {
    line.split(|&b| b == b'#').next().unwrap_or_default()
}

/// The kilograms of a line's number, nothing of a line without a word.
fn read(line: &[u8]) -> Result<String, ()> {
    let blank = |b: &u8| [b' ', b'\t', b'\r'].contains(b);
    let mut words = line.split(blank).filter(|word| !word.is_empty());
    match (words.next(), words.next()) {
        (None, _) => Ok(String::new()),
        (Some(word), None) if line.len() <= LONGEST => shown(word),
        _ => Err(()),
    }
}

fn shown(word: &[u8]) -> Result<String, ()> {
    let (sign, digits) = match word.strip_prefix(b"-") {
        Some(digits) => (MINUS, digits),
        None => ("", word),
    };
    if digits.is_empty() || digits.len() > 20 || !digits.iter().all(u8::is_ascii_digit) {
        return Err(());
    }
    let padded = format!("{:0>4}", String::from_utf8_lossy(digits));
    let (whole, grams) = padded.split_at(padded.len() - 3);
    let first = whole.len() % 3;
    let threes = whole.as_bytes()[first..].chunks(3).map(String::from_utf8_lossy);
    let groups: Vec<_> = std::iter::once(whole[..first].into()).chain(threes).collect();
    let shown: Vec<_> = groups.iter().filter(|group| !group.is_empty()).cloned().collect();
    Ok(format!("{sign}{}.{grams}", shown.join(THIN_SPACE)))
}
