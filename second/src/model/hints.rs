//! What is said to who gave something else than a book: nothing at all, a typed text, or a sheet.

const EMPTY: &str = "this is empty: a book begins with its farm record\n";
const TYPED: &str = "this looks like a typed book: bin/writer makes a book of it\n";
const SHEET: &str = "this looks like a sheet: bin/unsheet reads it\n";

/// By the first bytes: two of them are needed to see that they are no length of a record.
pub fn hint(input: &[u8]) -> &'static str {
    let text = input.strip_prefix(b"\xef\xbb\xbf").unwrap_or(input);
    match input {
        [] => EMPTY,
        [first, _, ..] if begins_text(*first) && text.starts_with(b"kind,group") => SHEET,
        [first, _, ..] if begins_text(*first) => TYPED,
        _ => "",
    }
}

/// Printed characters, blanks, line ends, and the first byte of a byte order mark.
fn begins_text(byte: u8) -> bool {
    matches!(byte, b'\t' | b'\n' | b'\r' | b' '..=b'~' | 0xef)
}
