//! Lines, words and numbers of the texts that the command line takes: drawings, screens and events.

/// The lines without their ends, which are LF or CR LF. The last line may have none.
pub fn lines(text: &[u8]) -> Vec<&[u8]> {
    let mut lines: Vec<&[u8]> = text.split(|&byte| byte == b'\n').collect();
    let last = lines.pop().unwrap_or_default();
    let mut lines: Vec<&[u8]> = lines.into_iter().map(|line| line.strip_suffix(b"\r").unwrap_or(line)).collect();
    // Nothing after the last LF is no line.
    if !last.is_empty() {
        lines.push(last);
    }
    lines
}

fn is_blank(byte: &u8) -> bool {
    *byte == b' ' || *byte == b'\t'
}

/// What stands between the blanks of a line.
pub fn words(line: &[u8]) -> Vec<&[u8]> {
    line.split(is_blank).filter(|word| !word.is_empty()).collect()
}

/// The lines of a screen or of events that say something, by their numbers from 1: the words before a comment.
pub fn statements(text: &[u8]) -> impl Iterator<Item = (usize, Vec<&[u8]>)> {
    let said = |line: &[u8]| line.iter().position(|byte| b";#".contains(byte)).unwrap_or(line.len());
    let all = lines(text).into_iter().enumerate().map(move |(index, line)| (index + 1, words(&line[..said(line)])));
    all.filter(|(_, words)| !words.is_empty())
}

/// A line without the blanks at its end.
pub fn trimmed(line: &[u8]) -> &[u8] {
    let blanks = line.iter().rev().take_while(|byte| is_blank(byte)).count();
    &line[..line.len() - blanks]
}

/// The number of a word in a base, if the word is digits and the number has 32 bits.
fn of_digits(word: &[u8], base: u32) -> Option<u32> {
    if word.is_empty() {
        return None;
    }
    word.iter().try_fold(0u32, |number, &byte| {
        let digit = char::from(byte).to_digit(base)?;
        number.checked_mul(base)?.checked_add(digit)
    })
}

pub fn decimal(word: &[u8]) -> Option<u32> {
    of_digits(word, 10)
}

/// A decimal number, or a hexadecimal one after `0x`.
pub fn number(word: &[u8]) -> Option<u32> {
    match word.strip_prefix(b"0x") {
        Some(digits) => of_digits(digits, 16),
        None => decimal(word),
    }
}

#[cfg(test)]
mod tests {
    use super::*;

    #[test]
    fn line_ends_are_lf_or_cr_lf() {
        assert_eq!(lines(b""), Vec::<&[u8]>::new());
        assert_eq!(lines(b"\n"), [b""]);
        assert_eq!(lines(b"a\nb\r\n\r\nc"), [&b"a"[..], b"b", b"", b"c"]);
        assert_eq!(lines(b"a\rb\nc\r"), [&b"a\rb"[..], b"c\r"]);
    }

    #[test]
    fn blanks_are_spaces_and_tabs() {
        assert_eq!(words(b" \tcell\t07  A b "), [&b"cell"[..], b"07", b"A", b"b"]);
        assert_eq!(words(b" \t "), Vec::<&[u8]>::new());
        assert_eq!(trimmed(b" #. \t"), b" #.");
        assert_eq!(trimmed(b"\t"), b"");
    }

    #[test]
    fn numbers_are_digits_and_have_32_bits() {
        assert_eq!(number(b"0"), Some(0));
        assert_eq!(number(b"0010"), Some(10));
        assert_eq!(number(b"0xfF"), Some(255));
        assert_eq!(number(b"4294967295"), Some(u32::MAX));
        assert_eq!(number(b"0x00000FFFFFFFF"), Some(u32::MAX));
        for wrong in
            ["", "0x", "-1", "+1", "4294967296", "0x100000000", "1a", "0XFF", "1.0", " 1", "99999999999999999999"]
        {
            assert_eq!(number(wrong.as_bytes()), None, "{wrong}");
        }
        assert_eq!(decimal(b"0x10"), None);
    }
}
