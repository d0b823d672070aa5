//! How a difference is shown: where two outputs part, bytes as text, a command as it would be typed.

/// Where two outputs part, if they do.
pub fn difference(due: &[u8], got: &[u8]) -> Option<String> {
    if due == got {
        return None;
    }
    let place = due.iter().zip(got).take_while(|(one, other)| one == other).count();
    let line = due[..place].iter().filter(|&&byte| byte == b'\n').count() + 1;
    let around = |bytes: &[u8]| {
        let start = bytes[..place].iter().rposition(|&byte| byte == b'\n').map_or(0, |at| at + 1);
        shown(&bytes[start.max(place.saturating_sub(100))..], 160)
    };
    Some(format!(
        "differs at byte {place}, in line {line} ({} bytes, and {} are due)\n  due: {}\n  got: {}",
        got.len(),
        due.len(),
        around(due),
        around(got)
    ))
}

/// Bytes for a report, cut where they are long.
pub fn shown(bytes: &[u8], most: usize) -> String {
    let cut = if bytes.len() > most { " .." } else { "" };
    let text: String = bytes[..bytes.len().min(most)]
        .iter()
        .map(|&byte| match byte {
            b'\n' => "\n".to_string(),
            b' '..=b'~' => char::from(byte).to_string(),
            _ => format!("\\x{byte:02X}"),
        })
        .collect();
    let text = if most < 1000 { text.replace('\n', "\\n") } else { text };
    text + cut
}

pub fn indented(text: &str) -> String {
    text.lines().map(|line| format!("  {line}")).collect::<Vec<String>>().join("\n")
}

/// A word as a shell takes it.
pub fn typed(word: &[u8]) -> String {
    let plain = |byte: &u8| byte.is_ascii_alphanumeric() || b"-_./=,:+".contains(byte);
    if !word.is_empty() && word.iter().all(plain) {
        return String::from_utf8_lossy(word).into_owned();
    }
    let bytes: String = word
        .iter()
        .map(|&byte| match byte {
            b'\'' | b'\\' => format!("\\{}", char::from(byte)),
            b' '..=b'~' => char::from(byte).to_string(),
            _ => format!("\\x{byte:02x}"),
        })
        .collect();
    format!("$'{bytes}'")
}
