//! Case files: lines `NAME FIELD FIELD ..`, as docs/FORMATS.md has them, and the answer to each case under its name.

/// The line `= NAME` for each case, and then what `ask` answers to its text.
pub fn each(file: &str, ask: fn(&str) -> String) -> String {
    let mut answers = String::new();
    for line in file.lines().filter(|line| !line.is_empty() && !line.starts_with('#')) {
        let mut parts = line.split(' ');
        let name = parts.next().unwrap();
        let answer = match text(parts) {
            None => "! not a field\n".to_string(),
            Some(bytes) => match str::from_utf8(&bytes) {
                Err(_) => "! not UTF-8\n".to_string(),
                Ok(text) => ask(text),
            },
        };
        answers += &format!("= {name}\n{answer}");
    }
    answers
}

/// The bytes of all fields, one after the other.
fn text<'a>(fields: impl Iterator<Item = &'a str>) -> Option<Vec<u8>> {
    let mut bytes = Vec::new();
    for field in fields {
        let (digits, times) = match field.split_once('*') {
            None => (field, 1),
            Some((digits, times)) => (digits, times.parse().ok().filter(|n| (1..=40000).contains(n))?),
        };
        bytes.extend(hex(digits)?.repeat(times));
    }
    Some(bytes)
}

fn hex(digits: &str) -> Option<Vec<u8>> {
    let capital = |b: &u8| matches!(b, b'0'..=b'9' | b'A'..=b'F');
    if digits.is_empty() || digits.len() % 2 == 1 || !digits.as_bytes().iter().all(|b| capital(b)) {
        return None;
    }
    (0..digits.len()).step_by(2).map(|i| u8::from_str_radix(&digits[i..i + 2], 16).ok()).collect()
}
