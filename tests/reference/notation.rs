//! Scenes as text, the notation that the program `test_vectors` reads: each case is `label: [F mask,G mask] bytes;` with the bytes as document 01 writes
//! them, "84 1 P(1,1) 69 84 1 69". Without masks nothing is wanted.

pub struct Notated<'a> {
    pub label: &'a str,
    pub want_f: u16,
    pub want_g: u16,
    pub bytes: Vec<u8>,
}

/// The cases of a text, or the first that cannot be read.
pub fn cases(text: &str) -> Result<Vec<Notated<'_>>, &str> {
    text.split_terminator(";\n").map(|case| notated(case).ok_or(case)).collect()
}

fn notated(case: &str) -> Option<Notated<'_>> {
    let (label, rest) = case.split_once(':')?;
    let (masks, records) = match rest.split_once(']') {
        Some((masks, records)) => (masks.trim().strip_prefix('[')?, records),
        None => ("0,0", rest),
    };
    let (want_f, want_g) = masks.split_once(',')?;
    let bytes = records.split_whitespace().map(record).collect::<Option<Vec<_>>>()?.concat();
    Some(Notated { label, want_f: want_f.parse().ok()?, want_g: want_g.parse().ok()?, bytes })
}

/// A byte alone, or a record by its letter: coordinates first, then bytes.
fn record(word: &str) -> Option<Vec<u8>> {
    let Some((letter, fields)) = word.strip_suffix(')').and_then(|word| word.split_once('(')) else {
        return Some(vec![word.parse().ok()?]);
    };
    let coordinates = match letter {
        "P" => 2,
        "L" | "R" => 4,
        _ => return None,
    };
    let mut bytes = letter.as_bytes().to_vec();
    for (i, field) in fields.split(',').enumerate() {
        if i < coordinates {
            bytes.extend(field.parse::<i32>().ok()?.to_le_bytes());
        } else {
            bytes.push(field.parse().ok()?);
        }
    }
    Some(bytes)
}
