//! What a name is, and which names are the same.

/// The characters of a name, composed; None where the bytes are no name.
pub fn characters(name: &[u8]) -> Option<Vec<char>> {
    if name.is_empty() || name.len() > 24 {
        return None;
    }
    let text = std::str::from_utf8(name).ok()?;
    let mut out: Vec<char> = Vec::new();
    let mut plain = false;
    for c in text.chars() {
        match c {
            '\u{21}'..='\u{7e}' => {
                out.push(c);
                plain = true;
            }
            'ä' | 'ö' | 'ü' | 'Ä' | 'Ö' | 'Ü' | 'ß' => {
                out.push(c);
                plain = false;
            }
            '\u{308}' => {
                let umlaut = match out.last() {
                    Some('a') if plain => 'ä',
                    Some('o') if plain => 'ö',
                    Some('u') if plain => 'ü',
                    Some('A') if plain => 'Ä',
                    Some('O') if plain => 'Ö',
                    Some('U') if plain => 'Ü',
                    _ => return None,
                };
                out.pop();
                out.push(umlaut);
                plain = false;
            }
            _ => return None,
        }
    }
    Some(out)
}
