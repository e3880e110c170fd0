//! Hexadecimal text as in the examples: two digits a byte, blanks between them, comments from `#` to the end of a line.

/// The bytes of a text, or which line is at fault and why.
pub fn parse(text: &[u8]) -> Result<Vec<u8>, String> {
    let mut bytes = Vec::new();
    let mut high = None;
    let mut last = 1;
    for (index, line) in text.split(|&byte| byte == b'\n').enumerate() {
        for &character in line.iter().take_while(|&&character| character != b'#') {
            if is_blank(character) {
                continue;
            }
            last = index + 1;
            let digit = digit(character).ok_or_else(|| foreign(index, character))?;
            high = match high {
                None => Some(digit),
                Some(high) => {
                    bytes.push(high << 4 | digit);
                    None
                }
            };
        }
    }
    match high {
        None => Ok(bytes),
        Some(_) => Err(format!("line {last}: the last byte has one digit of two")),
    }
}

/// Whether such text may begin with this character.
pub fn may_begin(character: u8) -> bool {
    character == b'#' || is_blank(character) || digit(character).is_some()
}

fn is_blank(character: u8) -> bool {
    character.is_ascii_whitespace() || character == 0x0B
}

fn foreign(index: usize, character: u8) -> String {
    let shown = if character.is_ascii_graphic() {
        format!("'{}'", char::from(character))
    } else {
        format!("the byte {character:02X}")
    };
    format!("line {}: {shown} is no hexadecimal digit", index + 1)
}

fn digit(character: u8) -> Option<u8> {
    char::from(character).to_digit(16).map(|digit| digit as u8)
}

/// Two digits each, with blanks between groups of these lengths; a group of no length takes the rest, byte by byte.
fn grouped(bytes: &[u8], groups: &[usize]) -> String {
    let mut words = Vec::new();
    let mut rest = bytes;
    for &length in groups {
        let (group, behind) = rest.split_at(length.min(rest.len()));
        words.push(plain(group));
        rest = behind;
    }
    words.extend(rest.chunks(1).map(plain));
    words.join(" ")
}

/// Two digits a byte and nothing between them.
pub fn plain(bytes: &[u8]) -> String {
    bytes.iter().map(|byte| format!("{byte:02X}")).collect()
}

/// A term's record: `09 00 0002 0000 0000`.
pub fn term(record: &[u8]) -> String {
    grouped(record, &[1, 1, 2, 2, 2])
}

/// A type's record: `02 00 0001 0001 00000000`.
pub fn type_record(record: &[u8]) -> String {
    grouped(record, &[1, 1, 2, 2, 4])
}

/// A field's header: `04 0080`.
pub fn header(header: &[u8]) -> String {
    grouped(header, &[1, 2])
}

/// Byte by byte.
pub fn spaced(bytes: &[u8]) -> String {
    grouped(bytes, &[])
}
