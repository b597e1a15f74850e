//! File names for people and for machines. A name is any bytes; two names never read the same.

use std::fmt::Write;
use std::os::unix::ffi::OsStrExt;
use std::path::Path;

/// A path for people: what does not show, bytes that are no UTF-8, and the backslash are escaped.
pub fn shown(path: &Path) -> String {
    let mut text = String::new();
    for chunk in path.as_os_str().as_bytes().utf8_chunks() {
        for c in chunk.valid().chars() {
            match c {
                c if is_hidden(c) || c == '\\' => text.extend(c.escape_default()),
                c => text.push(c),
            }
        }
        for byte in chunk.invalid() {
            let _ = write!(text, "\\x{byte:02x}");
        }
    }
    text
}

/// Control characters, line separators, and marks that have no width or turn the direction of the text.
fn is_hidden(c: char) -> bool {
    c.is_control()
        || matches!(c, '\u{200b}'..='\u{200f}' | '\u{2028}'..='\u{202e}' | '\u{2066}'..='\u{2069}' | '\u{feff}')
}

/// A path as members of a JSON object: its name and, where that is no UTF-8, also its bytes in hexadecimal.
pub fn json(path: &Path) -> String {
    let name = format!("\"file\":{}", quoted(&path.to_string_lossy()));
    match path.to_str() {
        Some(_) => name,
        None => {
            let bytes: Vec<String> = path.as_os_str().as_bytes().iter().map(|byte| format!("{byte:02x}")).collect();
            format!("{name},\"file_bytes\":\"{}\"", bytes.concat())
        }
    }
}

/// A JSON string.
pub fn quoted(text: &str) -> String {
    let mut quoted = String::from("\"");
    for c in text.chars() {
        match c {
            '"' | '\\' => {
                quoted.push('\\');
                quoted.push(c);
            }
            c if c.is_control() => {
                let _ = write!(quoted, "\\u{:04x}", c as u32);
            }
            c => quoted.push(c),
        }
    }
    quoted.push('"');
    quoted
}

/// Text as XML has it in an attribute. XML has no form for most control characters: they come escaped by `shown`.
pub fn xml(text: &str) -> String {
    let text = text.replace('&', "&amp;").replace('<', "&lt;").replace('>', "&gt;").replace('"', "&quot;");
    text.replace(['\u{fffe}', '\u{ffff}'], "\u{fffd}")
}
