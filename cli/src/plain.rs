//! Bytes as plain ASCII, so that no text, label or file name can steer a terminal: another byte is shown as `<c3>`.

use std::ffi::OsStr;
use std::os::unix::ffi::OsStrExt;

const LONGEST: usize = 80;

/// Whether a byte is shown as itself.
pub fn shown(byte: u8) -> bool {
    matches!(byte, 32..=126)
}

fn push(out: &mut String, byte: u8) {
    if shown(byte) {
        out.push(byte as char);
    } else {
        out.push_str(&format!("<{byte:02x}>"));
    }
}

pub fn ascii(bytes: &[u8]) -> String {
    let mut out = String::with_capacity(bytes.len());
    bytes.iter().for_each(|&byte| push(&mut out, byte));
    out
}

/// A token or a label in a message: cut if it is very long.
pub fn token(bytes: &[u8]) -> String {
    if bytes.len() <= LONGEST {
        return ascii(bytes);
    }
    ascii(&bytes[..LONGEST - 3]) + "..."
}

/// Characters of a file name that act on a terminal or on the order of what is shown.
fn steers(c: char) -> bool {
    c.is_control()
        || matches!(c, '\u{200B}'..='\u{200F}' | '\u{2028}'..='\u{202E}' | '\u{2060}'..='\u{206F}' | '\u{FEFF}')
}

/// A file name: UTF-8 as it is, but for what steers.
pub fn file_name(name: &OsStr) -> String {
    let mut out = String::new();
    for chunk in name.as_bytes().utf8_chunks() {
        for c in chunk.valid().chars() {
            if steers(c) {
                c.encode_utf8(&mut [0; 4]).bytes().for_each(|byte| out.push_str(&format!("<{byte:02x}>")));
            } else {
                out.push(c);
            }
        }
        chunk.invalid().iter().for_each(|&byte| out.push_str(&format!("<{byte:02x}>")));
    }
    out
}
