//! Names of files as they stand in messages and in commands to copy.

use std::ffi::OsStr;
use std::os::unix::ffi::OsStrExt;

/// A name for a message. Control characters, which could play with a terminal, and bytes that are no text stand as
/// escapes.
pub fn shown(name: impl AsRef<OsStr>) -> String {
    spelt(name.as_ref(), |c| c.to_string())
}

/// A name as a shell takes it, also where the tool would take it for an option.
pub fn quoted(name: impl AsRef<OsStr>) -> String {
    let name = name.as_ref();
    let folder = if name.as_bytes().starts_with(b"-") { "./" } else { "" };
    if name.to_str().is_none_or(|name| name.contains(is_hidden)) {
        let plain = |c| if matches!(c, '\\' | '\'') { format!("\\{c}") } else { c.to_string() };
        return format!("$'{folder}{}'", spelt(name, plain));
    }
    let text = format!("{folder}{}", shown(name));
    let plain = |c: char| c.is_ascii_alphanumeric() || "-_./+:,@%=".contains(c);
    if !text.is_empty() && text.chars().all(plain) {
        return text;
    }
    format!("'{}'", text.replace('\'', r"'\''"))
}

/// A name with its letters so, and the rest as escapes.
fn spelt(name: &OsStr, plain: impl Fn(char) -> String) -> String {
    let mut text = String::new();
    for part in name.as_bytes().utf8_chunks() {
        for c in part.valid().chars() {
            match is_hidden(c) {
                true => text.push_str(&escaped(c.encode_utf8(&mut [0; 4]).as_bytes())),
                false => text.push_str(&plain(c)),
            }
        }
        text.push_str(&escaped(part.invalid()));
    }
    text
}

/// Characters that are not seen themselves: control characters, and those that end a line or turn its direction.
fn is_hidden(c: char) -> bool {
    c.is_control() || matches!(c, '\u{200e}' | '\u{200f}' | '\u{2028}'..='\u{202e}' | '\u{2066}'..='\u{2069}')
}

fn escaped(bytes: &[u8]) -> String {
    bytes.iter().map(|byte| format!("\\x{byte:02x}")).collect()
}

#[cfg(test)]
mod tests {
    use super::{quoted, shown};
    use std::ffi::OsStr;
    use std::os::unix::ffi::OsStrExt;

    #[test]
    fn names_in_messages() {
        assert_eq!(shown("plain name"), "plain name");
        assert_eq!(shown("a\x1b[2J\nb"), "a\\x1b[2J\\x0ab");
        assert_eq!(shown(OsStr::from_bytes(b"\xff\xc3\xa4")), "\\xffä");
        assert_eq!(shown("a\u{202e}b"), "a\\xe2\\x80\\xaeb");
    }

    #[test]
    fn names_in_commands() {
        assert_eq!(quoted("shop.lur"), "shop.lur");
        assert_eq!(quoted("-x"), "./-x");
        assert_eq!(quoted("it's"), r"'it'\''s'");
        assert_eq!(quoted("-a b"), "'./-a b'");
        assert_eq!(quoted("a\nb"), r"$'a\x0ab'");
        assert_eq!(quoted("-\\n'\n"), r"$'./-\\n\'\x0a'");
        assert_eq!(quoted(""), "''");
    }
}
