//! Names as a terminal may see them, and back.

/// Text from a disc or from a caller, with what a terminal would act on, hide or turn round written as \u{..}, a backslash as \\, and a byte
/// that isn't UTF-8 as \x...
pub fn shown(name: &[u8]) -> String {
    let mut text = String::with_capacity(name.len());
    for chunk in name.utf8_chunks() {
        write(chunk.valid(), |_| false, &mut text);
        for byte in chunk.invalid() {
            text.push_str(&format!("\\x{byte:02x}"));
        }
    }
    text
}

/// The same of one name of a path, in which a slash isn't one that stands between two.
pub fn shown_name(name: &str) -> String {
    let mut text = String::with_capacity(name.len());
    write(name, |c| c == '/', &mut text);
    text
}

/// Writes text behind what there is. A directory may have millions of names, so what needs no writing out is put in runs.
fn write(name: &str, also: impl Fn(char) -> bool, text: &mut String) {
    let mut from = 0;
    for (at, c) in name.char_indices() {
        if c != '\\' && !is_tricky(c) && !also(c) {
            continue;
        }
        text.push_str(&name[from..at]);
        from = at + c.len_utf8();
        match c {
            '\\' => text.push_str("\\\\"),
            c => text.extend(c.escape_unicode()),
        }
    }
    text.push_str(&name[from..]);
}

/// Control characters, and format characters: bidirectional marks, line and paragraph separators, those of no width, tags.
pub fn is_tricky(c: char) -> bool {
    c.is_control()
        || matches!(c,
            '\u{ad}' | '\u{61c}' | '\u{180e}' | '\u{200b}'..='\u{200f}' | '\u{2028}'..='\u{202e}' | '\u{2060}'..='\u{206f}'
            | '\u{feff}' | '\u{fff9}'..='\u{fffb}' | '\u{e0000}'..='\u{e007f}')
}

/// A path as it is typed, with what `shown` and `shown_name` write out taken back; or why that can't be.
pub fn read(typed: &[u8]) -> Result<Vec<u8>, String> {
    let (mut path, mut rest) = (Vec::new(), typed);
    while let Some(at) = rest.iter().position(|byte| *byte == b'\\') {
        path.extend_from_slice(&rest[..at]);
        let (bytes, behind) = escape(&rest[at + 1..]).ok_or_else(|| {
            format!(
                "{}: in a PATH a backslash starts \\\\, \\u{{..}} or \\x.., as ls prints them; --raw takes PATH literally",
                shown(typed)
            )
        })?;
        if bytes == b"/" {
            return Err(format!(
                "{}: a PATH can't name an entry that has a slash in its name: use --icb with its place, from ls -i",
                shown(typed)
            ));
        }
        path.extend_from_slice(&bytes);
        rest = behind;
    }
    path.extend_from_slice(rest);
    Ok(path)
}

/// The bytes that what stands behind a backslash is written for, and what is left.
fn escape(text: &[u8]) -> Option<(Vec<u8>, &[u8])> {
    let (kind, rest) = text.split_first()?;
    match kind {
        b'\\' => Some((b"\\".to_vec(), rest)),
        b'x' => {
            let (digits, rest) = rest.split_at_checked(2)?;
            Some((vec![number(digits)? as u8], rest))
        }
        b'u' => {
            let rest = rest.strip_prefix(b"{")?;
            let (digits, rest) = rest.split_at_checked(rest.iter().position(|byte| *byte == b'}')?)?;
            let c = char::from_u32(number(digits)?)?;
            Some((c.encode_utf8(&mut [0; 4]).as_bytes().to_vec(), &rest[1..]))
        }
        _ => None,
    }
}

/// Up to six hexadecimal digits.
fn number(digits: &[u8]) -> Option<u32> {
    let text = str::from_utf8(digits).ok().filter(|text| (1..=6).contains(&text.len()))?;
    text.bytes().all(|byte| byte.is_ascii_hexdigit()).then(|| u32::from_str_radix(text, 16).ok())?
}

#[cfg(test)]
mod tests {
    use super::*;

    #[test]
    fn plain_names_stay() {
        for name in ["", "10.1A", "a b", "naïve 日本", "~!@#$%^&*()"] {
            assert_eq!(shown(name.as_bytes()), name);
            assert_eq!(read(name.as_bytes()).unwrap(), name.as_bytes());
        }
    }

    #[test]
    fn tricks_are_written_out() {
        assert_eq!(shown(b"\x1b[2J\n\x7f"), "\\u{1b}[2J\\u{a}\\u{7f}");
        assert_eq!(shown("a\u{9b}b".as_bytes()), "a\\u{9b}b");
        assert_eq!(shown("cue\u{202e}txt.\u{200b}\u{feff}".as_bytes()), "cue\\u{202e}txt.\\u{200b}\\u{feff}");
        assert_eq!(shown(b"\\u{a}"), "\\\\u{a}");
        assert_eq!(shown(b"a\0\xff\xc3"), "a\\u{0}\\xff\\xc3");
        assert_eq!((shown(b"a/b").as_str(), shown_name("a/b").as_str()), ("a/b", "a\\u{2f}b"));
    }

    #[test]
    fn what_is_shown_is_read_back() {
        let all: Vec<u8> = (0..=255).collect();
        let tricks = "a\u{9b}b\u{202e}\u{e0041}\u{10ffff}\\\\x41".as_bytes();
        for name in [&all[..], tricks, b"\\", b"\\u{41}", b"\xc3\x28", b"a/b"] {
            assert_eq!(read(shown(name).as_bytes()).unwrap(), name);
        }
        assert_eq!(read(b"\\x41\\u{42}\\u{01F60}").unwrap(), "AB\u{1f60}".as_bytes());
    }

    #[test]
    fn what_ls_does_not_write_is_not_read() {
        for typed in
            ["\\", "a\\b", "\\n", "\\x", "\\x4", "\\xg0", "\\x+1", "\\u", "\\u{}", "\\u{41", "\\u{110000}", "\\u{d800}", "\\u{0000041}"]
        {
            assert!(read(typed.as_bytes()).unwrap_err().contains("--raw takes PATH literally"), "{typed}");
        }
        for typed in ["a\\u{2f}b", "a\\x2fb"] {
            assert!(read(typed.as_bytes()).unwrap_err().contains("use --icb"), "{typed}");
        }
    }
}
