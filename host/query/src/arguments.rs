//! The words of a command line.

use std::ffi::OsString;

/// The words behind the program's name; one that is no UTF-8 is an error and not guessed at.
pub fn arguments() -> Result<Vec<String>, String> {
    words(std::env::args_os().skip(1))
}

fn words(words: impl Iterator<Item = OsString>) -> Result<Vec<String>, String> {
    let wrong = |word: OsString| format!("`{}` is no UTF-8", word.to_string_lossy());
    words
        .map(|word| word.into_string().map_err(wrong))
        .collect()
}

#[cfg(test)]
mod tests {
    use super::words;
    use std::ffi::OsString;
    use std::os::unix::ffi::OsStringExt;

    #[test]
    fn a_word_that_is_no_text_is_refused() {
        let told = |bytes: &[u8]| words([OsString::from_vec(bytes.to_vec())].into_iter());
        assert_eq!(told("\u{b5}".as_bytes()), Ok(vec!["\u{b5}".into()]));
        assert_eq!(told(b"a\xb5"), Err("`a\u{fffd}` is no UTF-8".into()));
    }
}
