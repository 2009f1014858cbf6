//! Words as bytes and as text.

use jugnayap::{Code, Refusal, Word};

#[test]
fn text_and_bytes() {
    for (text, bytes) in [("", &[][..]), ("0", &[0]), ("1", &[1]), ("10011", &[1, 0, 0, 1, 1])] {
        let word: Word = text.parse().unwrap();
        assert_eq!(Word::from_bytes(bytes), Ok(word.clone()));
        assert_eq!((word.bytes(), word.to_string().as_str()), (bytes, text));
    }
    let long = "01".repeat(1024);
    assert_eq!(long.parse::<Word>().unwrap().to_string(), long);
}

#[test]
fn refused_text() {
    // The neighbours of the two digits, digits of other scripts, and what is about a word.
    for text in ["/", "2", "01a", "0 1", " 01", "01\n", "-1", "0\0", "０", "١", "true"] {
        assert_eq!(text.parse::<Word>(), Err(Refusal::WORD), "{text:?}");
    }
}

#[test]
fn refused_bytes() {
    for byte in [2, 48, 49, 128, 255] {
        assert_eq!(Word::from_bytes([0, 1, byte]), Err(Refusal::WORD), "{byte}");
    }
}

/// A word of any length is one; a code wants its own.
#[test]
fn length_is_the_code_s() {
    let code = Code::from_checks(3, &[[0, 1, 2]]).unwrap();
    for (text, agreement) in
        [("000", Ok(6)), ("011", Ok(-4)), ("00", Err(Refusal::WORD)), ("0000", Err(Refusal::WORD))]
    {
        assert_eq!(code.agreement(&[1, 2, 3], &text.parse().unwrap()), agreement, "{text}");
    }
}
