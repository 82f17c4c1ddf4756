//! The messages of errors, the errors of std that they become, and traits of std.

use dethrux::ByteOrder::{BigEndian, LittleEndian};
use dethrux::*;

#[test]
fn errors_are_shown_as_std_shows_them() {
    let error = validate(LittleEndian, b"h\0i\0\0\xDC").unwrap_err();
    assert_eq!(error.to_string(), "invalid utf-16 sequence of 2 bytes from index 4");
    let error = validate(LittleEndian, b"h\0\0").unwrap_err();
    assert_eq!(error.to_string(), "incomplete utf-16 byte sequence from index 2");
    let error: Box<dyn std::error::Error + Send + Sync> = Box::new(error);
    assert!(error.is::<Utf16Error>());
    let error = validate_units(&[0x68, 0x69, 0xDC00]).unwrap_err();
    assert_eq!(error.to_string(), "unpaired surrogate at code unit 2");
    let error = validate_units(&[0x68, 0xD800]).unwrap_err();
    assert_eq!(error.to_string(), "incomplete surrogate pair from code unit 1");
    let error = validate_utf32(&[0x68, 0xD800]).unwrap_err();
    assert_eq!(error.to_string(), "invalid utf-32 code unit at index 1");
    for (wtf8, message) in [
        (&b"a\xED\xA0b"[..], "invalid wtf-8 sequence of 2 bytes from index 1"),
        (b"ab\xED\xA0", "incomplete wtf-8 byte sequence from index 2"),
    ] {
        assert_eq!(units_from_wtf8(wtf8).unwrap_err().to_string(), message);
    }
}

/// Whether an error of std is `InvalidData`, and has this error in it.
fn is_of<E: std::error::Error + PartialEq + 'static>(found: &std::io::Error, error: &E) -> bool {
    let inner = found.get_ref().and_then(|inner| inner.downcast_ref::<E>());
    found.kind() == std::io::ErrorKind::InvalidData && inner == Some(error)
}

#[test]
fn errors_become_those_of_std() {
    for (order, utf16) in [(LittleEndian, b"h\0\0\xDC"), (BigEndian, b"\0h\xDC\0")] {
        let error = validate(order, utf16).unwrap_err();
        assert!(is_of(&std::io::Error::from(error), &error));
    }
    for units in [[0x68, 0xDC00], [0x68, 0xD800]] {
        let error = validate_units(&units).unwrap_err();
        let found = std::io::Error::from(error);
        assert!(is_of(&found, &error));
        assert_eq!(found.to_string(), error.to_string());
    }
    let error = validate_utf32(&[0x68, 0xD800]).unwrap_err();
    assert!(is_of(&std::io::Error::from(error), &error));
    for wtf8 in [b"h\xFF", b"h\xED"] {
        let error = units_from_wtf8(wtf8).unwrap_err();
        assert!(is_of(&std::io::Error::from(error), &error));
    }
}

#[test]
fn values_may_go_to_other_threads() {
    fn is_send_and_sync<T: Send + Sync>() {}
    is_send_and_sync::<Decoder>();
    is_send_and_sync::<Encoder>();
    is_send_and_sync::<Utf16Chunks<'_>>();
    is_send_and_sync::<Wtf8Decoder>();
    is_send_and_sync::<Wtf8Encoder>();
    is_send_and_sync::<io::Reader<&[u8], Decoder>>();
    is_send_and_sync::<io::Reader<&[u8], io::Strict>>();
    is_send_and_sync::<io::Writer<Vec<u8>, Encoder>>();
}
