//! Tests of what no vector covers: empty inputs, errors as values, and threads.

use nosgrivel::*;

fn is_error<E: std::error::Error + Send + Sync + 'static>(_: &E) {}

#[test]
fn errors_are_errors() {
    let refused = Error::Refused { at: 8 };
    is_error(&refused);
    assert_eq!(refused.to_string(), "refused at 8");
    assert_eq!(Error::NoMemory.to_string(), "no memory");
}

#[test]
fn no_bytes() {
    assert_eq!(normalise_instructions(&[]), Ok(vec![]));
    assert_eq!(normalise_instructions_in_place(&mut Vec::new()), Ok(()));
    assert_eq!(is_normal_instructions(&[]), Ok(true));
    assert_eq!(check_instructions(&[]), Ok(()));
    assert_eq!(normalise_module(&[]), Err(Error::Refused { at: 0 }));
    assert_eq!(check_code_section(&[]), Err(Error::Refused { at: 0 }));
    assert_eq!(canonicalise(&[]), Err(Error::Refused { at: 0 }));
}

/// A module with a global whose constant is two bytes too long, and one whose export section is cut.
#[test]
fn canonical_forms() {
    let header = b"\0asm\x01\0\0\0";
    let longer = [
        &header[..],
        &[0x06, 0x08, 0x01, 0x7F, 0x00, 0x41, 0x80, 0x80, 0x00, 0x0B],
    ]
    .concat();
    let canonical = [
        &header[..],
        &[0x06, 0x06, 0x01, 0x7F, 0x00, 0x41, 0x00, 0x0B],
    ]
    .concat();
    assert_eq!(normalise_module(&longer).as_ref(), Ok(&longer));
    assert_eq!(canonicalise(&longer).as_ref(), Ok(&canonical));
    assert_eq!(is_canonical(&longer), Ok(false));
    assert_eq!(is_canonical(&canonical), Ok(true));
    assert_eq!(check_canonical(&longer), Err(Error::Refused { at: 8 }));
    assert_eq!(check_canonical(&canonical), Ok(()));
    let mut bytes = longer.clone();
    assert_eq!(canonicalise_in_place(&mut bytes), Ok(()));
    assert_eq!(bytes, canonical);
    let mut cut = [&header[..], &[0x07, 0x01, 0x01]].concat();
    assert_eq!(
        canonicalise_in_place(&mut cut),
        Err(Error::Refused { at: 8 })
    );
    assert_eq!(cut, [&header[..], &[0x07, 0x01, 0x01]].concat());
}

#[test]
fn threads_call_side_by_side() {
    let header = b"\0asm\x01\0\0\0";
    let input = [&header[..], &[0x03, 0x80, 0x00].repeat(10_000)].concat();
    let wanted = [&header[..], &[0x03, 0x00].repeat(10_000)].concat();
    std::thread::scope(|scope| {
        for _ in 0..8 {
            scope.spawn(|| {
                for _ in 0..20 {
                    assert_eq!(normalise_module(&input).as_ref(), Ok(&wanted));
                }
            });
        }
    });
}
