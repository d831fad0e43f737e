//! Why and where modules are refused, worked out by hand from the binary format.
//!
//! The header has 8 bytes, so that the first section has its id at 8, its size at 9 and its body at 10.

use nosgrivel::*;

const HEADER: &[u8] = b"\0asm\x01\0\0\0";

/// Returns the module with these sections.
fn module(sections: &[u8]) -> Vec<u8> {
    [HEADER, sections].concat()
}

fn refusal(module: &[u8], strict: bool) -> Refusal {
    match explain(module, strict) {
        Err(DecodeError::Malformed(refusal)) => refusal,
        other => panic!("{module:02X?}: {other:?}"),
    }
}

/// Returns the refusal of a part in an item of the first section.
fn in_item(id: u8, item: u32, offset: usize, reason: Reason) -> Refusal {
    Refusal {
        at: 8,
        offset,
        section: Some(SectionPlace { number: 0, id }),
        item: Some(item),
        local_group: None,
        instruction: None,
        reason,
    }
}

fn expect(sections: &[u8], wanted: Refusal, message: &str) {
    let told = refusal(&module(sections), false);
    assert_eq!(told, wanted);
    assert_eq!(told.to_string(), message);
    assert_eq!(
        canonicalise(&module(sections)),
        Err(Error::from(DecodeError::Malformed(told)))
    );
}

#[test]
fn numbers() {
    let wanted = in_item(3, 0, 11, Reason::NumberTooLong { most: 5 });
    expect(
        &[3, 7, 1, 0x80, 0x80, 0x80, 0x80, 0x80, 0],
        wanted,
        "function section, function 0, offset 0xb: LEB128 number too long: more than 5 bytes",
    );
    let construct = Construct::U32;
    let wanted = in_item(3, 0, 11, Reason::NumberOutOfRange { construct });
    expect(
        &[3, 6, 1, 0xFF, 0xFF, 0xFF, 0xFF, 0x7F],
        wanted,
        "function section, function 0, offset 0xb: LEB128 number out of range of u32",
    );
    // Two functions at 10, but one index.
    let construct = Construct::Number;
    let wanted = in_item(3, 1, 12, Reason::UnexpectedEnd { construct });
    expect(
        &[3, 2, 2, 0],
        wanted,
        "function section, function 1, offset 0xc: unexpected end: expected LEB128 number",
    );
}

#[test]
fn bytes() {
    let (construct, byte) = (Construct::CompositeType, 0x7F);
    let wanted = in_item(1, 1, 14, Reason::InvalidByte { construct, byte });
    expect(
        &[1, 5, 2, 0x60, 0, 0, 0x7F],
        wanted,
        "type section, type 1, offset 0xe: invalid composite type 0x7f",
    );
    // Two empty names at 11 and 12, and the kind at 13.
    let (construct, byte) = (Construct::ImportKind, 5);
    let wanted = in_item(2, 0, 13, Reason::InvalidByte { construct, byte });
    expect(
        &[2, 5, 1, 0, 0, 5, 0],
        wanted,
        "import section, import 0, offset 0xd: invalid import kind 0x05",
    );
    // A name of two bytes at 12, the second not UTF-8.
    let wanted = in_item(7, 0, 13, Reason::InvalidUtf8 { at: 1 });
    expect(
        &[7, 6, 1, 2, b'a', 0xFF, 0, 0],
        wanted,
        "export section, export 0, offset 0xd: name isn't UTF-8 from its byte 1 on",
    );
}

#[test]
fn instructions() {
    // nop at 13; the prefix at 14, and the number 282.
    let reason = Reason::UnknownPrefixedOpcode {
        prefix: 0xFD,
        number: 282,
    };
    let wanted = Refusal {
        instruction: Some(14),
        ..in_item(10, 0, 14, reason)
    };
    expect(
        &[10, 8, 1, 6, 0, 1, 0xFD, 0x9A, 2, 0x0B],
        wanted,
        "code section, function 0, offset 0xe: unknown opcode 0xFD 0x11A",
    );
    // i32.load at 13, and its flags at 14.
    let wanted = Refusal {
        instruction: Some(13),
        ..in_item(10, 0, 14, Reason::InvalidAlignment { flags: 128 })
    };
    expect(
        &[10, 8, 1, 6, 0, 0x28, 0x80, 1, 0, 0x0B],
        wanted,
        "code section, function 0, offset 0xe: alignment flags 128 out of range: expected less than 128",
    );
    // One group of locals, whose type is at 14.
    let (construct, byte) = (Construct::ValType, 0x40);
    let wanted = Refusal {
        local_group: Some(0),
        ..in_item(10, 0, 14, Reason::InvalidByte { construct, byte })
    };
    expect(
        &[10, 6, 1, 4, 1, 1, 0x40, 0x0B],
        wanted,
        "code section, function 0, local group 0, offset 0xe: invalid value type 0x40",
    );
}

#[test]
fn sections() {
    // A custom section of 3 bytes, then a start section at 11 with one trailing byte at 14.
    let wanted = Refusal {
        at: 11,
        section: Some(SectionPlace { number: 1, id: 8 }),
        item: None,
        ..in_item(8, 0, 14, Reason::TrailingBytes { count: 1 })
    };
    expect(
        &[0, 1, 0, 8, 2, 5, 0],
        wanted,
        "start section, offset 0xe: 1 trailing byte",
    );
    let wanted = Refusal {
        item: None,
        ..in_item(5, 0, 9, Reason::SizeTooLarge { size: 9, left: 1 })
    };
    expect(
        &[5, 9, 0],
        wanted,
        "memory section, offset 0x9: size 9 too large: 1 byte left",
    );
    let wanted = Refusal {
        item: None,
        ..in_item(14, 0, 8, Reason::UnknownSection { id: 14 })
    };
    expect(
        &[14, 0],
        wanted,
        "section 0, offset 0x8: unknown section id 14",
    );
}

#[test]
fn headers() {
    let told = refusal(b"", false);
    assert_eq!((told.at, told.section), (0, None));
    assert_eq!(told.reason, Reason::NotAModule { first: 0, len: 0 });
    let text = refusal(b"(module)", false);
    let first = u32::from_le_bytes(*b"(mod");
    assert_eq!(text.reason, Reason::NotAModule { first, len: 8 });
    let component = refusal(b"\0asm\x0d\0\x01\0", false);
    let version = 0x1000d;
    assert_eq!(component.reason, Reason::UnsupportedVersion { version });
}

#[test]
fn strict() {
    // A start section of 4 bytes, whose size has two.
    let padded = module(&[8, 0x81, 0, 5]);
    assert_eq!(explain(&padded, false), Ok(()));
    let told = refusal(&padded, true);
    let (bytes, minimal) = (4, 3);
    assert_eq!(told.reason, Reason::NotMinimal { bytes, minimal });
    assert_eq!(
        check_canonical(&padded),
        Err(Error::Refused { at: told.at })
    );
    assert_eq!(explain(&module(&[8, 1, 5]), true), Ok(()));
}

#[test]
fn refusals_are_errors() {
    fn is_error<E: std::error::Error + Send + Sync + 'static>(_: &E) {}
    let told = refusal(b"", false);
    is_error(&told);
    is_error(&DecodeError::Malformed(told));
    assert_eq!(DecodeError::Malformed(told).to_string(), told.to_string());
    assert_eq!(DecodeError::NoMemory.to_string(), "no memory");
    assert_eq!(Error::from(DecodeError::NoMemory), Error::NoMemory);
}

/// Every code of a part gives the text of that part, and none is the same.
#[test]
fn parts() {
    let told = refusal(b"", false);
    let texts: std::collections::HashSet<String> = [
        Construct::Byte,
        Construct::Number,
        Construct::TypeIndex,
        Construct::HeapType,
        Construct::TagAttribute,
        Construct::Opcode,
        Construct::CastFlags,
        Construct::Reserved,
        Construct::AbstractHeapType,
        Construct::HandlerClause,
        Construct::CompositeType,
        Construct::CoreDumpValue,
    ]
    .into_iter()
    .map(|construct| {
        let reason = Reason::InvalidByte { construct, byte: 1 };
        Refusal { reason, ..told }.to_string()
    })
    .collect();
    assert_eq!(texts.len(), 12);
    assert!(texts.contains("offset 0x0: invalid reserved byte 0x01"));
    assert!(texts.contains("offset 0x0: invalid heap type 0x01"));
}

#[test]
fn stripped() {
    let name = b"\0\x06\x04name\x01";
    let other = b"\0\x07\x05other\x02";
    let start = [8, 0x82, 0, 0x83, 0];
    let input = [HEADER, name, other, &start].concat();
    let all = [HEADER, &[8, 1, 3]].concat();
    let but_name = [HEADER, name, &[8, 1, 3]].concat();
    assert_eq!(strip(&input, &[], &[]), canonicalise(&input));
    assert_eq!(strip(&input, &["*"], &[]).as_ref(), Ok(&all));
    assert_eq!(strip(&input, &["name", "o*r"], &[]).as_ref(), Ok(&all));
    assert_eq!(strip(&input, &["*"], &["n*"]).as_ref(), Ok(&but_name));
    assert_eq!(strip(&input, &["other"], &[]).as_ref(), Ok(&but_name));
    assert_eq!(
        strip(&input, &["Other", "othe", ""], &[]),
        canonicalise(&input)
    );
    assert_eq!(strip(&input, &["o*h*r", "n**e"], &[]).as_ref(), Ok(&all));
    assert_eq!(strip(&input, &["**"], &["*a*e*"]).as_ref(), Ok(&but_name));
    assert_eq!(strip(&input, &["*e*e"], &[]), canonicalise(&input));
    let wrong = "a\0b";
    assert_eq!(strip(&input, &[wrong], &[]), Err(Error::InvalidPattern));
    assert_eq!(strip(&input, &[], &[wrong]), Err(Error::InvalidPattern));
    assert_eq!(
        strip(&input[..20], &["*"], &[]),
        Err(Error::Refused { at: 16 })
    );
}
