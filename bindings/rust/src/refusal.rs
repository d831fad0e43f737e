//! Why and where modules are refused.

use crate::{ffi, Error};
use std::fmt;

/// A part of the binary format.
#[derive(Clone, Copy, Debug, PartialEq, Eq, Hash)]
#[non_exhaustive]
pub enum Construct {
    /// A byte.
    Byte,
    /// A number in LEB128 (Core 3.0, Integers).
    Number,
    /// An unsigned number of 32 bits.
    U32,
    /// An unsigned number of 64 bits.
    U64,
    /// A signed number of 32 bits.
    S32,
    /// A signed number of 64 bits.
    S64,
    /// A type index, encoded as a non-negative number of 33 bits.
    TypeIndex,
    /// A number in little-endian bytes: a float or a vector.
    Constant,
    /// Bytes after their size, such as a section or a code body.
    Body,
    /// A name (Core 3.0, Names).
    Name,
    /// A value type (Core 3.0, Value Types).
    ValType,
    /// A heap type (Core 3.0, Heap Types).
    HeapType,
    /// A reference type (Core 3.0, Reference Types).
    RefType,
    /// The first byte of a recursive type, a sub type or a composite type (Core 3.0, Recursive Types).
    TypeForm,
    /// Whether a field is mutable.
    Mutability,
    /// The flags of limits (Core 3.0, Limits).
    Limits,
    /// The flags of a memory type.
    MemoryFlags,
    /// A table.
    Table,
    /// The attribute of a tag type.
    TagAttribute,
    /// The kind of an import.
    ImportKind,
    /// The kind of an export.
    ExportKind,
    /// An opcode, or the number after its prefix.
    Opcode,
    /// A block type.
    BlockType,
    /// A clause of `try_table`.
    Clause,
    /// The ordering of an atomic instruction.
    Ordering,
    /// The flags of a branch on a cast.
    CastFlags,
    /// The form of an element segment.
    ElementForm,
    /// The kind of an element segment's items.
    ElementKind,
    /// The form of a data segment.
    DataForm,
    /// The id of a section.
    SectionId,
    /// The id of a subsection.
    SubsectionId,
    /// A byte that is 0.
    Reserved,
    /// An abstract heap type, after the byte of a shared one.
    AbstractHeapType,
    /// A clause of `resume`, which handles a tag.
    HandlerClause,
    /// The byte of a function, structure, array or continuation type.
    CompositeType,
    /// Whether a global is mutable, and whether it is shared.
    GlobalMutability,
    /// The byte of a branch hint.
    BranchHint,
    /// The prefix of a target feature.
    FeaturePrefix,
    /// The version of a `linking` section.
    LinkingVersion,
    /// The kind of a symbol.
    SymbolKind,
    /// The first byte of a value in a core dump.
    CoreDumpValue,
}

impl Construct {
    /// All parts, in the order of their codes from 1 on.
    const ALL: [Construct; 41] = [
        Construct::Byte,
        Construct::Number,
        Construct::U32,
        Construct::U64,
        Construct::S32,
        Construct::S64,
        Construct::TypeIndex,
        Construct::Constant,
        Construct::Body,
        Construct::Name,
        Construct::ValType,
        Construct::HeapType,
        Construct::RefType,
        Construct::TypeForm,
        Construct::Mutability,
        Construct::Limits,
        Construct::MemoryFlags,
        Construct::Table,
        Construct::TagAttribute,
        Construct::ImportKind,
        Construct::ExportKind,
        Construct::Opcode,
        Construct::BlockType,
        Construct::Clause,
        Construct::Ordering,
        Construct::CastFlags,
        Construct::ElementForm,
        Construct::ElementKind,
        Construct::DataForm,
        Construct::SectionId,
        Construct::SubsectionId,
        Construct::Reserved,
        Construct::AbstractHeapType,
        Construct::HandlerClause,
        Construct::CompositeType,
        Construct::GlobalMutability,
        Construct::BranchHint,
        Construct::FeaturePrefix,
        Construct::LinkingVersion,
        Construct::SymbolKind,
        Construct::CoreDumpValue,
    ];

    fn of(code: u32) -> Construct {
        match Construct::ALL.get((code as usize).wrapping_sub(1)) {
            Some(construct) => *construct,
            None => unreachable!("the static library told the part {code}"),
        }
    }

    fn code(self) -> u32 {
        self as u32 + 1
    }
}

/// Why a module is refused.
#[derive(Clone, Copy, Debug, PartialEq, Eq, Hash)]
#[non_exhaustive]
pub enum Reason {
    /// The bytes end before or inside this part.
    UnexpectedEnd {
        /// The part.
        construct: Construct,
    },
    /// A LEB128 number has too many bytes.
    NumberTooLong {
        /// Maximum length in bytes.
        most: u8,
    },
    /// A LEB128 number is too large or too small.
    NumberOutOfRange {
        /// What the number should be.
        construct: Construct,
    },
    /// A byte is none of those that may stand in its place.
    InvalidByte {
        /// What the byte should be.
        construct: Construct,
        /// The byte.
        byte: u8,
    },
    /// A number is none of those that may stand in its place.
    InvalidNumber {
        /// What the number should be.
        construct: Construct,
        /// The number.
        number: u32,
    },
    /// An opcode of one byte is unknown.
    UnknownOpcode {
        /// The opcode.
        number: u32,
    },
    /// An opcode with a prefix is unknown.
    UnknownPrefixedOpcode {
        /// The first byte.
        prefix: u8,
        /// The number after it.
        number: u32,
    },
    /// The alignment of a memory argument is 64 or more.
    InvalidAlignment {
        /// The number that holds the alignment.
        flags: u32,
    },
    /// A name isn't UTF-8.
    InvalidUtf8 {
        /// Offset of the first invalid byte in the name.
        at: u32,
    },
    /// Bytes follow after the last part.
    TrailingBytes {
        /// Number of bytes.
        count: usize,
    },
    /// A size is larger than the number of bytes left.
    SizeTooLarge {
        /// The size.
        size: u32,
        /// Number of bytes left after it.
        left: usize,
    },
    /// A constant expression has no final `end`.
    MissingEnd,
    /// A `delegate` stands outside of a block of a constant expression.
    StrayDelimiter,
    /// No section has this id.
    UnknownSection {
        /// The id.
        id: u8,
    },
    /// The bytes don't begin with the header of a module.
    NotAModule {
        /// The first four bytes, little-endian. Each that is missing counts as 0.
        first: u32,
        /// Number of bytes of the input.
        len: usize,
    },
    /// The bytes have another version than that of a module.
    UnsupportedVersion {
        /// The four bytes after the magic number, little-endian.
        version: u32,
    },
    /// A part decodes, but isn't minimally encoded.
    NotMinimal {
        /// Length of the part in bytes.
        bytes: usize,
        /// Length of its minimal encoding.
        minimal: usize,
    },
    /// A part decodes, but a number or a form in it isn't minimally encoded.
    LongForm,
    /// The bytes are refused for a reason that a check of it didn't confirm. No known input has it.
    Unexplained,
}

impl Reason {
    fn of(told: &ffi::Refusal) -> Reason {
        let (first, second) = (told.first, told.second);
        let construct = || Construct::of(told.construct);
        match told.reason {
            1 => Reason::UnexpectedEnd {
                construct: construct(),
            },
            2 => Reason::NumberTooLong { most: first as u8 },
            3 => Reason::NumberOutOfRange {
                construct: construct(),
            },
            4 => Reason::InvalidByte {
                construct: construct(),
                byte: first as u8,
            },
            5 => Reason::InvalidNumber {
                construct: construct(),
                number: first as u32,
            },
            6 => Reason::UnknownOpcode {
                number: first as u32,
            },
            7 => Reason::UnknownPrefixedOpcode {
                prefix: first as u8,
                number: second as u32,
            },
            8 => Reason::InvalidAlignment {
                flags: first as u32,
            },
            9 => Reason::InvalidUtf8 { at: first as u32 },
            10 => Reason::TrailingBytes {
                count: first as usize,
            },
            11 => Reason::SizeTooLarge {
                size: first as u32,
                left: second as usize,
            },
            12 => Reason::MissingEnd,
            13 => Reason::StrayDelimiter,
            14 => Reason::UnknownSection { id: first as u8 },
            15 => Reason::NotAModule {
                first: first as u32,
                len: second as usize,
            },
            16 => Reason::UnsupportedVersion {
                version: first as u32,
            },
            17 => Reason::NotMinimal {
                bytes: first as usize,
                minimal: second as usize,
            },
            18 => Reason::LongForm,
            19 => Reason::Unexplained,
            other => unreachable!("the static library told the reason {other}"),
        }
    }

    /// Returns the reason's code, the part that it names, and the numbers that it carries.
    fn numbers(self) -> (u32, Option<Construct>, u64, u64) {
        match self {
            Reason::UnexpectedEnd { construct } => (1, Some(construct), 0, 0),
            Reason::NumberTooLong { most } => (2, None, most.into(), 0),
            Reason::NumberOutOfRange { construct } => (3, Some(construct), 0, 0),
            Reason::InvalidByte { construct, byte } => (4, Some(construct), byte.into(), 0),
            Reason::InvalidNumber { construct, number } => (5, Some(construct), number.into(), 0),
            Reason::UnknownOpcode { number } => (6, None, number.into(), 0),
            Reason::UnknownPrefixedOpcode { prefix, number } => {
                (7, None, prefix.into(), number.into())
            }
            Reason::InvalidAlignment { flags } => (8, None, flags.into(), 0),
            Reason::InvalidUtf8 { at } => (9, None, at.into(), 0),
            Reason::TrailingBytes { count } => (10, None, count as u64, 0),
            Reason::SizeTooLarge { size, left } => (11, None, size.into(), left as u64),
            Reason::MissingEnd => (12, None, 0, 0),
            Reason::StrayDelimiter => (13, None, 0, 0),
            Reason::UnknownSection { id } => (14, None, id.into(), 0),
            Reason::NotAModule { first, len } => (15, None, first.into(), len as u64),
            Reason::UnsupportedVersion { version } => (16, None, version.into(), 0),
            Reason::NotMinimal { bytes, minimal } => (17, None, bytes as u64, minimal as u64),
            Reason::LongForm => (18, None, 0, 0),
            Reason::Unexplained => (19, None, 0, 0),
        }
    }
}

/// The section that a malformed part lies in.
#[derive(Clone, Copy, Debug, PartialEq, Eq, Hash)]
pub struct SectionPlace {
    /// Number of sections before it.
    pub number: usize,
    /// Its id.
    pub id: u8,
}

/// Why and where a module is refused.
///
/// `Display` writes a whole message, but for the name of the input. Offsets are counted in bytes from the start of the
/// module.
#[derive(Clone, Copy, Debug, PartialEq, Eq, Hash)]
pub struct Refusal {
    /// Length of the longest prefix that decodes or, if the call is strict, is minimally encoded.
    pub at: usize,
    /// Offset of the bytes for which the reason is given.
    pub offset: usize,
    /// The section. `None` outside of sections.
    pub section: Option<SectionPlace>,
    /// Index of the item in the section's list, such as a function of a code section. `None` outside of lists.
    pub item: Option<u32>,
    /// Index of the group of locals in its code body. `None` outside of locals.
    pub local_group: Option<u32>,
    /// Offset of the instruction. `None` outside of instructions.
    pub instruction: Option<usize>,
    /// Why the module is refused.
    pub reason: Reason,
}

impl Refusal {
    fn of(told: &ffi::Refusal) -> Refusal {
        let section = |number: i64| SectionPlace {
            number: number as usize,
            id: told.section_id as u8,
        };
        Refusal {
            at: told.at as usize,
            offset: told.offset as usize,
            section: known(told.section).map(section),
            item: known(told.item).map(|index| index as u32),
            local_group: known(told.local_group).map(|index| index as u32),
            instruction: known(told.instruction).map(|offset| offset as usize),
            reason: Reason::of(told),
        }
    }

    fn numbers(&self) -> ffi::Refusal {
        let (reason, construct, first, second) = self.reason.numbers();
        ffi::Refusal {
            status: ffi::REFUSED,
            reason,
            construct: construct.map_or(0, Construct::code),
            section_id: self.section.map_or(-1, |section| section.id.into()),
            at: self.at as u64,
            offset: self.offset as u64,
            section: self.section.map_or(-1, |section| section.number as i64),
            item: self.item.map_or(-1, i64::from),
            local_group: self.local_group.map_or(-1, i64::from),
            instruction: self.instruction.map_or(-1, |offset| offset as i64),
            first,
            second,
        }
    }
}

/// Returns the number unless it is -1, which means none.
fn known(number: i64) -> Option<i64> {
    (number >= 0).then_some(number)
}

impl fmt::Display for Refusal {
    fn fmt(&self, f: &mut fmt::Formatter<'_>) -> fmt::Result {
        let mut buffer = [0; 257];
        let numbers = self.numbers();
        // SAFETY: both pointers come from values that live for the call, and the length is that of the second.
        let len = unsafe { ffi::nosgrivel_message(&numbers, buffer.as_mut_ptr(), buffer.len()) };
        f.pad(std::str::from_utf8(&buffer[..len]).expect("messages are ASCII"))
    }
}

impl std::error::Error for Refusal {}

/// The error of [`explain`].
#[derive(Clone, Copy, Debug, PartialEq, Eq, Hash)]
pub enum DecodeError {
    /// The module is malformed, or not minimally encoded if the call is strict.
    Malformed(Refusal),
    /// Memory ran out.
    NoMemory,
}

impl fmt::Display for DecodeError {
    fn fmt(&self, f: &mut fmt::Formatter<'_>) -> fmt::Result {
        match self {
            DecodeError::Malformed(refusal) => refusal.fmt(f),
            DecodeError::NoMemory => Error::NoMemory.fmt(f),
        }
    }
}

impl std::error::Error for DecodeError {}

impl From<DecodeError> for Error {
    fn from(error: DecodeError) -> Error {
        match error {
            DecodeError::Malformed(refusal) => Error::Refused { at: refusal.at },
            DecodeError::NoMemory => Error::NoMemory,
        }
    }
}

/// Checks whether every section of a module decodes and, if `strict` is set, is minimally encoded.
///
/// If not, the error says why and where.
///
/// ```
/// use nosgrivel::{DecodeError, Reason};
///
/// // The opcode 0xFF doesn't exist.
/// let module = b"\0asm\x01\0\0\0\x0a\x05\x01\x03\x00\xff\x0b";
/// let Err(DecodeError::Malformed(refusal)) = nosgrivel::explain(module, false) else {
///     panic!("expected a refusal");
/// };
/// assert_eq!(refusal.reason, Reason::UnknownOpcode { number: 0xff });
/// assert_eq!(refusal.offset, 13);
/// assert_eq!(refusal.to_string(), "code section, function 0, offset 0xd: unknown opcode 0xFF");
/// ```
///
/// # Errors
///
/// [`DecodeError::Malformed`] where [`canonicalise`](crate::canonicalise) or, if `strict` is set,
/// [`check_canonical`](crate::check_canonical) refuses the module. [`DecodeError::NoMemory`] if memory runs out.
pub fn explain(module: &[u8], strict: bool) -> Result<(), DecodeError> {
    let mut told = ffi::Refusal::default();
    // SAFETY: both pointers come from values that are borrowed for the call, and the length is that of the first.
    let status =
        unsafe { ffi::nosgrivel_explain_module(module.as_ptr(), module.len(), strict, &mut told) };
    match status {
        ffi::NORMAL => Ok(()),
        ffi::REFUSED => Err(DecodeError::Malformed(Refusal::of(&told))),
        ffi::NO_MEMORY => Err(DecodeError::NoMemory),
        other => unreachable!("the proved library answered status {other}"),
    }
}
