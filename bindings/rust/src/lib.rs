//! The normalisers and checks of Nosgrivel, a proved WebAssembly encoder.
//!
//! The binary format of WebAssembly has many encodings of one value: a linker, for example, pads numbers to five bytes.
//! A normaliser reads any encoding and writes the minimal one. If the input is malformed, it returns the length of the
//! longest prefix that decodes.
//!
//! ```
//! // `local.get 66` as a linker pads it, and its minimal encoding.
//! let normal = nosgrivel::normalise_instructions(&[0x20, 0xC2, 0x80, 0x00])?;
//! assert_eq!(normal, [0x20, 0x42]);
//! # Ok::<(), nosgrivel::Error>(())
//! ```
//!
//! The static library is proved, for all inputs: the result encodes the same as the input, every other encoding is
//! longer, and only malformed inputs are refused. This crate isn't proved: it calls the static library.
//!
//! **Normalising moves bytes.** Offsets in custom sections become stale: those of relocatable object files (`linking`,
//! `reloc.*`), of debug information (`.debug_*`, `external_debug_info`, `sourceMappingURL`) and of code metadata
//! (`metadata.code.*`). Normalise linked modules that need none of these.
//!
//! [`explain`] says why and where a module is refused. [`strip`] leaves custom sections out.
//!
//! Nothing is validated: instructions need not nest, and indexes may be out of range. Any number of threads may call at
//! once.
#![warn(missing_docs)]

mod ffi;
mod refusal;

pub use refusal::{explain, Construct, DecodeError, Reason, Refusal, SectionPlace};
use std::fmt;

/// The error of a call.
#[derive(Clone, Copy, Debug, PartialEq, Eq, Hash)]
pub enum Error {
    /// The input is malformed. A check also returns this if the input isn't minimally encoded. [`explain`] says why a
    /// module is refused.
    Refused {
        /// Length in bytes of the longest prefix that decodes. From a check: of the longest prefix that is minimally
        /// encoded.
        at: usize,
    },
    /// Memory ran out.
    NoMemory,
    /// A pattern has a NUL. Only [`strip`] returns this.
    InvalidPattern,
}

impl fmt::Display for Error {
    fn fmt(&self, f: &mut fmt::Formatter<'_>) -> fmt::Result {
        match self {
            Error::Refused { at } => write!(f, "refused at {at}"),
            Error::NoMemory => write!(f, "no memory"),
            Error::InvalidPattern => {
                write!(f, "invalid pattern: expected no NUL")
            }
        }
    }
}

impl std::error::Error for Error {}

/// Returns the minimal encoding of a module. Section sizes, type sections and code sections get their minimal encoding.
/// All other bodies are copied.
///
/// The result is a copy of the module that was normalised in place, so its capacity is the module's length.
///
/// ```
/// let header = *b"\0asm\x01\0\0\0";
/// // An empty function section, its size in two bytes.
/// let module = [&header[..], &[0x03, 0x80, 0x00]].concat();
/// assert_eq!(nosgrivel::normalise_module(&module)?, [&header[..], &[0x03, 0x00]].concat());
/// # Ok::<(), nosgrivel::Error>(())
/// ```
///
/// # Errors
///
/// [`Error::Refused`] with the offset of the first section that is cut or, if it is a type section or a code section,
/// malformed. The offset is 0 if the header is malformed. [`Error::NoMemory`] if memory runs out.
pub fn normalise_module(module: &[u8]) -> Result<Vec<u8>, Error> {
    normalised(ffi::nosgrivel_rewrite_module, module)
}

/// Returns the canonical form of a module: every number, size, type, index and limit has its minimal encoding.
///
/// Two modules have the same canonical form if and only if their decoded sections are equal. Section order is not
/// checked.
///
/// ```
/// let header = *b"\0asm\x01\0\0\0";
/// // A memory section: one memory of at least one page, the number in two bytes.
/// let module = [&header[..], &[0x05, 0x04, 0x01, 0x00, 0x81, 0x00]].concat();
/// let canonical = [&header[..], &[0x05, 0x03, 0x01, 0x00, 0x01]].concat();
/// assert_eq!(nosgrivel::canonicalise(&module)?, canonical);
/// # Ok::<(), nosgrivel::Error>(())
/// ```
///
/// # Errors
///
/// [`Error::Refused`] with the offset of the first malformed section, or 0 if the header is malformed.
/// [`Error::NoMemory`] if memory runs out.
pub fn canonicalise(module: &[u8]) -> Result<Vec<u8>, Error> {
    normalised(ffi::nosgrivel_rewrite_canonical, module)
}

/// Rewrites a module as its canonical form. After an error the module is unchanged.
///
/// # Errors
///
/// As for [`canonicalise`].
pub fn canonicalise_in_place(module: &mut Vec<u8>) -> Result<(), Error> {
    in_place(ffi::nosgrivel_canonicalise_in_place, module)
}

/// Returns the canonical form of a module without the custom sections whose names match a pattern of `dropped` and none
/// of `kept`.
///
/// Each `*` in a pattern stands for any characters, or for none.
///
/// ```
/// let header = *b"\0asm\x01\0\0\0";
/// // Two custom sections: `name` and `producers`.
/// let module = [&header[..], b"\0\x05\x04name", b"\0\x0a\x09producers"].concat();
/// assert_eq!(nosgrivel::strip(&module, &["*"], &[])?, header);
/// assert_eq!(nosgrivel::strip(&module, &["*"], &["na*"])?, [&header[..], b"\0\x05\x04name"].concat());
/// # Ok::<(), nosgrivel::Error>(())
/// ```
///
/// # Errors
///
/// As for [`canonicalise`], and [`Error::InvalidPattern`] if a pattern has a NUL.
pub fn strip(module: &[u8], dropped: &[&str], kept: &[&str]) -> Result<Vec<u8>, Error> {
    let (dropped, kept) = (joined(dropped)?, joined(kept)?);
    // The canonical form is no longer than the module, and leaving sections out makes it shorter.
    let mut output = with_room(module.len())?;
    output.resize(module.len(), 0);
    let mut count = 0;
    // SAFETY: the pointers come from values that are borrowed for the call, and a length follows each but the last.
    let status = unsafe {
        ffi::nosgrivel_strip(
            module.as_ptr(),
            module.len(),
            dropped.as_ptr(),
            dropped.len(),
            kept.as_ptr(),
            kept.len(),
            output.as_mut_ptr(),
            output.len(),
            &mut count,
        )
    };
    if status != ffi::NORMAL {
        return Err(error(status, count));
    }
    output.truncate(count);
    Ok(output)
}

/// Returns the minimal encoding of a list of instructions.
///
/// ```
/// // `i32.const 0`, its number in five bytes, and `end`.
/// let code = [0x41, 0x80, 0x80, 0x80, 0x80, 0x00, 0x0B];
/// assert_eq!(nosgrivel::normalise_instructions(&code)?, [0x41, 0x00, 0x0B]);
/// # Ok::<(), nosgrivel::Error>(())
/// ```
///
/// # Errors
///
/// [`Error::Refused`] with the offset of the first malformed instruction. [`Error::NoMemory`] if memory runs out.
pub fn normalise_instructions(instructions: &[u8]) -> Result<Vec<u8>, Error> {
    normalised(ffi::nosgrivel_rewrite_instructions, instructions)
}

/// Returns the minimal encoding of the body of a type section, without the section's id and size.
///
/// ```
/// // A function type without parameters and results, as a final subtype without supertypes.
/// let body = [0x01, 0x4F, 0x00, 0x60, 0x00, 0x00];
/// assert_eq!(nosgrivel::normalise_type_section(&body)?, [0x01, 0x60, 0x00, 0x00]);
/// # Ok::<(), nosgrivel::Error>(())
/// ```
///
/// # Errors
///
/// [`Error::Refused`] with the offset of the first malformed entry or of the trailing bytes, or 0 if the count is
/// malformed. [`Error::NoMemory`] if memory runs out.
pub fn normalise_type_section(body: &[u8]) -> Result<Vec<u8>, Error> {
    normalised(ffi::nosgrivel_rewrite_type_section, body)
}

/// Returns the minimal encoding of the body of a code section, without the section's id and size.
///
/// ```
/// // A function without locals, its size in two bytes: `end`.
/// let body = [0x01, 0x82, 0x00, 0x00, 0x0B];
/// assert_eq!(nosgrivel::normalise_code_section(&body)?, [0x01, 0x02, 0x00, 0x0B]);
/// # Ok::<(), nosgrivel::Error>(())
/// ```
///
/// # Errors
///
/// [`Error::Refused`] with the offset of the first malformed code body or of the trailing bytes, or 0 if the count is
/// malformed. [`Error::NoMemory`] if memory runs out.
pub fn normalise_code_section(body: &[u8]) -> Result<Vec<u8>, Error> {
    normalised(ffi::nosgrivel_rewrite_code_section, body)
}

/// Rewrites a module as its minimal encoding. After an error the module is unchanged.
///
/// ```
/// let mut module = b"\0asm\x01\0\0\0\x03\x80\0".to_vec();
/// nosgrivel::normalise_module_in_place(&mut module)?;
/// assert_eq!(module, b"\0asm\x01\0\0\0\x03\0");
/// # Ok::<(), nosgrivel::Error>(())
/// ```
///
/// # Errors
///
/// As for [`normalise_module`].
pub fn normalise_module_in_place(module: &mut Vec<u8>) -> Result<(), Error> {
    in_place(ffi::nosgrivel_normalise_module_in_place, module)
}

/// Rewrites a list of instructions as its minimal encoding. After an error the list is unchanged.
///
/// ```
/// let mut code = vec![0x20, 0xC2, 0x80, 0x00];
/// nosgrivel::normalise_instructions_in_place(&mut code)?;
/// assert_eq!(code, [0x20, 0x42]);
/// # Ok::<(), nosgrivel::Error>(())
/// ```
///
/// # Errors
///
/// As for [`normalise_instructions`].
pub fn normalise_instructions_in_place(instructions: &mut Vec<u8>) -> Result<(), Error> {
    in_place(ffi::nosgrivel_normalise_instructions_in_place, instructions)
}

/// Rewrites the body of a type section as its minimal encoding. After an error the body is unchanged.
///
/// ```
/// let mut body = vec![0x01, 0x4F, 0x00, 0x60, 0x00, 0x00];
/// nosgrivel::normalise_type_section_in_place(&mut body)?;
/// assert_eq!(body, [0x01, 0x60, 0x00, 0x00]);
/// # Ok::<(), nosgrivel::Error>(())
/// ```
///
/// # Errors
///
/// As for [`normalise_type_section`].
pub fn normalise_type_section_in_place(body: &mut Vec<u8>) -> Result<(), Error> {
    in_place(ffi::nosgrivel_normalise_type_section_in_place, body)
}

/// Rewrites the body of a code section as its minimal encoding. After an error the body is unchanged.
///
/// ```
/// let mut body = vec![0x01, 0x82, 0x00, 0x00, 0x0B];
/// nosgrivel::normalise_code_section_in_place(&mut body)?;
/// assert_eq!(body, [0x01, 0x02, 0x00, 0x0B]);
/// # Ok::<(), nosgrivel::Error>(())
/// ```
///
/// # Errors
///
/// As for [`normalise_code_section`].
pub fn normalise_code_section_in_place(body: &mut Vec<u8>) -> Result<(), Error> {
    in_place(ffi::nosgrivel_normalise_code_section_in_place, body)
}

/// Checks whether a module is its own minimal encoding, as [`normalise_module`] defines it.
///
/// ```
/// assert!(nosgrivel::is_normal_module(b"\0asm\x01\0\0\0\x03\0")?);
/// assert!(!nosgrivel::is_normal_module(b"\0asm\x01\0\0\0\x03\x80\0")?);
/// # Ok::<(), nosgrivel::Error>(())
/// ```
///
/// # Errors
///
/// As for [`normalise_module`].
pub fn is_normal_module(module: &[u8]) -> Result<bool, Error> {
    is_normal(ffi::nosgrivel_judge_module, module)
}

/// Checks whether a list of instructions is minimally encoded.
///
/// ```
/// assert!(nosgrivel::is_normal_instructions(&[0x20, 0x42])?);
/// assert!(!nosgrivel::is_normal_instructions(&[0x20, 0xC2, 0x80, 0x00])?);
/// # Ok::<(), nosgrivel::Error>(())
/// ```
///
/// # Errors
///
/// As for [`normalise_instructions`].
pub fn is_normal_instructions(instructions: &[u8]) -> Result<bool, Error> {
    is_normal(ffi::nosgrivel_judge_instructions, instructions)
}

/// Checks whether the body of a type section is minimally encoded.
///
/// ```
/// assert!(nosgrivel::is_normal_type_section(&[0x01, 0x60, 0x00, 0x00])?);
/// assert!(!nosgrivel::is_normal_type_section(&[0x01, 0x4F, 0x00, 0x60, 0x00, 0x00])?);
/// # Ok::<(), nosgrivel::Error>(())
/// ```
///
/// # Errors
///
/// As for [`normalise_type_section`].
pub fn is_normal_type_section(body: &[u8]) -> Result<bool, Error> {
    is_normal(ffi::nosgrivel_judge_type_section, body)
}

/// Checks whether the body of a code section is minimally encoded.
///
/// ```
/// assert!(nosgrivel::is_normal_code_section(&[0x01, 0x02, 0x00, 0x0B])?);
/// assert!(!nosgrivel::is_normal_code_section(&[0x01, 0x82, 0x00, 0x00, 0x0B])?);
/// # Ok::<(), nosgrivel::Error>(())
/// ```
///
/// # Errors
///
/// As for [`normalise_code_section`].
pub fn is_normal_code_section(body: &[u8]) -> Result<bool, Error> {
    is_normal(ffi::nosgrivel_judge_code_section, body)
}

/// Checks whether a module is in its canonical form, as [`canonicalise`] defines it.
///
/// ```
/// assert!(nosgrivel::is_canonical(b"\0asm\x01\0\0\0\x08\x01\x03")?);
/// assert!(!nosgrivel::is_canonical(b"\0asm\x01\0\0\0\x08\x02\x83\0")?);
/// # Ok::<(), nosgrivel::Error>(())
/// ```
///
/// # Errors
///
/// As for [`canonicalise`].
pub fn is_canonical(module: &[u8]) -> Result<bool, Error> {
    is_normal(ffi::nosgrivel_judge_canonical, module)
}

/// Checks whether a module is in its canonical form, and locates the first section that isn't.
///
/// ```
/// use nosgrivel::Error;
///
/// assert_eq!(nosgrivel::check_canonical(b"\0asm\x01\0\0\0\x08\x01\x03"), Ok(()));
/// assert_eq!(
///     nosgrivel::check_canonical(b"\0asm\x01\0\0\0\x08\x02\x83\0"),
///     Err(Error::Refused { at: 8 })
/// );
/// ```
///
/// # Errors
///
/// [`Error::Refused`] with the offset of the first section that is malformed or not minimally encoded, or 0 if the
/// header is malformed. [`Error::NoMemory`] if memory runs out.
pub fn check_canonical(module: &[u8]) -> Result<(), Error> {
    check(ffi::nosgrivel_check_canonical, module)
}

/// Checks whether the header and the size of each section of a module are minimally encoded, and locates the first part
/// that isn't.
///
/// The bodies are not decoded; [`is_normal_module`] decodes those of type sections and code sections.
///
/// ```
/// use nosgrivel::Error;
///
/// assert_eq!(nosgrivel::check_module(b"\0asm\x01\0\0\0\x03\0"), Ok(()));
/// assert_eq!(nosgrivel::check_module(b"\0asm\x01\0\0\0\x03\x80\0"), Err(Error::Refused { at: 8 }));
/// ```
///
/// # Errors
///
/// [`Error::Refused`] with the offset of the first section that is cut or whose size isn't minimally encoded, or 0 if
/// the header is malformed. [`Error::NoMemory`] if memory runs out.
pub fn check_module(module: &[u8]) -> Result<(), Error> {
    check(ffi::nosgrivel_check_module, module)
}

/// Checks whether each instruction is minimally encoded, and locates the first one that isn't.
///
/// ```
/// use nosgrivel::Error;
///
/// assert_eq!(nosgrivel::check_instructions(&[0x01, 0x20, 0x42]), Ok(()));
/// // The second instruction has a number in three bytes.
/// let code = [0x01, 0x20, 0xC2, 0x80, 0x00];
/// assert_eq!(nosgrivel::check_instructions(&code), Err(Error::Refused { at: 1 }));
/// ```
///
/// # Errors
///
/// [`Error::Refused`] with the offset of the first instruction that is malformed or not minimally encoded.
/// [`Error::NoMemory`] if memory runs out.
pub fn check_instructions(instructions: &[u8]) -> Result<(), Error> {
    check(ffi::nosgrivel_check_instructions, instructions)
}

/// Checks whether the body of a type section is minimally encoded, and locates the first part that isn't.
///
/// ```
/// use nosgrivel::Error;
///
/// assert_eq!(nosgrivel::check_type_section(&[0x01, 0x60, 0x00, 0x00]), Ok(()));
/// let body = [0x01, 0x4F, 0x00, 0x60, 0x00, 0x00];
/// assert_eq!(nosgrivel::check_type_section(&body), Err(Error::Refused { at: 1 }));
/// ```
///
/// # Errors
///
/// [`Error::Refused`] with the offset of the first entry that is malformed or not minimally encoded, or of the trailing
/// bytes, or 0 for the count. [`Error::NoMemory`] if memory runs out.
pub fn check_type_section(body: &[u8]) -> Result<(), Error> {
    check(ffi::nosgrivel_check_type_section, body)
}

/// Checks whether the body of a code section is minimally encoded, and locates the first part that isn't.
///
/// ```
/// use nosgrivel::Error;
///
/// assert_eq!(nosgrivel::check_code_section(&[0x01, 0x02, 0x00, 0x0B]), Ok(()));
/// let body = [0x01, 0x82, 0x00, 0x00, 0x0B];
/// assert_eq!(nosgrivel::check_code_section(&body), Err(Error::Refused { at: 1 }));
/// ```
///
/// # Errors
///
/// [`Error::Refused`] with the offset of the first code body that is malformed or not minimally encoded, or of the
/// trailing bytes, or 0 for the count. [`Error::NoMemory`] if memory runs out.
pub fn check_code_section(body: &[u8]) -> Result<(), Error> {
    check(ffi::nosgrivel_check_code_section, body)
}

fn normalised(call: ffi::InPlace, input: &[u8]) -> Result<Vec<u8>, Error> {
    let mut bytes = with_room(input.len())?;
    bytes.extend_from_slice(input);
    in_place(call, &mut bytes)?;
    Ok(bytes)
}

/// Returns an empty list with room for so many bytes.
fn with_room(len: usize) -> Result<Vec<u8>, Error> {
    let mut bytes = Vec::new();
    bytes.try_reserve_exact(len).map_err(|_| Error::NoMemory)?;
    Ok(bytes)
}

/// Returns the patterns with a NUL after each.
fn joined(patterns: &[&str]) -> Result<Vec<u8>, Error> {
    let mut text = with_room(patterns.iter().map(|pattern| pattern.len() + 1).sum())?;
    for pattern in patterns {
        if pattern.contains('\0') {
            return Err(Error::InvalidPattern);
        }
        text.extend_from_slice(pattern.as_bytes());
        text.push(0);
    }
    Ok(text)
}

fn in_place(call: ffi::InPlace, bytes: &mut Vec<u8>) -> Result<(), Error> {
    let mut count = 0;
    // SAFETY: both pointers come from values that are borrowed for the call, and the length is that of the first.
    let status = unsafe { call(bytes.as_mut_ptr(), bytes.len(), &mut count) };
    if status != ffi::NORMAL {
        return Err(error(status, count));
    }
    bytes.truncate(count);
    Ok(())
}

fn is_normal(call: ffi::Question, input: &[u8]) -> Result<bool, Error> {
    match asked(call, input) {
        (ffi::NORMAL, _) => Ok(true),
        (ffi::NOT_NORMAL, _) => Ok(false),
        (status, count) => Err(error(status, count)),
    }
}

fn check(call: ffi::Question, input: &[u8]) -> Result<(), Error> {
    match asked(call, input) {
        (ffi::NORMAL, _) => Ok(()),
        (status, count) => Err(error(status, count)),
    }
}

/// Makes the call, and returns its status and its count.
fn asked(call: ffi::Question, input: &[u8]) -> (u32, usize) {
    let mut count = 0;
    // SAFETY: both pointers come from values that are borrowed for the call, and the length is that of the first.
    let status = unsafe { call(input.as_ptr(), input.len(), &mut count) };
    (status, count)
}

fn error(status: u32, count: usize) -> Error {
    match status {
        ffi::REFUSED => Error::Refused { at: count },
        ffi::NO_MEMORY => Error::NoMemory,
        ffi::BAD_PATTERN => Error::InvalidPattern,
        other => unreachable!("the proved library answered status {other}"),
    }
}
