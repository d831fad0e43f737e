//! The readers of the library in plain Rust. They make values of the same shape, and prove nothing.
//!
//! `plain_reader NUMBER WORD <INPUT` reads the input so many times, and prints the number of values; for 0 it prints
//! the values. WORD is `instructions` for a list of them, `module`, or `types` or `imports` for the body of such a
//! section. `plain_reader 1 size` prints the bytes of a `Call`.
#![allow(dead_code)] // No program looks into the values but to print them.

use std::io::{Read, Write};

/// What is read, or the offset of what is malformed.
type Found<T> = Result<T, usize>;

struct Cursor<'a> {
    bytes: &'a [u8],
    position: usize,
    /// The offset of the first byte in the input.
    start: usize,
}

impl<'a> Cursor<'a> {
    fn new(bytes: &'a [u8]) -> Cursor<'a> {
        Cursor { bytes, position: 0, start: 0 }
    }

    fn is_empty(&self) -> bool {
        self.position == self.bytes.len()
    }

    #[cold]
    fn malformed<T>(&self) -> Found<T> {
        Err(self.start + self.position)
    }

    fn peek(&self) -> Found<u8> {
        match self.bytes.get(self.position) {
            Some(byte) => Ok(*byte),
            None => self.malformed(),
        }
    }

    fn byte(&mut self) -> Found<u8> {
        let byte = self.peek()?;
        self.position += 1;
        Ok(byte)
    }

    fn take(&mut self, len: usize) -> Found<&'a [u8]> {
        match self.bytes[self.position..].get(..len) {
            Some(taken) => {
                self.position += len;
                Ok(taken)
            }
            None => self.malformed(),
        }
    }

    fn array<const N: usize>(&mut self) -> Found<[u8; N]> {
        Ok(self.take(N)?.try_into().unwrap())
    }

    /// The digits of an unsigned number of so many bits.
    #[inline]
    fn unsigned<const BITS: u32>(&mut self) -> Found<u64> {
        let (mut value, mut shift) = (0, 0);
        loop {
            let byte = self.byte()?;
            value |= u64::from(byte & 0x7f) << shift;
            if shift + 7 > BITS && byte >> (BITS - shift) != 0 {
                return self.malformed();
            }
            if byte < 0x80 {
                return Ok(value);
            }
            shift += 7;
        }
    }

    /// The digits of a signed number of so many bits.
    #[inline]
    fn signed<const BITS: u32>(&mut self) -> Found<i64> {
        let (mut value, mut shift) = (0, 0);
        loop {
            let byte = self.byte()?;
            value |= i64::from(byte & 0x7f) << shift;
            shift += 7;
            if shift > BITS {
                let unused = (byte << 1) as i8 >> (BITS + 7 - shift);
                if byte >= 0x80 || (unused != 0 && unused != -1) {
                    return self.malformed();
                }
            }
            if byte < 0x80 {
                let unused = 64u32.saturating_sub(shift);
                return Ok(value << unused >> unused);
            }
        }
    }

    /// A number of one byte, if the next is one.
    #[inline]
    fn one_digit(&mut self) -> Option<u8> {
        let byte = *self.bytes.get(self.position)?;
        if byte >= 0x80 {
            return None;
        }
        self.position += 1;
        Some(byte)
    }

    #[inline]
    fn u32(&mut self) -> Found<u32> {
        match self.one_digit() {
            Some(byte) => Ok(u32::from(byte)),
            None => self.long_u32(),
        }
    }

    fn long_u32(&mut self) -> Found<u32> {
        Ok(self.unsigned::<32>()? as u32)
    }

    #[inline]
    fn u64(&mut self) -> Found<u64> {
        match self.one_digit() {
            Some(byte) => Ok(u64::from(byte)),
            None => self.long_u64(),
        }
    }

    fn long_u64(&mut self) -> Found<u64> {
        self.unsigned::<64>()
    }

    fn index(&mut self) -> Found<u32> {
        let value = self.signed::<33>()?;
        u32::try_from(value).or_else(|_| self.malformed())
    }

    fn sized(&mut self) -> Found<&'a [u8]> {
        let len = self.u32()?;
        self.take(len as usize)
    }

    /// The bytes after their size, to be read by themselves.
    fn body(&mut self) -> Found<Cursor<'a>> {
        let bytes = self.sized()?;
        Ok(Cursor { bytes, position: 0, start: self.start + self.position - bytes.len() })
    }

    fn name(&mut self) -> Found<&'a str> {
        let bytes = self.sized()?;
        std::str::from_utf8(bytes).or_else(|_| self.malformed())
    }

    fn list<T>(&mut self, mut item: impl FnMut(&mut Self) -> Found<T>) -> Found<Vec<T>> {
        let count = self.u32()?;
        let mut items = Vec::new();
        for _ in 0..count {
            items.push(item(self)?);
        }
        Ok(items)
    }

    /// Items up to the end of the bytes.
    fn items<T>(&mut self, mut item: impl FnMut(&mut Self) -> Found<T>) -> Found<Vec<T>> {
        let mut items = Vec::new();
        while !self.is_empty() {
            items.push(item(self)?);
        }
        Ok(items)
    }

    fn end(&self) -> Found<()> {
        if self.is_empty() { Ok(()) } else { self.malformed() }
    }
}

#[derive(Clone, Copy, Debug)]
enum AbstractHeapType {
    Func,
    Extern,
    Any,
    None,
    NoExtern,
    NoFunc,
    Eq,
    Struct,
    Array,
    I31,
    Exn,
    NoExn,
    Cont,
    NoCont,
}

#[derive(Clone, Copy, Debug)]
enum HeapType {
    Abstract { shared: bool, ty: AbstractHeapType },
    Concrete(u32),
    Exact(u32),
}

#[derive(Clone, Copy, Debug)]
struct RefType {
    nullable: bool,
    heap_type: HeapType,
}

#[derive(Clone, Copy, Debug)]
enum ValType {
    I32,
    I64,
    F32,
    F64,
    V128,
    Ref(RefType),
}

#[derive(Clone, Copy, Debug)]
enum StorageType {
    I8,
    I16,
    Val(ValType),
}

#[derive(Clone, Copy, Debug)]
struct FieldType {
    element_type: StorageType,
    mutable: bool,
}

#[derive(Debug)]
struct ArrayType(FieldType);

#[derive(Debug)]
struct ContType(u32);

#[derive(Debug)]
struct StructType {
    fields: Vec<FieldType>,
}

#[derive(Debug)]
struct FuncType {
    params: Vec<ValType>,
    results: Vec<ValType>,
}

#[derive(Debug)]
enum CompositeInnerType {
    Func(FuncType),
    Array(ArrayType),
    Struct(StructType),
    Cont(ContType),
}

#[derive(Debug)]
struct CompositeType {
    inner: CompositeInnerType,
    shared: bool,
    descriptor: Option<u32>,
    describes: Option<u32>,
}

#[derive(Debug)]
struct SubType {
    is_final: bool,
    supertype_idxs: Vec<u32>,
    composite_type: CompositeType,
}

#[derive(Debug)]
enum TypeEntry {
    Sub(SubType),
    Rec(Vec<SubType>),
}

impl AbstractHeapType {
    fn read(cursor: &mut Cursor) -> Found<AbstractHeapType> {
        Ok(match cursor.byte()? {
            0x75 => AbstractHeapType::NoCont,
            0x74 => AbstractHeapType::NoExn,
            0x73 => AbstractHeapType::NoFunc,
            0x72 => AbstractHeapType::NoExtern,
            0x71 => AbstractHeapType::None,
            0x70 => AbstractHeapType::Func,
            0x6f => AbstractHeapType::Extern,
            0x6e => AbstractHeapType::Any,
            0x6d => AbstractHeapType::Eq,
            0x6c => AbstractHeapType::I31,
            0x6b => AbstractHeapType::Struct,
            0x6a => AbstractHeapType::Array,
            0x69 => AbstractHeapType::Exn,
            0x68 => AbstractHeapType::Cont,
            _ => return cursor.malformed(),
        })
    }
}

impl HeapType {
    /// An abstract heap type, which may be shared.
    fn abstract_type(cursor: &mut Cursor) -> Found<HeapType> {
        let shared = cursor.peek()? == 0x65;
        if shared {
            cursor.byte()?;
        }
        Ok(HeapType::Abstract { shared, ty: AbstractHeapType::read(cursor)? })
    }

    fn read(cursor: &mut Cursor) -> Found<HeapType> {
        match cursor.peek()? {
            0x62 => {
                cursor.byte()?;
                Ok(HeapType::Exact(cursor.u32()?))
            }
            0x40..=0x7f => HeapType::abstract_type(cursor),
            _ => Ok(HeapType::Concrete(cursor.index()?)),
        }
    }
}

impl RefType {
    fn read(cursor: &mut Cursor) -> Found<RefType> {
        match cursor.peek()? {
            first @ (0x63 | 0x64) => {
                cursor.byte()?;
                Ok(RefType { nullable: first == 0x63, heap_type: HeapType::read(cursor)? })
            }
            _ => Ok(RefType { nullable: true, heap_type: HeapType::abstract_type(cursor)? }),
        }
    }
}

impl ValType {
    fn read(cursor: &mut Cursor) -> Found<ValType> {
        let ty = match cursor.peek()? {
            0x7f => ValType::I32,
            0x7e => ValType::I64,
            0x7d => ValType::F32,
            0x7c => ValType::F64,
            0x7b => ValType::V128,
            _ => return Ok(ValType::Ref(RefType::read(cursor)?)),
        };
        cursor.byte()?;
        Ok(ty)
    }
}

impl FieldType {
    fn read(cursor: &mut Cursor) -> Found<FieldType> {
        let element_type = match cursor.peek()? {
            0x78 => StorageType::I8,
            0x77 => StorageType::I16,
            _ => StorageType::Val(ValType::read(cursor)?),
        };
        if let StorageType::I8 | StorageType::I16 = element_type {
            cursor.byte()?;
        }
        match cursor.byte()? {
            byte @ (0 | 1) => Ok(FieldType { element_type, mutable: byte == 1 }),
            _ => cursor.malformed(),
        }
    }
}

impl CompositeType {
    fn inner(cursor: &mut Cursor) -> Found<CompositeInnerType> {
        Ok(match cursor.byte()? {
            0x60 => CompositeInnerType::Func(FuncType {
                params: cursor.list(ValType::read)?,
                results: cursor.list(ValType::read)?,
            }),
            0x5f => CompositeInnerType::Struct(StructType { fields: cursor.list(FieldType::read)? }),
            0x5e => CompositeInnerType::Array(ArrayType(FieldType::read(cursor)?)),
            0x5d => CompositeInnerType::Cont(ContType(cursor.index()?)),
            _ => return cursor.malformed(),
        })
    }

    /// An index after this byte, if the byte is there.
    fn index_after(cursor: &mut Cursor, byte: u8) -> Found<Option<u32>> {
        if cursor.peek()? != byte {
            return Ok(None);
        }
        cursor.byte()?;
        Ok(Some(cursor.u32()?))
    }

    fn read(cursor: &mut Cursor) -> Found<CompositeType> {
        let shared = cursor.peek()? == 0x65;
        if shared {
            cursor.byte()?;
        }
        let describes = CompositeType::index_after(cursor, 0x4c)?;
        let descriptor = CompositeType::index_after(cursor, 0x4d)?;
        let inner = CompositeType::inner(cursor)?;
        Ok(CompositeType { inner, shared, descriptor, describes })
    }
}

impl SubType {
    fn read(cursor: &mut Cursor) -> Found<SubType> {
        let first = cursor.peek()?;
        let supertype_idxs = if let 0x4f | 0x50 = first {
            cursor.byte()?;
            cursor.list(Cursor::u32)?
        } else {
            Vec::new()
        };
        Ok(SubType { is_final: first != 0x50, supertype_idxs, composite_type: CompositeType::read(cursor)? })
    }
}

impl TypeEntry {
    fn read(cursor: &mut Cursor) -> Found<TypeEntry> {
        if cursor.peek()? == 0x4e {
            cursor.byte()?;
            return Ok(TypeEntry::Rec(cursor.list(SubType::read)?));
        }
        Ok(TypeEntry::Sub(SubType::read(cursor)?))
    }
}

#[derive(Debug)]
struct Ieee32 {
    bits: u32,
}

#[derive(Debug)]
struct Ieee64 {
    bits: u64,
}

#[derive(Debug)]
struct V128 {
    low: u64,
    high: u64,
}

#[derive(Debug)]
enum BlockType {
    Empty,
    Result(ValType),
    FunctionType(u32),
}

#[derive(Debug)]
enum Catch {
    One { tag: u32, label: u32 },
    OneRef { tag: u32, label: u32 },
    All { label: u32 },
    AllRef { label: u32 },
}

#[derive(Debug)]
enum Handle {
    OnLabel { tag: u32, label: u32 },
    OnSwitch { tag: u32 },
}

#[derive(Debug)]
struct MemArg {
    offset: u64,
    align: u32,
    memory_index: u32,
}

#[derive(Debug)]
enum Ordering {
    SeqCst,
    AcqRel,
}

#[derive(Clone, Copy)]
enum Kind {
    None,
    Block,
    Index,
    TwoIndexes,
    BrTable,
    Types,
    TryTable,
    Mem,
    I32,
    I64,
    F32,
    F64,
    Heap,
    Resume,
    ResumeThrow,
    Cast,
    V128,
    Shuffle,
    Lane,
    MemLane,
    Order,
    OrderIndex,
    OrderTwoIndexes,
}

#[derive(Debug)]
enum Operands {
    None,
    Block(BlockType),
    Index(u32),
    TwoIndexes(u32, u32),
    BrTable(Vec<u32>, u32),
    Types(Vec<ValType>),
    TryTable(BlockType, Vec<Catch>),
    Mem(MemArg),
    I32(i32),
    I64(i64),
    F32(Ieee32),
    F64(Ieee64),
    Heap(HeapType),
    Resume(u32, Vec<Handle>),
    ResumeThrow(u32, u32, Vec<Handle>),
    Cast(u32, RefType, RefType),
    V128(V128),
    Shuffle([u8; 16]),
    Lane(u8),
    MemLane(MemArg, u8),
    Order(Ordering),
    OrderIndex(Ordering, u32),
    OrderTwoIndexes(Ordering, u32, u32),
}

#[derive(Clone, Copy, Debug)]
enum Prefix {
    None,
    Fb,
    Fc,
    Fd,
    Fe,
}

#[derive(Clone, Copy, Debug)]
struct Opcode {
    prefix: Prefix,
    number: u32,
}

#[derive(Debug)]
struct Call {
    op: Opcode,
    operands: Operands,
}

impl BlockType {
    fn read(cursor: &mut Cursor) -> Found<BlockType> {
        match cursor.peek()? {
            0x40 => {
                cursor.byte()?;
                Ok(BlockType::Empty)
            }
            0x41..=0x7f => Ok(BlockType::Result(ValType::read(cursor)?)),
            _ => Ok(BlockType::FunctionType(cursor.index()?)),
        }
    }
}

impl Catch {
    fn read(cursor: &mut Cursor) -> Found<Catch> {
        Ok(match cursor.byte()? {
            0 => Catch::One { tag: cursor.u32()?, label: cursor.u32()? },
            1 => Catch::OneRef { tag: cursor.u32()?, label: cursor.u32()? },
            2 => Catch::All { label: cursor.u32()? },
            3 => Catch::AllRef { label: cursor.u32()? },
            _ => return cursor.malformed(),
        })
    }
}

impl Handle {
    fn read(cursor: &mut Cursor) -> Found<Handle> {
        Ok(match cursor.byte()? {
            0 => Handle::OnLabel { tag: cursor.u32()?, label: cursor.u32()? },
            1 => Handle::OnSwitch { tag: cursor.u32()? },
            _ => return cursor.malformed(),
        })
    }
}

impl MemArg {
    #[inline]
    fn read(cursor: &mut Cursor) -> Found<MemArg> {
        let first = cursor.u32()?;
        if first < 64 {
            return Ok(MemArg { offset: cursor.u64()?, align: first, memory_index: 0 });
        }
        if first >= 128 {
            return cursor.malformed();
        }
        let memory_index = cursor.u32()?;
        Ok(MemArg { offset: cursor.u64()?, align: first - 64, memory_index })
    }
}

impl Ordering {
    fn read(cursor: &mut Cursor) -> Found<Ordering> {
        match cursor.byte()? {
            0 => Ok(Ordering::SeqCst),
            1 => Ok(Ordering::AcqRel),
            _ => cursor.malformed(),
        }
    }
}

impl Opcode {
    #[inline]
    fn read(cursor: &mut Cursor) -> Found<Opcode> {
        let prefix = match cursor.byte()? {
            0xfb => Prefix::Fb,
            0xfc => Prefix::Fc,
            0xfd => Prefix::Fd,
            0xfe => Prefix::Fe,
            byte => return Ok(Opcode { prefix: Prefix::None, number: u32::from(byte) }),
        };
        Ok(Opcode { prefix, number: cursor.u32()? })
    }

    /// The kind of the operands, if the opcode is one.
    #[inline(always)]
    fn kind(self) -> Option<Kind> {
        match self.prefix {
            Prefix::None => KINDS[self.number as usize & 0xff],
            Prefix::Fb => Opcode::kind_after_fb(self.number),
            Prefix::Fc => Opcode::kind_after_fc(self.number),
            Prefix::Fd => Opcode::kind_after_fd(self.number),
            Prefix::Fe => Opcode::kind_after_fe(self.number),
        }
    }

    const fn kind_without_prefix(number: u32) -> Option<Kind> {
        Some(match number {
            0x02..=0x04 | 0x06 => Kind::Block,
            0x00 | 0x01 | 0x05 | 0x0a | 0x0b | 0x0f | 0x19..=0x1b | 0x45..=0xc4 | 0xd1 | 0xd3 | 0xd4 => Kind::None,
            0x11 | 0x13 | 0xe1 | 0xe6 => Kind::TwoIndexes,
            0x07..=0x09 | 0x0c | 0x0d | 0x10 | 0x12 | 0x14 | 0x15 | 0x18 | 0x20..=0x26 | 0x3f | 0x40 => Kind::Index,
            0xd2 | 0xd5 | 0xd6 | 0xe0 | 0xe2 => Kind::Index,
            0x0e => Kind::BrTable,
            0x1c => Kind::Types,
            0x1f => Kind::TryTable,
            0x28..=0x3e => Kind::Mem,
            0x41 => Kind::I32,
            0x42 => Kind::I64,
            0x43 => Kind::F32,
            0x44 => Kind::F64,
            0xd0 => Kind::Heap,
            0xe3 | 0xe5 => Kind::Resume,
            0xe4 => Kind::ResumeThrow,
            _ => return None,
        })
    }

    fn kind_after_fb(number: u32) -> Option<Kind> {
        Some(match number {
            0x0f | 0x1a..=0x1e => Kind::None,
            0x00 | 0x01 | 0x06 | 0x07 | 0x0b..=0x0e | 0x10 | 0x20..=0x22 => Kind::Index,
            0x02..=0x05 | 0x08..=0x0a | 0x11..=0x13 => Kind::TwoIndexes,
            0x14..=0x17 | 0x23 | 0x24 => Kind::Heap,
            0x18 | 0x19 | 0x25 | 0x26 => Kind::Cast,
            _ => return None,
        })
    }

    fn kind_after_fc(number: u32) -> Option<Kind> {
        Some(match number {
            0x00..=0x07 | 0x13..=0x16 => Kind::None,
            0x08 | 0x0a | 0x0c | 0x0e => Kind::TwoIndexes,
            0x09 | 0x0b | 0x0d | 0x0f..=0x12 => Kind::Index,
            _ => return None,
        })
    }

    fn kind_after_fd(number: u32) -> Option<Kind> {
        Some(match number {
            0x00..=0x0b | 0x5c | 0x5d => Kind::Mem,
            0x0c => Kind::V128,
            0x0d => Kind::Shuffle,
            0x15..=0x22 => Kind::Lane,
            0x54..=0x5b => Kind::MemLane,
            0x9a | 0xa2 | 0xa5 | 0xa6 | 0xaf | 0xb0 | 0xb2..=0xb4 | 0xbb | 0xc2 | 0xc5 | 0xc6 => return None,
            0xcf | 0xd0 | 0xd2..=0xd4 | 0xe2 | 0xee => return None,
            0x0e..=0x113 => Kind::None,
            _ => return None,
        })
    }

    fn kind_after_fe(number: u32) -> Option<Kind> {
        Some(match number {
            0x00..=0x02 | 0x10..=0x4e => Kind::Mem,
            0x03 => Kind::Order,
            0x04 | 0x72 => Kind::None,
            0x4f..=0x5b | 0x67..=0x71 => Kind::OrderIndex,
            0x5c..=0x66 => Kind::OrderTwoIndexes,
            _ => return None,
        })
    }
}

/// The kinds of the opcodes without a prefix.
static KINDS: [Option<Kind>; 256] = {
    let mut kinds = [None; 256];
    let mut number = 0;
    while number < 256 {
        kinds[number] = Opcode::kind_without_prefix(number as u32);
        number += 1;
    }
    kinds
};

impl Operands {
    fn cast(cursor: &mut Cursor) -> Found<Operands> {
        let flags = cursor.byte()?;
        if flags > 3 {
            return cursor.malformed();
        }
        let label = cursor.u32()?;
        let before = RefType { nullable: flags & 1 != 0, heap_type: HeapType::read(cursor)? };
        let after = RefType { nullable: flags & 2 != 0, heap_type: HeapType::read(cursor)? };
        Ok(Operands::Cast(label, before, after))
    }

    #[inline(always)]
    fn read(cursor: &mut Cursor, kind: Kind) -> Found<Operands> {
        Ok(match kind {
            Kind::None => Operands::None,
            Kind::Block => Operands::Block(BlockType::read(cursor)?),
            Kind::Index => Operands::Index(cursor.u32()?),
            Kind::TwoIndexes => Operands::TwoIndexes(cursor.u32()?, cursor.u32()?),
            Kind::BrTable => Operands::BrTable(cursor.list(Cursor::u32)?, cursor.u32()?),
            Kind::Types => Operands::Types(cursor.list(ValType::read)?),
            Kind::TryTable => Operands::TryTable(BlockType::read(cursor)?, cursor.list(Catch::read)?),
            Kind::Mem => Operands::Mem(MemArg::read(cursor)?),
            Kind::I32 => Operands::I32(cursor.signed::<32>()? as i32),
            Kind::I64 => Operands::I64(cursor.signed::<64>()?),
            Kind::F32 => Operands::F32(Ieee32 { bits: u32::from_le_bytes(cursor.array()?) }),
            Kind::F64 => Operands::F64(Ieee64 { bits: u64::from_le_bytes(cursor.array()?) }),
            Kind::Heap => Operands::Heap(HeapType::read(cursor)?),
            Kind::Resume => Operands::Resume(cursor.u32()?, cursor.list(Handle::read)?),
            Kind::ResumeThrow => Operands::ResumeThrow(cursor.u32()?, cursor.u32()?, cursor.list(Handle::read)?),
            Kind::Cast => Operands::cast(cursor)?,
            Kind::V128 => Operands::V128(V128 {
                low: u64::from_le_bytes(cursor.array()?),
                high: u64::from_le_bytes(cursor.array()?),
            }),
            Kind::Shuffle => Operands::Shuffle(cursor.array()?),
            Kind::Lane => Operands::Lane(cursor.byte()?),
            Kind::MemLane => Operands::MemLane(MemArg::read(cursor)?, cursor.byte()?),
            Kind::Order => Operands::Order(Ordering::read(cursor)?),
            Kind::OrderIndex => Operands::OrderIndex(Ordering::read(cursor)?, cursor.u32()?),
            Kind::OrderTwoIndexes => {
                Operands::OrderTwoIndexes(Ordering::read(cursor)?, cursor.u32()?, cursor.u32()?)
            }
        })
    }
}

impl Call {
    #[inline(always)]
    fn read(cursor: &mut Cursor) -> Found<Call> {
        let op = Opcode::read(cursor)?;
        let Some(kind) = op.kind() else {
            return cursor.malformed();
        };
        Ok(Call { op, operands: Operands::read(cursor, kind)? })
    }

    /// The instructions of an expression, without the `end` that closes it.
    fn expression(cursor: &mut Cursor) -> Found<Vec<Call>> {
        let mut calls = Vec::new();
        let mut depth = 0;
        loop {
            let call = Call::read(cursor)?;
            if let Prefix::None = call.op.prefix {
                match call.op.number {
                    0x02..=0x04 | 0x06 | 0x1f => depth += 1,
                    0x0b if depth == 0 => return Ok(calls),
                    0x18 if depth == 0 => return cursor.malformed(),
                    0x0b | 0x18 => depth -= 1,
                    _ => {}
                }
            }
            calls.push(call);
        }
    }
}

#[derive(Debug)]
struct MemoryType {
    minimum: u64,
    maximum: Option<u64>,
    memory64: bool,
    shared: bool,
    page_size_log2: Option<u32>,
}

#[derive(Debug)]
struct TableType {
    element_type: RefType,
    table64: bool,
    minimum: u64,
    maximum: Option<u64>,
    shared: bool,
}

#[derive(Debug)]
struct GlobalType {
    val_type: ValType,
    mutable: bool,
    shared: bool,
}

#[derive(Debug)]
enum TagKind {
    Exception,
}

#[derive(Debug)]
struct TagType {
    kind: TagKind,
    func_type_idx: u32,
}

#[derive(Debug)]
enum EntityType {
    Function(u32),
    Table(TableType),
    Memory(MemoryType),
    Global(GlobalType),
    Tag(TagType),
    FunctionExact(u32),
}

impl MemoryType {
    fn read(cursor: &mut Cursor) -> Found<MemoryType> {
        let flags = cursor.byte()?;
        if flags > 0x0f {
            return cursor.malformed();
        }
        Ok(MemoryType {
            minimum: cursor.u64()?,
            maximum: if flags & 1 != 0 { Some(cursor.u64()?) } else { None },
            memory64: flags & 4 != 0,
            shared: flags & 2 != 0,
            page_size_log2: if flags & 8 != 0 { Some(cursor.u32()?) } else { None },
        })
    }
}

impl TableType {
    fn read(cursor: &mut Cursor) -> Found<TableType> {
        let element_type = RefType::read(cursor)?;
        let flags = cursor.byte()?;
        if flags > 7 {
            return cursor.malformed();
        }
        Ok(TableType {
            element_type,
            table64: flags & 4 != 0,
            minimum: cursor.u64()?,
            maximum: if flags & 1 != 0 { Some(cursor.u64()?) } else { None },
            shared: flags & 2 != 0,
        })
    }
}

impl GlobalType {
    fn read(cursor: &mut Cursor) -> Found<GlobalType> {
        let val_type = ValType::read(cursor)?;
        let flags = cursor.byte()?;
        if flags > 3 {
            return cursor.malformed();
        }
        Ok(GlobalType { val_type, mutable: flags & 1 != 0, shared: flags & 2 != 0 })
    }
}

impl TagType {
    fn read(cursor: &mut Cursor) -> Found<TagType> {
        if cursor.byte()? != 0 {
            return cursor.malformed();
        }
        Ok(TagType { kind: TagKind::Exception, func_type_idx: cursor.u32()? })
    }
}

impl EntityType {
    fn read(cursor: &mut Cursor) -> Found<EntityType> {
        Ok(match cursor.byte()? {
            0x00 => EntityType::Function(cursor.u32()?),
            0x01 => EntityType::Table(TableType::read(cursor)?),
            0x02 => EntityType::Memory(MemoryType::read(cursor)?),
            0x03 => EntityType::Global(GlobalType::read(cursor)?),
            0x04 => EntityType::Tag(TagType::read(cursor)?),
            0x20 => EntityType::FunctionExact(cursor.u32()?),
            _ => return cursor.malformed(),
        })
    }
}

#[derive(Debug)]
enum ExportKind {
    Func,
    Table,
    Memory,
    Global,
    Tag,
}

#[derive(Debug)]
struct CustomSection<'a> {
    name: &'a str,
    bytes: &'a [u8],
}

#[derive(Debug)]
struct Import<'a> {
    module: &'a str,
    field: &'a str,
    ty: EntityType,
}

#[derive(Debug)]
struct Table {
    ty: TableType,
    init: Option<Vec<Call>>,
}

#[derive(Debug)]
struct Global {
    ty: GlobalType,
    init: Vec<Call>,
}

#[derive(Debug)]
struct Export<'a> {
    name: &'a str,
    kind: ExportKind,
    index: u32,
}

#[derive(Debug)]
enum ElementMode {
    Passive,
    Active { table_index: u32, offset: Vec<Call> },
    Declared,
}

#[derive(Debug)]
enum Elements {
    Functions(Vec<u32>),
    Expressions(RefType, Vec<Vec<Call>>),
}

#[derive(Debug)]
struct Element {
    mode: ElementMode,
    elements: Elements,
}

#[derive(Debug)]
struct CodeBody {
    locals: Vec<(u32, ValType)>,
    calls: Vec<Call>,
}

#[derive(Debug)]
enum DataSegmentMode {
    Active { memory_index: u32, offset: Vec<Call> },
    Passive,
}

#[derive(Debug)]
struct DataSegment<'a> {
    mode: DataSegmentMode,
    bytes: &'a [u8],
}

#[derive(Debug)]
enum ModuleSection<'a> {
    Custom(CustomSection<'a>),
    Types(Vec<TypeEntry>),
    Imports(Vec<Import<'a>>),
    Functions(Vec<u32>),
    Tables(Vec<Table>),
    Memories(Vec<MemoryType>),
    Globals(Vec<Global>),
    Exports(Vec<Export<'a>>),
    Start(u32),
    Elements(Vec<Element>),
    Code(Vec<CodeBody>),
    Data(Vec<DataSegment<'a>>),
    DataCount(u32),
    Tags(Vec<TagType>),
}

impl<'a> Import<'a> {
    fn read(cursor: &mut Cursor<'a>) -> Found<Import<'a>> {
        Ok(Import { module: cursor.name()?, field: cursor.name()?, ty: EntityType::read(cursor)? })
    }
}

impl Table {
    fn read(cursor: &mut Cursor) -> Found<Table> {
        if cursor.peek()? != 0x40 {
            return Ok(Table { ty: TableType::read(cursor)?, init: None });
        }
        cursor.byte()?;
        if cursor.byte()? != 0 {
            return cursor.malformed();
        }
        Ok(Table { ty: TableType::read(cursor)?, init: Some(Call::expression(cursor)?) })
    }
}

impl Global {
    fn read(cursor: &mut Cursor) -> Found<Global> {
        Ok(Global { ty: GlobalType::read(cursor)?, init: Call::expression(cursor)? })
    }
}

impl<'a> Export<'a> {
    fn read(cursor: &mut Cursor<'a>) -> Found<Export<'a>> {
        let name = cursor.name()?;
        let kind = match cursor.byte()? {
            0 => ExportKind::Func,
            1 => ExportKind::Table,
            2 => ExportKind::Memory,
            3 => ExportKind::Global,
            4 => ExportKind::Tag,
            _ => return cursor.malformed(),
        };
        Ok(Export { name, kind, index: cursor.u32()? })
    }
}

impl Element {
    fn mode(cursor: &mut Cursor, form: u32) -> Found<ElementMode> {
        let table_index = match form {
            0 | 4 => 0,
            1 | 5 => return Ok(ElementMode::Passive),
            2 | 6 => cursor.u32()?,
            3 | 7 => return Ok(ElementMode::Declared),
            _ => return cursor.malformed(),
        };
        Ok(ElementMode::Active { table_index, offset: Call::expression(cursor)? })
    }

    fn read(cursor: &mut Cursor) -> Found<Element> {
        const FUNCREF: RefType = RefType {
            nullable: true,
            heap_type: HeapType::Abstract { shared: false, ty: AbstractHeapType::Func },
        };
        let form = cursor.u32()?;
        let mode = Element::mode(cursor, form)?;
        let elements = match form {
            0..=3 => {
                if form != 0 && cursor.byte()? != 0 {
                    return cursor.malformed();
                }
                Elements::Functions(cursor.list(Cursor::u32)?)
            }
            4 => Elements::Expressions(FUNCREF, cursor.list(Call::expression)?),
            _ => Elements::Expressions(RefType::read(cursor)?, cursor.list(Call::expression)?),
        };
        Ok(Element { mode, elements })
    }
}

impl CodeBody {
    fn read(cursor: &mut Cursor) -> Found<CodeBody> {
        let mut body = cursor.body()?;
        let locals = body.list(|body| Ok((body.u32()?, ValType::read(body)?)))?;
        Ok(CodeBody { locals, calls: body.items(Call::read)? })
    }
}

impl<'a> DataSegment<'a> {
    fn read(cursor: &mut Cursor<'a>) -> Found<DataSegment<'a>> {
        let mode = match cursor.u32()? {
            0 => DataSegmentMode::Active { memory_index: 0, offset: Call::expression(cursor)? },
            1 => DataSegmentMode::Passive,
            2 => DataSegmentMode::Active { memory_index: cursor.u32()?, offset: Call::expression(cursor)? },
            _ => return cursor.malformed(),
        };
        Ok(DataSegment { mode, bytes: cursor.sized()? })
    }
}

impl<'a> ModuleSection<'a> {
    fn read(cursor: &mut Cursor<'a>) -> Found<ModuleSection<'a>> {
        let id = cursor.byte()?;
        let mut body = cursor.body()?;
        let section = match id {
            0 => {
                let name = body.name()?;
                let rest = body.bytes.len() - body.position;
                ModuleSection::Custom(CustomSection { name, bytes: body.take(rest)? })
            }
            1 => ModuleSection::Types(body.list(TypeEntry::read)?),
            2 => ModuleSection::Imports(body.list(Import::read)?),
            3 => ModuleSection::Functions(body.list(Cursor::u32)?),
            4 => ModuleSection::Tables(body.list(Table::read)?),
            5 => ModuleSection::Memories(body.list(MemoryType::read)?),
            6 => ModuleSection::Globals(body.list(Global::read)?),
            7 => ModuleSection::Exports(body.list(Export::read)?),
            8 => ModuleSection::Start(body.u32()?),
            9 => ModuleSection::Elements(body.list(Element::read)?),
            10 => ModuleSection::Code(body.list(CodeBody::read)?),
            11 => ModuleSection::Data(body.list(DataSegment::read)?),
            12 => ModuleSection::DataCount(body.u32()?),
            13 => ModuleSection::Tags(body.list(TagType::read)?),
            _ => return cursor.malformed(),
        };
        body.end()?;
        Ok(section)
    }
}

fn read_instructions(bytes: &[u8]) -> Found<Vec<Call>> {
    Cursor::new(bytes).items(Call::read)
}

fn read_module(bytes: &[u8]) -> Found<Vec<ModuleSection<'_>>> {
    let mut cursor = Cursor::new(bytes);
    if cursor.take(8)? != b"\0asm\x01\0\0\0" {
        return Err(0);
    }
    cursor.items(ModuleSection::read)
}

/// The list that is a whole section body.
fn read_list<'a, T>(bytes: &'a [u8], item: impl FnMut(&mut Cursor<'a>) -> Found<T>) -> Found<Vec<T>> {
    let mut cursor = Cursor::new(bytes);
    let items = cursor.list(item)?;
    cursor.end()?;
    Ok(items)
}

/// Reads the bytes so many times, and prints how many values that are; for 0 it prints the values.
fn run<'a, T: std::fmt::Debug>(number: u32, bytes: &'a [u8], read: impl Fn(&'a [u8]) -> Found<Vec<T>>) {
    let mut out = std::io::BufWriter::new(std::io::stdout().lock());
    if number == 0 {
        for value in read(bytes).unwrap() {
            writeln!(out, "{value:?}").unwrap();
        }
        return;
    }
    let mut total = 0;
    for _ in 0..number {
        total += std::hint::black_box(read(bytes).unwrap()).len();
    }
    writeln!(out, "{total}").unwrap();
}

fn main() {
    let words: Vec<String> = std::env::args().skip(1).collect();
    let number = words[0].parse().unwrap();
    let mut bytes = Vec::new();
    std::io::stdin().read_to_end(&mut bytes).unwrap();
    match words[1].as_str() {
        "instructions" => run(number, &bytes, read_instructions),
        "module" => run(number, &bytes, read_module),
        "types" => run(number, &bytes, |body| read_list(body, TypeEntry::read)),
        "imports" => run(number, &bytes, |body| read_list(body, Import::read)),
        "size" => println!("{}", std::mem::size_of::<Call>()),
        other => panic!("{other} is none of instructions, module, types, imports and size"),
    }
}
