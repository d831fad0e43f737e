//! The instructions of `crates/instruction_mix`, in plain Rust: bytes are pushed one by one, and a number's digits in a
//! loop.

#[derive(Clone, Copy)]
struct MemArg {
    offset: u64,
    align: u32,
    memory_index: u32,
}

fn unsigned(bytes: &mut Vec<u8>, mut value: u64) {
    loop {
        let digit = (value & 0x7f) as u8;
        value >>= 7;
        if value == 0 {
            bytes.push(digit);
            return;
        }
        bytes.push(digit | 0x80);
    }
}

fn signed(bytes: &mut Vec<u8>, mut value: i64) {
    loop {
        let digit = (value & 0x7f) as u8;
        value >>= 7;
        if (value == 0 && digit < 0x40) || (value == -1 && digit >= 0x40) {
            bytes.push(digit);
            return;
        }
        bytes.push(digit | 0x80);
    }
}

/// A sink whose methods all have this attribute, and a body of the mix that it writes.
macro_rules! sink {
    ($module:ident $inline:meta; opcodes $($name:ident $opcode:literal)*; indexes $($indexed:ident $number:literal)*) => {
        mod $module {
            use super::{MemArg, signed, unsigned};

            struct Sink<'a> {
                bytes: &'a mut Vec<u8>,
            }

            impl Sink<'_> {
                $(#[$inline]
                fn $name(&mut self) -> &mut Self {
                    self.bytes.push($opcode);
                    self
                })*

                $(#[$inline]
                fn $indexed(&mut self, index: u32) -> &mut Self {
                    self.bytes.push($number);
                    unsigned(self.bytes, u64::from(index));
                    self
                })*

                #[$inline]
                fn block_with_i32(&mut self) -> &mut Self {
                    self.bytes.push(0x02);
                    self.bytes.push(0x7f);
                    self
                }

                #[$inline]
                fn i32_load(&mut self, memarg: MemArg) -> &mut Self {
                    self.bytes.push(0x28);
                    if memarg.memory_index == 0 {
                        unsigned(self.bytes, u64::from(memarg.align));
                    } else {
                        unsigned(self.bytes, u64::from(memarg.align | 0x40));
                        unsigned(self.bytes, u64::from(memarg.memory_index));
                    }
                    unsigned(self.bytes, memarg.offset);
                    self
                }

                #[$inline]
                fn i32_const(&mut self, value: i32) -> &mut Self {
                    self.bytes.push(0x41);
                    signed(self.bytes, i64::from(value));
                    self
                }

                #[$inline]
                fn i64_const(&mut self, value: i64) -> &mut Self {
                    self.bytes.push(0x42);
                    signed(self.bytes, value);
                    self
                }

                #[$inline]
                fn f64_const(&mut self, bits: u64) -> &mut Self {
                    self.bytes.push(0x44);
                    self.bytes.extend_from_slice(&bits.to_le_bytes());
                    self
                }

                #[$inline]
                fn ref_null_func(&mut self) -> &mut Self {
                    self.bytes.push(0xd0);
                    self.bytes.push(0x70);
                    self
                }

                #[$inline]
                fn struct_get(&mut self, ty: u32, field: u32) -> &mut Self {
                    self.bytes.push(0xfb);
                    unsigned(self.bytes, 0x02);
                    unsigned(self.bytes, u64::from(ty));
                    unsigned(self.bytes, u64::from(field));
                    self
                }

                #[$inline]
                fn i32x4_add(&mut self) -> &mut Self {
                    self.bytes.push(0xfd);
                    unsigned(self.bytes, 0xae);
                    self
                }
            }

            pub fn write(code: &mut Vec<u8>, round: u32) {
                let memarg = MemArg {
                    offset: u64::from(round % 300),
                    align: 2,
                    memory_index: 0,
                };
                Sink { bytes: code }
                    .block_with_i32()
                    .local_get(round % 10)
                    .local_get(round % 200)
                    .i32_add()
                    .i32_load(memarg)
                    .i32_const((round % 1000) as i32 - 500)
                    .i32_mul()
                    .local_tee(round % 10)
                    .i32_eqz()
                    .br_if(round % 5)
                    .call(round)
                    .i64_const(i64::from(round) * 1_000_003)
                    .i64_sub()
                    .f64_const(4607182418800017408)
                    .f64_mul()
                    .ref_null_func()
                    .struct_get(round % 20, round % 7)
                    .i32x4_add()
                    .drop_value()
                    .end();
            }
        }
    };
}

macro_rules! sinks {
    ($($module:ident $inline:meta)*) => {
        $(sink! {
            $module $inline;
            opcodes i32_add 0x6a i32_mul 0x6c i32_eqz 0x45 i64_sub 0x7d f64_mul 0xa2 drop_value 0x1a end 0x0b;
            indexes local_get 0x20 local_tee 0x22 br_if 0x0d call 0x10
        })*
    };
}

sinks! { mix inline apart inline(never) }

/// Instructions with lists.
mod lists {
    use super::unsigned;

    enum Catch {
        One { tag: u32, label: u32 },
        All { label: u32 },
    }

    const LABELS: [u32; 16] = [0, 1, 2, 3, 4, 5, 6, 7, 130, 131, 132, 133, 134, 135, 136, 137];

    fn br_table(bytes: &mut Vec<u8>, labels: impl ExactSizeIterator<Item = u32>, default: u32) {
        bytes.push(0x0e);
        unsigned(bytes, labels.len() as u64);
        for label in labels {
            unsigned(bytes, u64::from(label));
        }
        unsigned(bytes, u64::from(default));
    }

    fn select_i64(bytes: &mut Vec<u8>) {
        bytes.push(0x1c);
        unsigned(bytes, 1);
        bytes.push(0x7e);
    }

    fn try_table(bytes: &mut Vec<u8>, clauses: &[Catch]) {
        bytes.push(0x1f);
        bytes.push(0x40);
        unsigned(bytes, clauses.len() as u64);
        for clause in clauses {
            match *clause {
                Catch::One { tag, label } => {
                    bytes.push(0x00);
                    unsigned(bytes, u64::from(tag));
                    unsigned(bytes, u64::from(label));
                }
                Catch::All { label } => {
                    bytes.push(0x02);
                    unsigned(bytes, u64::from(label));
                }
            }
        }
    }

    pub fn write(code: &mut Vec<u8>, round: u32) {
        br_table(code, LABELS.iter().copied(), round % 3);
        br_table(code, [round % 100, round % 1000].iter().copied(), round);
        select_i64(code);
        try_table(code, &[Catch::One { tag: round % 200, label: round % 5 }, Catch::All { label: 1 }]);
    }
}

fn main() {
    let mut words = std::env::args().skip(1);
    let bodies: u32 = words.next().map_or(1, |word| word.parse().unwrap());
    let made = words.next();
    let write = match made.as_deref() {
        None | Some("mix" | "room") => mix::write,
        Some("apart") => apart::write,
        Some("lists") => lists::write,
        Some(other) => panic!("{} is none of mix, room, apart and lists", other),
    };
    let mut code = Vec::new();
    let mut total: u64 = 0;
    for _ in 0..bodies {
        code.clear();
        for round in 0..1000 {
            write(&mut code, round);
        }
        total += code.len() as u64;
    }
    let sum = code
        .iter()
        .fold(0u32, |sum, byte| sum.wrapping_mul(31).wrapping_add(u32::from(*byte)));
    println!("{total} {sum}");
}
