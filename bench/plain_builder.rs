//! The modules that `crates/benchmark` builds, in plain Rust.
//!
//! `plain_builder NUMBER WORD` writes a module of so many items. Each byte is written at its place in the module, so it
//! is copied once. `copied_functions` and `copied_raw_functions` copy as the crate `wasm-encoder` does: instructions go
//! into a list for their function, functions into a list for their section, and the section into the module.
//! `written_functions` leaves out the last of these copies: it writes the section from its list.
use std::io::Write;

const ROUNDS: u32 = 20;
const NAME: &[u8] = b"a_function";
const INDEXES: [u32; 16] = [0, 1, 2, 3, 4, 5, 6, 7, 130, 131, 132, 133, 134, 135, 136, 137];
const BYTES: &[u8] = b"sixteen bytes...";

fn unsigned(bytes: &mut Vec<u8>, mut value: u64) {
    while value >= 0x80 {
        bytes.push(value as u8 | 0x80);
        value >>= 7;
    }
    bytes.push(value as u8);
}

fn signed(bytes: &mut Vec<u8>, mut value: i64) {
    loop {
        let digit = (value & 0x7f) as u8;
        value >>= 7;
        if (value == 0 && digit < 0x40) || (value == -1 && digit >= 0x40) {
            bytes.push(digit);
            return;
        }
        bytes.push(digit | 0x80);
    }
}

fn byte_list(bytes: &mut Vec<u8>, list: &[u8]) {
    unsigned(bytes, list.len() as u64);
    bytes.extend_from_slice(list);
}

fn digits_of(value: usize) -> usize {
    1 + [7, 14, 21, 28].iter().filter(|bits| value >> **bits > 0).count()
}

/// Writes something after its size in bytes. It is moved only if the size doesn't have so many digits.
fn sized(bytes: &mut Vec<u8>, digits: usize, write: impl FnOnce(&mut Vec<u8>)) {
    let start = bytes.len();
    bytes.resize(start + digits, 0);
    write(bytes);
    let size = bytes.len() - start - digits;
    let needed = digits_of(size);
    if needed != digits {
        let gap = vec![0; needed];
        bytes.splice(start..start + digits, gap);
    }
    for (place, byte) in bytes[start..start + needed].iter_mut().enumerate() {
        *byte = (size >> (7 * place)) as u8 & 0x7f | if place + 1 < needed { 0x80 } else { 0 };
    }
}

/// A section that is a list, of so many items that take about so many bytes each.
fn section(module: &mut Vec<u8>, id: u8, number: u32, room: usize, mut item: impl FnMut(&mut Vec<u8>, u32)) {
    module.push(id);
    sized(module, digits_of(number as usize * room), |bytes| {
        unsigned(bytes, u64::from(number));
        for index in 0..number {
            item(bytes, index);
        }
    });
}

/// The instructions of the mix.
fn mix(bytes: &mut Vec<u8>, round: u32) {
    let index = |bytes: &mut Vec<u8>, opcode, index: u32| {
        bytes.push(opcode);
        unsigned(bytes, u64::from(index));
    };
    bytes.extend_from_slice(b"\x02\x7f");
    index(bytes, 0x20, round % 10);
    index(bytes, 0x20, round % 200);
    bytes.extend_from_slice(b"\x6a\x28\x02");
    unsigned(bytes, u64::from(round % 300));
    bytes.push(0x41);
    signed(bytes, i64::from(round % 1000) - 500);
    bytes.push(0x6c);
    index(bytes, 0x22, round % 10);
    bytes.push(0x45);
    index(bytes, 0x0d, round % 5);
    index(bytes, 0x10, round);
    bytes.push(0x42);
    signed(bytes, i64::from(round) * 1_000_003);
    bytes.extend_from_slice(b"\x7d\x44");
    bytes.extend_from_slice(&4607182418800017408u64.to_le_bytes());
    bytes.extend_from_slice(b"\xa2\xd0\x70\xfb\x02");
    unsigned(bytes, u64::from(round % 20));
    unsigned(bytes, u64::from(round % 7));
    bytes.extend_from_slice(b"\xfd\xae\x01\x1a\x0b");
}

fn rounds(bytes: &mut Vec<u8>, index: u32) {
    for round in 0..ROUNDS {
        mix(bytes, index % 1000 + round);
    }
}

/// One local, instructions, and the end.
fn function(bytes: &mut Vec<u8>, write: impl FnOnce(&mut Vec<u8>)) {
    bytes.extend_from_slice(b"\x01\x01\x7f");
    write(bytes);
    bytes.push(0x0b);
}

fn constant(bytes: &mut Vec<u8>, index: u32) {
    bytes.push(0x41);
    signed(bytes, i64::from(index % 1000));
    bytes.push(0x0b);
}

/// A code section, copied as the crate `wasm-encoder` does. The module gets what stands in front of the functions.
fn copied_functions(module: &mut Vec<u8>, number: u32, write: impl Fn(&mut Vec<u8>, u32)) -> Vec<u8> {
    let mut code = Vec::new();
    for index in 0..number {
        let mut body = Vec::new();
        function(&mut body, |bytes| write(bytes, index));
        byte_list(&mut code, &body);
    }
    module.push(10);
    unsigned(module, (digits_of(number as usize) + code.len()) as u64);
    unsigned(module, u64::from(number));
    code
}

/// Builds a module, and returns what is to be written after it.
fn build(module: &mut Vec<u8>, number: u32, word: &str) -> Vec<u8> {
    let mut body = Vec::new();
    rounds(&mut body, 0);
    let copy = |bytes: &mut Vec<u8>, _: u32| bytes.extend_from_slice(&body);
    match word {
        "build_functions" => section(module, 10, number, 1000, |bytes, index| {
            sized(bytes, 2, |bytes| function(bytes, |bytes| rounds(bytes, index)));
        }),
        "build_raw_functions" => section(module, 10, number, 1000, |bytes, index| {
            sized(bytes, 2, |bytes| function(bytes, |bytes| copy(bytes, index)));
        }),
        "copied_functions" => {
            let code = copied_functions(module, number, rounds);
            module.extend_from_slice(&code);
        }
        "copied_raw_functions" => {
            let code = copied_functions(module, number, copy);
            module.extend_from_slice(&code);
        }
        "written_functions" => return copied_functions(module, number, rounds),
        "build_types" => section(module, 1, number, 7, |bytes, _| {
            bytes.extend_from_slice(b"\x60\x03\x7f\x7f\x7e\x01\x7f");
        }),
        "build_imports" => section(module, 2, number, 19, |bytes, index| {
            byte_list(bytes, b"env");
            byte_list(bytes, NAME);
            bytes.push(0);
            unsigned(bytes, u64::from(index));
        }),
        "build_globals" => section(module, 6, number, 6, |bytes, index| {
            bytes.extend_from_slice(b"\x7f\x01");
            constant(bytes, index);
        }),
        "build_exports" => section(module, 7, number, 15, |bytes, index| {
            byte_list(bytes, NAME);
            bytes.push(0);
            unsigned(bytes, u64::from(index));
        }),
        "build_elements" => section(module, 9, number, 30, |bytes, index| {
            bytes.push(0);
            constant(bytes, index);
            unsigned(bytes, INDEXES.len() as u64);
            for index in INDEXES {
                unsigned(bytes, u64::from(index));
            }
        }),
        "build_data" => section(module, 11, number, 22, |bytes, index| {
            bytes.push(0);
            constant(bytes, index);
            byte_list(bytes, BYTES);
        }),
        "build_custom" => {
            for _ in 0..number {
                module.push(0);
                sized(module, 2, |bytes| {
                    byte_list(bytes, NAME);
                    bytes.extend_from_slice(&[7; 1000]);
                });
            }
        }
        other => panic!("{other} is no word of plain_builder"),
    }
    Vec::new()
}

fn main() {
    let words: Vec<String> = std::env::args().skip(1).collect();
    let mut module = b"\0asm\x01\0\0\0".to_vec();
    let rest = build(&mut module, words[0].parse().unwrap(), &words[1]);
    std::io::stdout().write_all(&module).unwrap();
    std::io::stdout().write_all(&rest).unwrap();
}
