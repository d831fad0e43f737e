//! The vectors of the repository, whose answers come from an independent reference.

use nosgrivel::*;

type Normalise = fn(&[u8]) -> Result<Vec<u8>, Error>;
type InPlace = fn(&mut Vec<u8>) -> Result<(), Error>;
type IsNormal = fn(&[u8]) -> Result<bool, Error>;
type Check = fn(&[u8]) -> Result<(), Error>;

/// Returns the functions of a mode.
fn mode(word: &str) -> (Normalise, InPlace, IsNormal, Check) {
    match word {
        "module" => (
            normalise_module,
            normalise_module_in_place,
            is_normal_module,
            check_module,
        ),
        "calls" => (
            normalise_instructions,
            normalise_instructions_in_place,
            is_normal_instructions,
            check_instructions,
        ),
        "types" => (
            normalise_type_section,
            normalise_type_section_in_place,
            is_normal_type_section,
            check_type_section,
        ),
        "code" => (
            normalise_code_section,
            normalise_code_section_in_place,
            is_normal_code_section,
            check_code_section,
        ),
        other => panic!("no mode {other}"),
    }
}

fn bytes(hex: &str) -> Vec<u8> {
    assert_eq!(hex.len() % 2, 0, "{hex}");
    (0..hex.len())
        .step_by(2)
        .map(|at| u8::from_str_radix(&hex[at..at + 2], 16).expect("two digits"))
        .collect()
}

/// Parses an answer: `refused N`, or `ok` and bytes.
fn answer(column: &str) -> Result<Vec<u8>, Error> {
    match column.strip_prefix("refused ") {
        Some(at) => Err(Error::Refused {
            at: at.parse().expect("a number"),
        }),
        None => Ok(bytes(column.strip_prefix("ok").expect("ok").trim_start())),
    }
}

/// Reads a file of vectors: the mode, the input and the answer of each row.
fn rows(file: &str) -> Vec<(String, Vec<u8>, String)> {
    let here = env!("CARGO_MANIFEST_DIR");
    // Installed with the crate, or where the repository keeps them.
    let folders = ["tests/data", "../../crates/replay/data"];
    let text = folders
        .iter()
        .find_map(|folder| std::fs::read_to_string(format!("{here}/{folder}/{file}")).ok())
        .expect("the vectors");
    text.lines()
        .map(|line| {
            let columns: Vec<&str> = line.split('\t').collect();
            assert_eq!(columns.len(), 3, "{line}");
            (columns[0].into(), bytes(columns[1]), columns[2].into())
        })
        .collect()
}

fn normalisers_answer(file: &str) {
    for (word, input, column) in rows(file) {
        let (normalise, in_place, is_normal, _) = mode(&word);
        let wanted = answer(&column);
        assert_eq!(normalise(&input), wanted, "{word} {input:02X?}");
        let mut place = input.clone();
        assert_eq!(in_place(&mut place), wanted.clone().map(|_| ()));
        assert_eq!(&place, wanted.as_ref().unwrap_or(&input));
        assert_eq!(is_normal(&input), wanted.map(|normal| normal == input));
    }
}

#[test]
fn normal_forms() {
    normalisers_answer("answers.tsv");
}

#[test]
fn linked_modules() {
    normalisers_answer("linked.tsv");
}

#[test]
fn strict_readers() {
    for (word, input, column) in rows("strict.tsv") {
        let (.., check) = mode(&word);
        let wanted = answer(&column).map(|_| ());
        assert_eq!(check(&input), wanted, "{word} {input:02X?}");
    }
}
