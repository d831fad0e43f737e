use std::collections::BTreeMap;

#[no_mangle]
pub extern "C" fn count(length: usize) -> usize {
    let text: String = (0..length).map(|i| char::from(b'a' + (i % 23) as u8)).collect();
    let mut counts = BTreeMap::new();
    for letter in text.chars() {
        *counts.entry(letter).or_insert(0usize) += 1;
    }
    let report = format!("{counts:?}");
    report.len() + report.parse::<f64>().map_or(0, |number| number as usize)
}
