//! The lines of the mapper's log.

/// A field's value, as a number.
pub fn number_in(line: &str, field: &str) -> u32 {
    let mut words = line.split(' ').filter_map(|word| word.split_once('='));
    let value = words.find_map(|(name, value)| (name == field).then_some(value));
    value.and_then(|it| it.parse().ok()).expect(field)
}
