//! Labels that look like one that is not there. They are hints for people: nothing is looked up by them.

/// The longest label for which near ones are looked for, and how many are named.
const LONGEST: usize = 64;
const MOST: usize = 5;

fn without_zeros(label: &[u8]) -> &[u8] {
    let zeros = label.iter().take_while(|&&byte| byte == b'0').count();
    &label[zeros..]
}

/// The labels that differ in leading zeros alone.
pub fn in_zeros<'a>(label: &[u8], borne: &[&'a [u8]]) -> Vec<&'a [u8]> {
    let same = |other: &&&[u8]| **other != label && without_zeros(other) == without_zeros(label);
    borne.iter().filter(same).copied().collect()
}

/// The nearest labels: up to two bytes put in, left out or changed, or other letters in case alone.
pub fn near<'a>(label: &[u8], borne: &[&'a [u8]]) -> Vec<&'a [u8]> {
    let most = if label.len() < 4 { 1 } else { 2 };
    if label.len() > LONGEST {
        return Vec::new();
    }
    let close = |other: &&'a [u8]| {
        if without_zeros(other) == without_zeros(label) || other.len().abs_diff(label.len()) > most {
            return None;
        }
        let steps = if other.eq_ignore_ascii_case(label) { 0 } else { distance(label, other) };
        (steps <= most).then_some((steps, *other))
    };
    let mut found: Vec<_> = borne.iter().filter_map(close).collect();
    found.sort_by_key(|(steps, _)| *steps);
    found.into_iter().take(MOST).map(|(_, other)| other).collect()
}

/// How many bytes must be put in, left out or changed to make one of the other.
fn distance(one: &[u8], other: &[u8]) -> usize {
    let mut row: Vec<usize> = (0..=other.len()).collect();
    for (i, &byte) in one.iter().enumerate() {
        let mut diagonal = row[0];
        row[0] = i + 1;
        for j in 0..other.len() {
            let changed = diagonal + usize::from(byte != other[j]);
            diagonal = row[j + 1];
            row[j + 1] = changed.min(diagonal + 1).min(row[j] + 1);
        }
    }
    row[other.len()]
}
