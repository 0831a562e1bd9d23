//! Lists of names: a book's third section, and the house list.

/// The names of a house list.
pub const HOUSE_NAMES: usize = 64;

/// The most bytes of a name.
pub const LONGEST_NAME: usize = 16;

/// The names of a list that has so many, or the number of the first bad one, or their count where bytes are left over.
pub fn names(mut bytes: &[u8], count: usize) -> Result<Vec<&[u8]>, usize> {
    let mut names: Vec<&[u8]> = Vec::new();
    for number in 0..count {
        let (name, rest) = first_name(bytes).ok_or(number)?;
        if names.contains(&name) {
            return Err(number);
        }
        names.push(name);
        bytes = rest;
    }
    if bytes.is_empty() {
        Ok(names)
    } else {
        Err(count)
    }
}

/// The first name of these bytes and what follows it, if it is a good one.
fn first_name(bytes: &[u8]) -> Option<(&[u8], &[u8])> {
    let (&size, rest) = bytes.split_first()?;
    let (name, rest) = rest.split_at_checked(usize::from(size))?;
    let good = (1..=LONGEST_NAME).contains(&name.len())
        && name.iter().all(|byte| (33..=126).contains(byte));
    good.then_some((name, rest))
}

/// The bytes of a list of names: each with its length before it.
pub fn bytes_of_names<T: AsRef<[u8]>>(names: &[T]) -> Vec<u8> {
    let mut bytes = Vec::new();
    for name in names {
        let name = name.as_ref();
        bytes.push(name.len() as u8);
        bytes.extend(name);
    }
    bytes
}
