//! Tests of counted cases leave none of a group out.

/// All names from the one to the other are made.
pub fn all_made(names: &[&str], from: &str, to: &str, made: &[&str]) {
    let place = |name| names.iter().position(|other| *other == name);
    let (first, last) = (place(from).expect("a name"), place(to).expect("a name"));
    for name in &names[first..=last] {
        assert!(made.contains(name), "{name}");
    }
}
