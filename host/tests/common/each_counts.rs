//! Tests of counted cases, each an order on a sheet made by hand.

/// What a sheet is made of, an order and what is counted of it.
pub type Counted<'a, S> = (S, &'a [u8], &'a [&'static str]);

/// Each order counts what is said of it and nothing else; the names.
pub fn each_counts<S>(
    all: &[Counted<S>],
    count: impl Fn(&S, &[u8]) -> Vec<&'static str>,
) -> Vec<&'static str> {
    for (sheet, order, names) in all {
        assert_eq!(count(sheet, order), *names, "{order:?}");
    }
    all.iter()
        .flat_map(|(_, _, names)| names.to_vec())
        .collect()
}
