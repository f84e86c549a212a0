//! Of the sorts that a call may be of, those that it is of.

/// The sorts that are met.
pub fn met(sorts: &[(&'static str, bool)]) -> Vec<&'static str> {
    let met = sorts.iter().filter(|(_, is)| *is);
    met.map(|(sort, _)| *sort).collect()
}
