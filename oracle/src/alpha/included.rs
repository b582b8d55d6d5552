//! Stand-in: the packages that ship with penne. There are none here.

pub fn source_name_hint(_filename: &str) -> Option<&'static str> {
    None
}
