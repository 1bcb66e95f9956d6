//! In place of the crate unescape: a name for the macros' side, which never runs here.
pub fn unescape(text: &str) -> Option<String> {
    Some(text.to_string())
}
