//! The proved parser, as the Rattle library exports it.
unsafe extern "C" {
    fn query_text_parses(text: *const u8, length: usize) -> bool;
    fn query_text_digest(text: *const u8, length: usize) -> u64;
}

/// Whether a text is a query, which is let go.
pub fn parses(text: &str) -> bool {
    unsafe { query_text_parses(text.as_ptr(), text.len()) }
}

/// A sum over all that a text's query has, or over its first fault.
pub fn digest(text: &str) -> u64 {
    unsafe { query_text_digest(text.as_ptr(), text.len()) }
}
