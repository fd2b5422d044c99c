//! Searches of a byte, as the kit's crate of this name gives them.
#![allow(warnings)]

pub fn memchr(needle: u8, haystack: &[u8]) -> Option<usize> {
    let mut chunks = haystack.chunks_exact(32);
    let mut at = 0;
    for chunk in &mut chunks {
        if chunk.iter().fold(false, |found, it| found | (*it == needle)) {
            break;
        }
        at += 32;
    }
    Some(at + haystack[at..].iter().position(|it| *it == needle)?)
}
