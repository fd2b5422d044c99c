//! Lower-case hexadecimal digits, as the kit's crate of this name gives them.
#![allow(warnings)]
use rstd::alloc::Global;

pub fn encode(_: Global, bytes: &[u8]) -> Result<rstd::String, rstd::alloc::AllocError> {
    let text: String = bytes.iter().map(|it| format!("{it:02x}")).collect();
    Ok(rstd::format!(in Global; "{text}")?)
}
