//! The version of the archive is that of the header beside it.

use crate::compare::{Compare, Outcome};
use crate::guarded::same;
use host::ffi;

const HEADER: &str = include_str!("../../../../include/giamuvich.h");

/// What the header defines a name as.
fn defined(name: &str) -> Result<&'static str, String> {
    let begins = format!("#define {name} ");
    let mut found = HEADER.lines().filter_map(|line| line.strip_prefix(&begins));
    found.next().ok_or(format!("the header has no {name}"))
}

pub fn version(compare: &mut Compare) -> Outcome {
    compare.inputs += 1;
    let number = ffi::version();
    let parts = [number / 1_000_000, number / 1_000 % 1_000, number % 1_000];
    let texts = parts.map(|part| part.to_string());
    for (name, text) in ["MAJOR", "MINOR", "PATCH"].iter().zip(&texts) {
        let name = format!("GMV_VERSION_{name}");
        same(&name, &[defined(&name)?], &[text.as_str()])?;
    }
    let whole = format!("\"{}\"", texts.join("."));
    same("GMV_VERSION", &[defined("GMV_VERSION")?], &[whole.as_str()])
}
