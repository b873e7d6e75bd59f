//! The library's functions by layer, and a text for each input.

use host::ffi::{self, HybridNumbers};
use host::model::{Layer, Settings};

const SHOWN: usize = 400;

fn numbers(settings: &Settings) -> HybridNumbers {
    HybridNumbers {
        start_block: settings.start,
        end_block: settings.end,
        data_limit: settings.limit,
    }
}

pub fn read(
    settings: &Settings,
    state: &mut [u64],
    part: &[u8],
    buffer: &mut [u8],
    verdict: &mut [u64],
) -> u64 {
    match settings.layer {
        Layer::Hybrid => ffi::hybrid_read(numbers(settings), state, part, buffer, verdict),
        Layer::Minimal => ffi::minimal_read(settings.limit, state, part, buffer, verdict),
    }
}

pub fn check(settings: &Settings, block: &[u8], verdict: &mut [u64]) -> u64 {
    match settings.layer {
        Layer::Hybrid => ffi::hybrid_check(numbers(settings), block, verdict),
        Layer::Minimal => ffi::minimal_check(settings.limit, block, verdict),
    }
}

/// Writes a block; a minimal block has no type.
pub fn write(
    settings: &Settings,
    block_type: u64,
    content: &[u8],
    buffer: &mut [u8],
    start: usize,
    report: &mut [u64],
) -> u64 {
    match settings.layer {
        Layer::Hybrid => ffi::hybrid_write(
            numbers(settings),
            block_type,
            content,
            buffer,
            start,
            report,
        ),
        Layer::Minimal => ffi::minimal_write(settings.limit, content, buffer, start, report),
    }
}

pub fn settings_text(settings: &Settings) -> String {
    match settings.layer {
        Layer::Hybrid => format!(
            "hybrid SB={:#x} EB={:#x} D={}",
            settings.start, settings.end, settings.limit
        ),
        Layer::Minimal => format!("minimal D={}", settings.limit),
    }
}

/// The bytes in hex; of a long input its beginning.
pub fn hex(bytes: &[u8]) -> String {
    let shown = &bytes[..bytes.len().min(SHOWN)];
    let digits: Vec<String> = shown.iter().map(|byte| format!("{byte:02X}")).collect();
    let more = if bytes.len() > SHOWN { " ..." } else { "" };
    format!("({} bytes) {}{more}", bytes.len(), digits.join(" "))
}

/// The bytes of a message as text; of a long one its beginning.
pub fn text(bytes: &[u8]) -> String {
    let shown = &bytes[..bytes.len().min(SHOWN)];
    let more = if bytes.len() > SHOWN { " ..." } else { "" };
    format!("({} bytes) {}{more}", bytes.len(), shown.escape_ascii())
}
