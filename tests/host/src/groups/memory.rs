//! Memory at the C boundary that ends (or begins) at a page that can't be touched, so that a byte read
//! or written outside is a fault.

use crate::compare::{Compare, Outcome};
use crate::guarded::same;
use crate::library;
use crate::make;
use host::model::{self, Settings};
use std::ptr::null_mut;

const PAGE: usize = 4096;

extern "C" {
    fn mmap(
        address: *mut u8,
        length: usize,
        protection: i32,
        flags: i32,
        descriptor: i32,
        offset: i64,
    ) -> *mut u8;
    fn mprotect(address: *mut u8, length: usize, protection: i32) -> i32;
    fn munmap(address: *mut u8, length: usize) -> i32;
}

/// Some pages of memory between two that can't be touched.
pub struct Pages {
    base: *mut u8,
    inner: usize,
}

impl Pages {
    pub fn new(pages: usize) -> Pages {
        let inner = pages * PAGE;
        // SAFETY: asks for new private memory, and closes its first and last page.
        let base = unsafe { mmap(null_mut(), inner + 2 * PAGE, 3, 0x22, -1, 0) };
        assert!(base as isize != -1, "no memory");
        let closed =
            unsafe { mprotect(base, PAGE, 0) | mprotect(base.wrapping_add(PAGE + inner), PAGE, 0) };
        assert!(closed == 0, "no guard pages");
        Pages { base, inner }
    }

    /// So many bytes at the very end, or at the very start, of the memory.
    pub fn bytes(&mut self, length: usize, at_end: bool) -> &mut [u8] {
        let skip = if at_end { self.inner - length } else { 0 };
        assert!(length <= self.inner);
        // SAFETY: lies in the pages that may be touched, and self is borrowed exclusively.
        unsafe { std::slice::from_raw_parts_mut(self.base.add(PAGE + skip), length) }
    }

    pub fn words(&mut self, length: usize, at_end: bool) -> &mut [u64] {
        let bytes = self.bytes(length * 8, at_end);
        // SAFETY: both ends of the pages are aligned for words.
        unsafe { std::slice::from_raw_parts_mut(bytes.as_mut_ptr().cast(), length) }
    }
}

impl Drop for Pages {
    fn drop(&mut self) {
        // SAFETY: the memory is this object's own.
        unsafe { munmap(self.base, self.inner + 2 * PAGE) };
    }
}

/// One set of pages for each kind of memory.
struct GuardPages {
    state: Pages,
    part: Pages,
    buffer: Pages,
    verdict: Pages,
}

/// Reads, checks and writes with all memory at the edge of what may be touched.
pub fn guard_pages(compare: &mut Compare) -> Outcome {
    let mut guarded = GuardPages {
        state: Pages::new(1),
        part: Pages::new(2),
        buffer: Pages::new(2),
        verdict: Pages::new(1),
    };
    for round in 0..60_000 {
        let at_end = round % 4 != 0;
        let settings = make::settings(&mut compare.random);
        let mut input = make::stream(&mut compare.random, &settings, 2);
        input.truncate(2 * PAGE);
        guarded_read(compare, &mut guarded, &settings, &input, at_end)?;
        guarded_check(compare, &mut guarded, &settings, &input, at_end)?;
        let length = make::length(&mut compare.random, &settings);
        let data = make::data(&mut compare.random, length);
        guarded_write(compare, &mut guarded, &settings, &data, at_end)?;
    }
    Ok(())
}

/// Reads the input in random parts, each of them at the edge.
fn guarded_read(
    compare: &mut Compare,
    guarded: &mut GuardPages,
    settings: &Settings,
    input: &[u8],
    at_end: bool,
) -> Outcome {
    let state = guarded.state.words(4, at_end);
    let buffer = guarded.buffer.bytes(settings.fits(), at_end);
    let verdict = guarded.verdict.words(8, at_end);
    state.fill(0);
    let mut modelled = buffer.to_vec();
    let mut words = [0; 4];
    let mut from = 0;
    while from < input.len() {
        compare.inputs += 1;
        let to = compare.random.between(from, input.len());
        let part = guarded.part.bytes(to - from, at_end);
        part.copy_from_slice(&input[from..to]);
        let number = library::read(settings, state, part, buffer, verdict);
        let expected = model::resume(settings, words, &input[from..to], &mut modelled);
        words = expected.state;
        from += expected.used;
        same("number", &[number], &[0])
            .and_then(|()| same("state", state, &words))
            .and_then(|()| same("buffer", buffer, &modelled))
            .and_then(|()| same("used", &verdict[7..], &[expected.used as u64]))
            .map_err(|why| {
                let settings = library::settings_text(settings);
                format!("read, {settings}: {why}; input {}", library::hex(input))
            })?;
    }
    Ok(())
}

fn guarded_check(
    compare: &mut Compare,
    guarded: &mut GuardPages,
    settings: &Settings,
    input: &[u8],
    at_end: bool,
) -> Outcome {
    for piece in [input, &input[..input.len() / 2]] {
        compare.inputs += 1;
        let block = guarded.part.bytes(piece.len(), at_end);
        block.copy_from_slice(piece);
        let verdict = guarded.verdict.words(8, at_end);
        let number = library::check(settings, block, verdict);
        let expected = model::check(settings, piece);
        if number != expected.number {
            let hex = library::hex(piece);
            return Err(format!("check answered {number}; input {hex}"));
        }
    }
    Ok(())
}

fn guarded_write(
    compare: &mut Compare,
    guarded: &mut GuardPages,
    settings: &Settings,
    data: &[u8],
    at_end: bool,
) -> Outcome {
    compare.inputs += 1;
    let content = guarded.part.bytes(data.len(), at_end);
    content.copy_from_slice(data);
    let start = compare.random.below(5);
    let need = start + data.len() + settings.overhead();
    let buffer = guarded.buffer.bytes(need, at_end);
    let report = guarded.verdict.words(2, at_end);
    let kind = u64::from(b'D');
    let number = library::write(settings, kind, content, buffer, start, report);
    let block = model::written(settings, kind, data).unwrap_or_default();
    if number != 0 || buffer[start..] != block[..] {
        let hex = library::hex(data);
        return Err(format!("write answered {number}; data {hex}"));
    }
    Ok(())
}
