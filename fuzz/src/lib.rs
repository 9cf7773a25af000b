// The fuzz target: readers, writers, labels and opening on any bytes, the library with coverage against the twin; a difference aborts.
//
// An input is the net sheet's length (2 bytes), the net sheet and the cut sheet.

use differ::chance::Chance;
use differ::damage::scratch;
use differ::tally::Tally;
use differ::{networks, sheets, steps, Same};
use std::process::abort;

extern "C" {
    fn LLVMFuzzerMutate(data: *mut u8, size: usize, most: usize) -> usize;
}

/// The two sheets of an input.
fn split(input: &[u8]) -> (&[u8], &[u8]) {
    let [low, high, rest @ ..] = input else { return (input, &[]) };
    rest.split_at((u16::from_le_bytes([*low, *high]) as usize).min(rest.len()))
}

/// A number that the bytes decide, so that an input gives the same each time.
fn digest(input: &[u8]) -> u64 {
    input.iter().fold(0xCBF2_9CE4_8422_2325, |sum, b| (sum ^ *b as u64).wrapping_mul(0x100_0000_01B3))
}

fn compare(input: &[u8]) -> Same {
    let (net, cut) = split(input);
    let chance = &mut Chance::new(digest(input), 0);
    let tally = &mut Tally::default();
    let read = sheets::read(chance, tally, net, cut)?;
    if chance.one_in(4) {
        let nodes = read.net.as_ref().map_or(1, |net| net.nodes);
        let node = chance.below(nodes + 1);
        sheets::label(tally, net, cut, node)?;
    }
    // Calls on networks are the differential test's own; here few inputs have them, so that most of the time goes to sheets.
    let limit = networks::limit(chance);
    networks::compare(chance, tally, net, cut, limit, &read, has_calls(input))?;
    if let (Ok(net), true) = (&read.net, chance.one_in(16)) {
        steps::compare(chance, tally, net)?;
    }
    Ok(())
}

fn has_calls(input: &[u8]) -> bool {
    digest(input) % 16 == 0
}

/// libFuzzer's entry.
///
/// # Safety
/// `data` has `size` bytes.
#[no_mangle]
pub unsafe extern "C" fn LLVMFuzzerTestOneInput(data: *const u8, size: usize) -> i32 {
    let input = if size == 0 { &[] } else { unsafe { std::slice::from_raw_parts(data, size) } };
    if let Err(why) = compare(input) {
        eprintln!("DIFFERENCE: {why}");
        abort();
    }
    0
}

/// Makes the third distance, and the others where they passed it, right again for the sheet's length.
fn mend(sheet: &mut [u8]) {
    let Some(end) = sheet.len().checked_sub(16) else { return };
    for i in 0..2 {
        let at = end + 4 * i;
        let d = u32::from_le_bytes([sheet[at], sheet[at + 1], sheet[at + 2], sheet[at + 3]]).min(end as u32);
        sheet[at..at + 4].copy_from_slice(&d.to_le_bytes());
    }
    sheet[end + 8..end + 12].copy_from_slice(&(end as u32).to_le_bytes());
}

/// Mutates one of the two sheets, and often makes its trailer right for its new length, since all else is refused by 2 or 7.
///
/// # Safety
/// `data` has `most` bytes, of which the first `size` are the input.
#[no_mangle]
pub unsafe extern "C" fn LLVMFuzzerCustomMutator(data: *mut u8, size: usize, most: usize, seed: u32) -> usize {
    let room = unsafe { std::slice::from_raw_parts_mut(data, most) };
    let chance = &mut Chance::new(seed as u64, size as u64);
    if chance.one_in(6) {
        return unsafe { LLVMFuzzerMutate(data, size, most) };
    }
    let (net, cut) = split(&room[..size]);
    let (mut net, mut cut) = (net.to_vec(), cut.to_vec());
    let left = most.saturating_sub(2 + net.len() + cut.len());
    let sheet = if chance.one_in(2) { &mut net } else { &mut cut };
    let body = sheet.len().saturating_sub(16);
    let mends = !chance.one_in(4);
    match chance.below(4) {
        0 => scratch(chance, sheet),
        1 if body > 0 => {
            // The sections alone, so that the trailer stays a trailer.
            let trailer = sheet.split_off(body);
            mutate(sheet, left);
            sheet.extend(trailer);
        }
        2 if body > 12 => {
            // A stretch doubled or dropped: a record more, an entry more, a depth more.
            let from = chance.below(body);
            let some = chance.of(&[1, 2, 12, 4, 34]).min(body - from);
            if chance.one_in(2) && left >= some {
                sheet.extend_from_within(from..from + some);
                sheet[from..].rotate_right(some);
            } else {
                sheet.drain(from..from + some);
            }
        }
        _ => mutate(sheet, left),
    }
    if mends {
        mend(sheet);
    }
    let length = net.len().min(0xFFFF) as u16;
    let input = [&length.to_le_bytes()[..], &net, &cut].concat();
    let size = input.len().min(most);
    room[..size].copy_from_slice(&input[..size]);
    size
}

/// libFuzzer's own mutation, which may take up to so many bytes more.
fn mutate(bytes: &mut Vec<u8>, more: usize) {
    let size = bytes.len();
    bytes.resize(size + more.min(64), 0);
    let size = unsafe { LLVMFuzzerMutate(bytes.as_mut_ptr(), size, bytes.len()) };
    bytes.truncate(size);
}
