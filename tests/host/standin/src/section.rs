//! A section by document 02's formulas, sheet by sheet.

use core::slice::from_raw_parts_mut;

/// # Safety
/// As `include/barleychime.h` says.
#[no_mangle]
pub unsafe extern "C" fn barleychime_section(size: u32, numbers: *mut u32, answer: *mut u32) -> u32 {
    let (numbers, answer) = unsafe { (from_raw_parts_mut(numbers, 64), from_raw_parts_mut(answer, 2)) };
    if !(4..=64).contains(&size) || !size.is_multiple_of(4) {
        answer.copy_from_slice(&[33, size]);
        return 33;
    }
    for (k, sheet) in (0..size / 4).zip(numbers.chunks_exact_mut(4)) {
        sheet.copy_from_slice(&[size - 2 * k, 2 * k + 1, 2 * k + 2, size - 2 * k - 1]);
    }
    answer.copy_from_slice(&[0, 0]);
    0
}
