// The calls of the proved library. A slice goes as a pointer and then a length.
use crate::cases::Frame;

unsafe extern "C" {
    fn boundary_table(
        levers: u32,
        kind: u32,
        number: u32,
        lines: *const u8,
        lines_len: usize,
        answers: *mut u8,
        answers_len: usize,
        groups: *mut u8,
        groups_len: usize,
    ) -> usize;

    fn boundary_cut(
        levers: u32,
        kind: u32,
        number: u32,
        lines: *const u8,
        lines_len: usize,
        groups: *mut u8,
        groups_len: usize,
    ) -> usize;
}

/// The table of the lines, entered one after the other.
pub fn table(frame: &Frame, lines: &[u8], answers: &mut [u8], groups: &mut [u8]) -> usize {
    let (kind, number) = frame.crew.code();
    // SAFETY: each pointer comes with the length of the slice that it was taken from.
    unsafe {
        boundary_table(
            frame.levers,
            kind,
            number,
            lines.as_ptr(),
            lines.len(),
            answers.as_mut_ptr(),
            answers.len(),
            groups.as_mut_ptr(),
            groups.len(),
        )
    }
}

/// The cut list of the lines.
pub fn cut(frame: &Frame, lines: &[u8], groups: &mut [u8]) -> usize {
    let (kind, number) = frame.crew.code();
    // SAFETY: each pointer comes with the length of the slice that it was taken from.
    unsafe {
        boundary_cut(
            frame.levers,
            kind,
            number,
            lines.as_ptr(),
            lines.len(),
            groups.as_mut_ptr(),
            groups.len(),
        )
    }
}
