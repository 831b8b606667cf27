//! The proved engine, by the functions of the crate `exports`. A slice crosses as a pointer and a length.

mod linked {
    extern "C" {
        pub fn seutmilai_convert(source: u64, target: u64, amount: i64) -> i64;
        pub fn seutmilai_convert_rounds(source: u64, target: u64, amount: i64, rounds: u64, column: u64) -> i64;
        pub fn seutmilai_line_rounds(line: *const u8, length: usize, rounds: u64, account: u64, column: u64) -> i64;
        pub fn seutmilai_sheet_transcript(input: *const u8, length: usize, output: *mut u8, room: usize) -> u64;
        pub fn seutmilai_journal_transcript(input: *const u8, length: usize, output: *mut u8, room: usize) -> u64;
    }
}

/// What is booked, or below zero the number of the refusal.
pub fn convert(source: u64, target: u64, amount: i64) -> i64 {
    // SAFETY: numbers only.
    unsafe { linked::seutmilai_convert(source, target, amount) }
}

/// What account 3 holds in a column after so many conversions from account 2, with their residues carried there.
pub fn convert_rounds(source: u64, target: u64, amount: i64, rounds: u64, column: u64) -> i64 {
    // SAFETY: numbers only.
    unsafe { linked::seutmilai_convert_rounds(source, target, amount, rounds, column) }
}

/// What a cell holds after the line was carried out so many times.
pub fn line_rounds(line: &[u8], rounds: u64, account: u64, column: u64) -> i64 {
    // SAFETY: the pointer and the length are those of a slice that outlives the call.
    unsafe { linked::seutmilai_line_rounds(line.as_ptr(), line.len(), rounds, account, column) }
}

/// Writes the transcript on a sheet into the list, and answers its length.
pub fn sheet_transcript(input: &[u8], output: &mut [u8]) -> usize {
    // SAFETY: both are slices that outlive the call, and no other call uses the output.
    let length =
        unsafe { linked::seutmilai_sheet_transcript(input.as_ptr(), input.len(), output.as_mut_ptr(), output.len()) };
    length as usize
}

/// The same on a journal.
pub fn journal_transcript(input: &[u8], output: &mut [u8]) -> usize {
    // SAFETY: as above.
    let length =
        unsafe { linked::seutmilai_journal_transcript(input.as_ptr(), input.len(), output.as_mut_ptr(), output.len()) };
    length as usize
}
