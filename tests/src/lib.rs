//! The checker's C functions as safe Rust functions: a byte slice is a pointer and a length.

#[cfg(checker)]
extern "C" {
    fn maceplateau_reach(table: *const u8, table_length: usize, target: *const u8, target_length: usize) -> u32;
    fn maceplateau_ask(table: *const u8, table_length: usize, question: *const u8, question_length: usize) -> u32;
    fn maceplateau_ask_text(table: *const u8, table_length: usize, text: *const u8, text_length: usize) -> u32;
}

/// 0 never, 1 reached, 100 plus a refusal's number.
#[cfg(checker)]
pub fn reach(table: &[u8], target: &[u8]) -> u32 {
    // The pointers and lengths are those of slices that live through the call, and the function only reads them.
    unsafe { maceplateau_reach(table.as_ptr(), table.len(), target.as_ptr(), target.len()) }
}

/// 0 no, 1 yes, 100 plus a refusal's number.
#[cfg(checker)]
pub fn ask(table: &[u8], question: &[u8]) -> u32 {
    // As above.
    unsafe { maceplateau_ask(table.as_ptr(), table.len(), question.as_ptr(), question.len()) }
}

/// The same of a question as a line of text.
#[cfg(checker)]
pub fn ask_text(table: &[u8], text: &[u8]) -> u32 {
    // As above.
    unsafe { maceplateau_ask_text(table.as_ptr(), table.len(), text.as_ptr(), text.len()) }
}

#[cfg(not(checker))]
pub fn reach(_: &[u8], _: &[u8]) -> u32 {
    panic!("target/staticlib/libchecker.a is missing: tools/staticlib")
}

#[cfg(not(checker))]
pub fn ask(_: &[u8], _: &[u8]) -> u32 {
    panic!("target/staticlib/libchecker.a is missing: tools/staticlib")
}

#[cfg(not(checker))]
pub fn ask_text(_: &[u8], _: &[u8]) -> u32 {
    panic!("target/staticlib/libchecker.a is missing: tools/staticlib")
}
