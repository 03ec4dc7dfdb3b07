//! The checker's C functions, where the static library is there.

#[cfg(checker)]
mod linked {
    extern "C" {
        fn maceplateau_reach(table: *const u8, table_length: usize, target: *const u8, target_length: usize) -> u32;
        fn maceplateau_ask(table: *const u8, table_length: usize, question: *const u8, question_length: usize) -> u32;
        fn maceplateau_ask_text(table: *const u8, table_length: usize, text: *const u8, text_length: usize) -> u32;
    }

    pub fn reach(table: &[u8], target: &[u8]) -> u32 {
        // The pointers and lengths are those of the slices.
        unsafe { maceplateau_reach(table.as_ptr(), table.len(), target.as_ptr(), target.len()) }
    }

    pub fn ask(table: &[u8], question: &[u8]) -> u32 {
        unsafe { maceplateau_ask(table.as_ptr(), table.len(), question.as_ptr(), question.len()) }
    }

    pub fn ask_text(table: &[u8], text: &[u8]) -> u32 {
        unsafe { maceplateau_ask_text(table.as_ptr(), table.len(), text.as_ptr(), text.len()) }
    }
}

#[cfg(checker)]
pub const LINKED: bool = true;
#[cfg(not(checker))]
pub const LINKED: bool = false;

/// 0 never, 1 reached, 100 plus a refusal's number; none where the checker is not linked.
pub fn reach(table: &[u8], target: &[u8]) -> Option<u32> {
    #[cfg(checker)]
    return Some(linked::reach(table, target));
    #[cfg(not(checker))]
    {
        let _ = (table, target);
        None
    }
}

/// 0 no, 1 yes, 100 plus a refusal's number; none where the checker is not linked.
pub fn ask(table: &[u8], question: &[u8]) -> Option<u32> {
    #[cfg(checker)]
    return Some(linked::ask(table, question));
    #[cfg(not(checker))]
    {
        let _ = (table, question);
        None
    }
}

/// The same of a question as a line of text.
pub fn ask_text(table: &[u8], text: &[u8]) -> Option<u32> {
    #[cfg(checker)]
    return Some(linked::ask_text(table, text));
    #[cfg(not(checker))]
    {
        let _ = (table, text);
        None
    }
}
