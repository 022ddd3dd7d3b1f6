//! libtone_builder.a

mod symbols {
    unsafe extern "C" {
        pub fn tone_check(book: *const i32, book_words: usize) -> u32;

        // No pointer crosses, and every value of both arguments is taken.
        pub safe fn tone_store_words(sample_count: usize, top: u32) -> usize;

        pub fn tone_build(
            book: *const i32,
            book_words: usize,
            samples: *const i16,
            sample_count: usize,
            top: u32,
            store: *mut i32,
            store_words: usize,
        ) -> u32;

        pub fn tone_test_hum(state: u32, samples: *mut i16, sample_count: usize) -> u32;
    }
}

/// The check of a book: 1 to 7.
pub fn check(book: &[i32]) -> u32 {
    // SAFETY: `book` is a valid slice, only read.
    unsafe { symbols::tone_check(book.as_ptr(), book.len()) }
}

/// Words of a store for S samples and top level T, its header among them; 0
/// where S or T is outside its range.
pub fn store_words(sample_count: usize, top: u32) -> usize {
    symbols::tone_store_words(sample_count, top)
}

/// The level builder: 1 to 9.
pub fn build(book: &[i32], samples: &[i16], top: u32, store: &mut [i32]) -> u32 {
    // SAFETY: `book` and `samples` are valid slices, only read; `store` is a
    // valid slice, and its exclusive borrow overlaps neither of them.
    unsafe {
        symbols::tone_build(
            book.as_ptr(),
            book.len(),
            samples.as_ptr(),
            samples.len(),
            top,
            store.as_mut_ptr(),
            store.len(),
        )
    }
}

/// The test hum from a state on. Hands back the last state.
pub fn test_hum(state: u32, samples: &mut [i16]) -> u32 {
    // SAFETY: `samples` is a valid slice, exclusively borrowed.
    unsafe { symbols::tone_test_hum(state, samples.as_mut_ptr(), samples.len()) }
}
