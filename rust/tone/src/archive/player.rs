//! libtone.a

mod symbols {
    unsafe extern "C" {
        pub fn tone_check_store(store: *const i32, store_words: usize) -> u32;

        pub fn tone_open(rate: f32, top: u32, voice: *mut i32, voice_words: usize) -> u32;

        pub fn tone_jump(voice: *mut i32, voice_words: usize, rate: f32) -> u32;

        pub fn tone_glide(voice: *mut i32, voice_words: usize, rate: f32, count: u32) -> u32;

        pub fn tone_seek(voice: *mut i32, voice_words: usize, position: u64) -> u32;

        pub fn tone_play(
            voice: *mut i32,
            voice_words: usize,
            book: *const i32,
            book_words: usize,
            store: *const i32,
            store_words: usize,
            out: *mut i16,
            out_count: usize,
            multiplies: *mut u64,
        ) -> u32;
    }
}

/// The check of a store: 9, 8, 9, 18.
pub fn check_store(store: &[i32]) -> u32 {
    // SAFETY: `store` is a valid slice, only read.
    unsafe { symbols::tone_check_store(store.as_ptr(), store.len()) }
}

/// Opening: 8 for T, 10.
pub fn open(rate: f32, top: u32, voice: &mut [i32]) -> u32 {
    // SAFETY: `voice` is a valid slice, borrowed exclusively. Every f32 is
    // taken, NaN too.
    unsafe { symbols::tone_open(rate, top, voice.as_mut_ptr(), voice.len()) }
}

/// A jump: 13, 15, 16, 17, 10.
pub fn jump(voice: &mut [i32], rate: f32) -> u32 {
    // SAFETY: `voice` is a valid slice, borrowed exclusively; it may hold any
    // words.
    unsafe { symbols::tone_jump(voice.as_mut_ptr(), voice.len(), rate) }
}

/// A glide: 13, 15, 16, 17, 10, 11.
pub fn glide(voice: &mut [i32], rate: f32, count: u32) -> u32 {
    // SAFETY: `voice` is a valid slice, borrowed exclusively; it may hold any
    // words.
    unsafe { symbols::tone_glide(voice.as_mut_ptr(), voice.len(), rate, count) }
}

/// A seek: 13, 15, 16, 17, 12.
pub fn seek(voice: &mut [i32], position: u64) -> u32 {
    // SAFETY: `voice` is a valid slice, borrowed exclusively; it may hold any
    // words.
    unsafe { symbols::tone_seek(voice.as_mut_ptr(), voice.len(), position) }
}

/// Play: 1 to 7, the numbers of [`check_store`], 13, 19, 14 to 17, 11. Every call
/// writes the multiply count, a refused one 0.
pub fn play(
    voice: &mut [i32],
    book: &[i32],
    store: &[i32],
    out: &mut [i16],
    multiplies: &mut u64,
) -> u32 {
    // SAFETY: `book` and `store` are valid slices, only read; `voice`, `out` and
    // `multiplies` are valid, and their exclusive borrows overlap neither each
    // other nor `book` and `store`. Words of all five may be anything.
    unsafe {
        symbols::tone_play(
            voice.as_mut_ptr(),
            voice.len(),
            book.as_ptr(),
            book.len(),
            store.as_ptr(),
            store.len(),
            out.as_mut_ptr(),
            out.len(),
            multiplies,
        )
    }
}
