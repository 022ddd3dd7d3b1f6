//! Other resamplers, through the shims that `build.rs` compiles where their
//! packages are installed.

use std::ffi::c_void;
use std::ptr::NonNull;

/// A shim's three calls.
#[derive(Clone, Copy)]
struct Calls {
    open: unsafe extern "C" fn(f64) -> *mut c_void,
    play: unsafe extern "C" fn(*mut c_void, f64, *const f32, isize, *mut f32, isize) -> isize,
    close: unsafe extern "C" fn(*mut c_void),
}

/// A kind of resampler.
pub struct Kind {
    /// What it is called in a table.
    pub name: &'static str,
    /// The Debian package that has it.
    pub package: &'static str,
    calls: Option<Calls>,
}

/// A resampler of mono floats.
pub struct Resampler {
    calls: Calls,
    state: NonNull<c_void>,
}

/// The kinds that are compared.
pub fn kinds() -> [Kind; 3] {
    [
        Kind {
            name: "zita VResampler",
            package: "libzita-resampler-dev",
            calls: zita(),
        },
        Kind {
            name: "libsoxr VR",
            package: "libsoxr-dev",
            calls: soxr(),
        },
        Kind {
            name: "libsamplerate",
            package: "libsamplerate0-dev",
            calls: samplerate(),
        },
    ]
}

impl Kind {
    /// Whether its package was there when this program was built.
    pub fn installed(&self) -> bool {
        self.calls.is_some()
    }

    /// A resampler for rates around `rate`, in samples per output.
    pub fn open(&self, rate: f64) -> Option<Resampler> {
        let calls = self.calls?;
        // SAFETY: the shim takes any rate and hands out a state of its own, or
        // null.
        let state = NonNull::new(unsafe { (calls.open)(rate) })?;
        Some(Resampler { calls, state })
    }
}

impl Resampler {
    /// Fills `out` at a rate from the front of `samples`; gives how many of
    /// them it has used up, or none where it failed.
    pub fn play(&mut self, rate: f64, samples: &[f32], out: &mut [f32]) -> Option<usize> {
        // SAFETY: the state is the shim's own and not closed; both slices are
        // valid, `samples` is only read, and `out` is borrowed exclusively.
        let used = unsafe {
            (self.calls.play)(
                self.state.as_ptr(),
                rate,
                samples.as_ptr(),
                samples.len() as isize,
                out.as_mut_ptr(),
                out.len() as isize,
            )
        };
        usize::try_from(used).ok()
    }
}

impl Drop for Resampler {
    fn drop(&mut self) {
        // SAFETY: the state is the shim's own and is closed this once.
        unsafe { (self.calls.close)(self.state.as_ptr()) }
    }
}

/// Declares a shim's calls where its library is installed.
macro_rules! shim {
    ($kind:ident, $library:ident, $open:ident, $play:ident, $close:ident) => {
        #[cfg($library)]
        fn $kind() -> Option<Calls> {
            unsafe extern "C" {
                fn $open(rate: f64) -> *mut c_void;
                fn $play(
                    state: *mut c_void,
                    rate: f64,
                    samples: *const f32,
                    sample_count: isize,
                    out: *mut f32,
                    out_count: isize,
                ) -> isize;
                fn $close(state: *mut c_void);
            }
            Some(Calls {
                open: $open,
                play: $play,
                close: $close,
            })
        }

        #[cfg(not($library))]
        fn $kind() -> Option<Calls> {
            None
        }
    };
}

shim!(zita, zita_resampler, zita_open, zita_play, zita_close);
shim!(
    soxr,
    libsoxr,
    soxr_shim_open,
    soxr_shim_play,
    soxr_shim_close
);
shim!(
    samplerate,
    libsamplerate,
    samplerate_open,
    samplerate_play,
    samplerate_close
);
