//! Compiles the shims over other resamplers whose packages are installed, and
//! sets a cfg for each. A library that is missing is left out, never an error.

use std::env;
use std::path::{Path, PathBuf};
use std::process::{Command, Stdio};

/// A library: its cfg, the shim over it, the compiler, what is linked.
struct Library {
    name: &'static str,
    shim: &'static str,
    compiler: (&'static str, &'static str),
    links: &'static [&'static str],
}

const C: (&str, &str) = ("CC", "cc");
const CXX: (&str, &str) = ("CXX", "c++");

const LIBRARIES: [Library; 3] = [
    Library {
        name: "libsamplerate",
        shim: "samplerate.c",
        compiler: C,
        links: &["samplerate"],
    },
    Library {
        name: "libsoxr",
        shim: "soxr.c",
        compiler: C,
        links: &["soxr"],
    },
    Library {
        name: "zita_resampler",
        shim: "zita.cpp",
        compiler: CXX,
        links: &["zita-resampler", "stdc++"],
    },
];

/// Whether a command ran and ended well; what it prints is left unseen.
fn runs(command: &mut Command) -> bool {
    let quiet = command.stdout(Stdio::null()).stderr(Stdio::null());
    quiet.status().is_ok_and(|status| status.success())
}

/// Makes the shim's archive; false where header, library or compiler is missing.
fn made(library: &Library, source: &Path, out: &Path) -> bool {
    let (variable, default) = library.compiler;
    let compiler = env::var(variable).unwrap_or_else(|_| default.to_string());
    let object = out.join(format!("{}.o", library.name));
    let archive = out.join(format!("lib{}_shim.a", library.name));
    let mut compile = Command::new(&compiler);
    compile.args(["-O2", "-fPIC", "-c"]).arg(source);
    let mut link = Command::new(&compiler);
    link.arg("-shared").arg(&object);
    link.args(library.links.iter().map(|name| format!("-l{name}")));
    link.arg("-o")
        .arg(out.join(format!("{}.probe", library.name)));
    let mut archiver = Command::new("ar");
    archiver.arg("crs").arg(&archive).arg(&object);
    runs(compile.arg("-o").arg(&object)) && runs(&mut link) && runs(&mut archiver)
}

/// The compiler's version, which the benchmark prints.
fn rustc_version() -> String {
    let rustc = env::var_os("RUSTC").unwrap_or_else(|| "rustc".into());
    let output = Command::new(rustc).arg("--version").output();
    output.map_or_else(
        |_| "unknown".to_string(),
        |output| String::from_utf8_lossy(&output.stdout).trim().to_string(),
    )
}

fn main() {
    let out = PathBuf::from(env::var_os("OUT_DIR").expect("cargo sets OUT_DIR"));
    println!("cargo::rerun-if-changed=build.rs");
    println!("cargo::rerun-if-changed=shims");
    println!("cargo::rerun-if-env-changed=CC");
    println!("cargo::rerun-if-env-changed=CXX");
    println!("cargo::rustc-env=BENCHMARK_RUSTC={}", rustc_version());
    println!("cargo::rustc-link-search=native={}", out.display());
    for library in &LIBRARIES {
        println!("cargo::rustc-check-cfg=cfg({})", library.name);
        if made(library, &Path::new("shims").join(library.shim), &out) {
            println!("cargo::rustc-cfg={}", library.name);
            println!("cargo::rustc-link-lib=static={}_shim", library.name);
            for name in library.links {
                println!("cargo::rustc-link-lib={name}");
            }
        } else {
            // A file that is never there: the next build looks again.
            println!("cargo::rerun-if-changed=shims/{}.missing", library.name);
        }
    }
}
