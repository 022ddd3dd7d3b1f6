//! The machine's state, as far as it can be read.

use std::fs;
use std::thread::available_parallelism;

/// Lines of name and value.
pub fn state() -> Vec<(&'static str, String)> {
    let cores = available_parallelism().map_or("unknown".to_string(), |count| count.to_string());
    vec![
        ("CPU", cpu()),
        ("cores", cores),
        ("load average", load()),
        ("governor", governor()),
        ("compiler", env!("BENCHMARK_RUSTC").to_string()),
        ("target", "x86-64 baseline, release".to_string()),
    ]
}

fn unknown() -> String {
    "not readable".to_string()
}

fn cpu() -> String {
    let text = fs::read_to_string("/proc/cpuinfo").unwrap_or_default();
    let model = text.lines().find(|line| line.starts_with("model name"));
    model
        .and_then(|line| line.split_once(':'))
        .map_or_else(unknown, |(_, name)| name.trim().to_string())
}

fn load() -> String {
    let text = fs::read_to_string("/proc/loadavg").unwrap_or_default();
    let figures: Vec<&str> = text.split_whitespace().take(3).collect();
    if figures.is_empty() {
        unknown()
    } else {
        figures.join(" ")
    }
}

fn governor() -> String {
    fs::read_to_string("/sys/devices/system/cpu/cpu0/cpufreq/scaling_governor")
        .map_or_else(|_| unknown(), |text| text.trim().to_string())
}
