#!/usr/bin/env bash
# From nothing to sound: proves the level builder and the player, writes their archives, builds the command `tone`, makes the example hum
# and its store, plays examples/drive.txt into target/drive.wav, writes the sheet of its report, target/drive.html, and says how far another
# take of the hum would move that drive. What is proved already is not proved again, but for the two archives' own thin crates.
set -euo pipefail
cd "$(dirname "${BASH_SOURCE[0]}")/.."

readonly archives=(tone_builder tone)
readonly programs=rust/target/release
readonly book=examples/book/book.txt drive=examples/drive.txt
readonly hum=target/hum.wav take=target/take2.wav store=target/hum.store sound=target/drive.wav sheet=target/drive.html
readonly top=2 rate=1 hertz=48000

fail() { printf 'run.sh: %s\n' "$*" >&2; exit 1; }

# Shows a line for each crate that rt has checked.
show() {
    local line
    while IFS= read -r line; do
        if [[ $line =~ ^crate\ ([a-z_]+): ]]; then
            printf '  %s\n' "${BASH_REMATCH[1]}"
        fi
    done
}

# Proves a static library and what it stands on, and writes its archive; shows all that rt said only where it fails.
prove() { # ARCHIVE
    local log=target/log/$1
    mkdir -p target/log
    bash examples/archive.sh "$1" 2>&1 | tee "$log" | show || {
        tail -n 40 "$log" | cut -c 1-300 >&2
        fail "examples/archive.sh $1 failed; $log has all that it said"
    }
}

for tool in rt cargo; do
    command -v "$tool" >/dev/null || fail "$tool is not on the path"
done

for archive in "${archives[@]}"; do
    echo "Proving lib$archive.a and writing it: some minutes where nothing is proved yet, a line for each crate"
    prove "$archive"
done
cargo build --release --manifest-path rust/Cargo.toml --target-dir rust/target -p tone -p hum

"$programs/hum" "$hum"
built=$("$programs/tone" build "$book" "$hum" "$top" "$store")
[[ $built =~ ^S\ ([0-9]+),\ T\ [0-9]+:\ ([0-9]+)\ words$ ]] || fail "tone build says: $built"
samples=${BASH_REMATCH[1]} words=${BASH_REMATCH[2]}
played=$("$programs/tone" play "$book" "$store" "$rate" "$drive" "$sound" --sample-rate "$hertz")
[[ $played =~ ^([0-9]+)\ outputs,\ ([0-9]+)\ fades,\ [0-9]+\ multiplies,\ ([0-9.]+)\ per\ output$ ]] || fail "tone play says: $played"
outputs=${BASH_REMATCH[1]} fades=${BASH_REMATCH[2]} mean=${BASH_REMATCH[3]}
reported=$("$programs/tone" report "$book" "$store" "$rate" "$drive" --html "$sheet" | tail -n 1)
[[ $reported =~ ^total\ $outputs\ [0-9]+$ ]] || fail "tone report says: $reported"
"$programs/hum" "$take" 2
moved=$("$programs/tone" moved "$book" "$hum" "$take" "$top" "$rate" "$drive")

printf '\nhum:   %s samples in %s\n' "$samples" "$hum"
printf 'store: levels 0 to %s, %s words, in %s\n' "$top" "$words" "$store"
printf 'drive: %s outputs of %s, %d.%02d seconds of sound at %s Hz, %s fades, %s multiplies per output\n' "$outputs" "$drive" $((outputs / hertz)) $((outputs % hertz * 100 / hertz)) "$hertz" "$fades" "$mean"
printf 'With another take of the hum, %s:\n%s\n' "$take" "$moved"
printf 'Listen to %s, print %s\n' "$PWD/$sound" "$PWD/$sheet"
