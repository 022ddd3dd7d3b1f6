#!/usr/bin/env bash
# Proves a static library, tone or tone_builder, with all that it stands on, and writes its archive into target/staticlib.
set -euo pipefail
cd "$(dirname "${BASH_SOURCE[0]}")/.."

(cd "crates/$1" && rt lib)
mkdir -p target/staticlib
cp "crates/$1/out/lib$1.a" target/staticlib/
