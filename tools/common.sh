# Sourced first by the tools in bash: they work in the project's folder, and have one way to say how they are called and what is missing.
self=$(cd "$(dirname "$0")" && pwd)/${0##*/}
cd "${self%/*}/.."

# Says how the tool is called, by the second line of its text, and ends.
usage() {
    sed -n '2s/^# //p' "$self" >&2
    exit 2
}

# Skips the tool, and says so, where a program is not on the PATH.
needs() { # WHAT PROGRAM..
    local program
    for program in "${@:2}"; do
        command -v "$program" >/dev/null || { echo "$1: skipped (no $program)"; exit 0; }
    done
}

# Skips the tool, and says so, where there is no cargo or no published Rust: ../shared/docs/src, or the folder that FESOLOPI_RUST names.
needs_rust() { # WHAT
    local source=${FESOLOPI_RUST:-$PWD/../shared/docs/src}
    needs "$1" cargo
    [ -f "$source/src/simulator.rs" ] || [ -f "$source/simulator.rs" ] || { echo "$1: skipped (no published Rust at $source)"; exit 0; }
}

# Builds a Rust crate; `program` is then the path of the one that is named.
build() { # FOLDER NAME
    cargo build --release --offline --quiet --manifest-path "$1/Cargo.toml" || return
    program=${CARGO_TARGET_DIR:-$1/target}/release/$2
}

# Builds the benchmark over the archives that it links; `program` is then its path.
build_bench() {
    [ -n "${FESOLOPI_ARCHIVE:-}" ] || tools/archive swaps >&2
    build bench bench
}

# Runs a Rust crate's tests, and shows what they say only where one fails; the tool ends then.
tested() { # FOLDER
    local told
    told=$(cargo test --release --offline --quiet --manifest-path "$1/Cargo.toml" 2>&1) || { echo "$told"; echo "the tests of $1 fail"; exit 1; }
}
