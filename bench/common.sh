# shellcheck shell=bash
# For bench/run, cache_run and door_run: finds the original's sources, builds the Rust side, and what both print with.
export LC_ALL=C

root=$(dirname "$here")
out=$root/target/bench

M68K_SRC=${M68K_SRC:-$root/../shared/docs/src}
if [ ! -f "$M68K_SRC/src/mmu/mod.rs" ]; then
    echo "the original's sources are not here (M68K_SRC names the folder that has src/mmu): nothing is timed" >&2
    exit 1
fi
M68K_SRC=$(cd "$M68K_SRC" && pwd)
export M68K_SRC

cargo build --release --offline --quiet --manifest-path "$here/Cargo.toml" --target-dir "$out/build"
built=$out/build/release

# median NUMBER...: the middle one.
median() {
    printf '%s\n' "$@" | sort -n | sed -n "$((($# + 1) / 2))p"
}

# machine: the processor and the compiler, in a line.
machine() {
    local cpu
    cpu=$(sed -n 's/^model name[^:]*: *//p' /proc/cpuinfo | head -n 1)
    echo "$cpu, $(grep -c '^processor' /proc/cpuinfo) processors; $(rustc --version)."
}
