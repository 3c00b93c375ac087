#!/bin/sh
# check.sh LIBDIR REPLAY: the quick checks of outside/ on LIBDIR/libskuldrefn.a,
# which `./skuldrefn library` makes, and on the replay program; and those of
# the repository's own files. Needs cargo, rustc and cc, and no network; without
# cargo fmt, cargo clippy or chromium these checks are left out, and a line says so;
# where CI is true, chromium is installed by apt.
# Prints little; what failed is printed whole. The last line, only if all
# passed: 'outside: N checks passed'.
set -u

ROUNDS=160
SEED=1

stop() {
    echo "outside: $1" >&2
    exit "${2:-1}"
}

[ $# -eq 2 ] || stop 'usage: check.sh LIBDIR REPLAY' 2
[ -f "$1/libskuldrefn.a" ] || stop "there is no $1/libskuldrefn.a" 2
[ -x "$2" ] || stop "there is no program $2" 2
replay=$(cd "$(dirname "$2")" && pwd)/$(basename "$2")
for tool in cargo rustc cc; do
    command -v "$tool" >/dev/null 2>&1 || stop "$tool is not on the PATH" 2
done
SKULDREFN_LIB=$(cd "$1" && pwd) || exit 2
SKULDREFN_REPLAY=$replay
export SKULDREFN_LIB SKULDREFN_REPLAY
cd "$(dirname "$0")" || exit 2

tmp=$(mktemp -d) || exit 2
trap 'rm -rf "$tmp"' EXIT
trap 'exit 1' HUP INT TERM

# run NAME COMMAND..: quiet unless it fails.
run() {
    name=$1
    shift
    "$@" >"$tmp/log" 2>&1 && return
    cat "$tmp/log"
    stop "$name failed"
}

# has WORD: whether this cargo has the command; where not, a line says what was not checked.
has() {
    cargo "$1" --version >/dev/null 2>&1 && return
    echo "outside: LEFT OUT: there is no cargo $1 on this machine"
    return 1
}

# A check of the repository's own files; the program prints what is amiss.
files() {
    run "tools $1" cargo run --offline --release -q -p tools -- "$1" ..
    echo "outside: $(cat "$tmp/log")"
}

run 'the build' cargo build --offline --release --workspace --all-targets

files edits
files crates
files cards
checks=3

if has fmt; then
    run 'cargo fmt' cargo fmt --all --check
    checks=$((checks + 1))
fi
if has clippy; then
    run 'cargo clippy' cargo clippy --offline --release --workspace --all-targets -- -D warnings
    checks=$((checks + 1))
fi

# The picture is tried in a browser; where CI is true, one that is missing is installed.
if ! command -v chromium >/dev/null 2>&1; then
    if [ "${CI:-}" = true ]; then
        run 'the install of chromium' sh -c 'apt-get update &&
            DEBIAN_FRONTEND=noninteractive apt-get install -y --no-install-recommends chromium'
    else
        echo 'outside: LEFT OUT: there is no chromium on this machine'
    fi
fi

run 'cargo test' cargo test --offline --release --workspace
tests=$(awk '/^test result: ok/ { sum += $4 } END { print sum + 0 }' "$tmp/log")
[ "$tests" -gt 0 ] || stop 'cargo test ran no tests'
echo "outside: $tests tests"

run 'fuzz' cargo run --offline --release -q -p differential --bin fuzz -- "$ROUNDS" "$SEED"
echo "outside: fuzz, $(grep 'answers compared' "$tmp/log")"

run 'cc' cc -std=c99 -Wall -Wextra -Werror -pedantic -O2 -I c c/example.c \
    "$SKULDREFN_LIB/libskuldrefn.a" -o "$tmp/example"
run 'the C example' "$tmp/example"
grep -v ': ' "$tmp/log" >"$tmp/lines"
run 'the C example' diff "$tmp/lines" ../examples/five-events.expected

run 'the replay program' cargo run --offline --release -q -p program -- "$replay" ../examples
cat "$tmp/log"

echo "outside: $((tests + checks + 3)) checks passed"
