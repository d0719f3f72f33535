#!/usr/bin/env bash
# Compiles and runs every caller of the library: tools/try_bindings.sh [FOLDER], where FOLDER, else out/, has libxt.a and libxt.so.
# What the machine has no tool for is skipped, by name. The last line is `N passed, M failed`; the status is 1 where something failed.
set -uo pipefail
cd "$(dirname "${BASH_SOURCE[0]}")/.." || exit
folder=$(realpath -e -- "${1:-out}") || exit 2
archive=$folder/libxt.a shared=$folder/libxt.so
for file in "$archive" "$shared"; do
    [[ -e $file ]] || { echo "try_bindings.sh: $file isn't there; tools/library.sh builds it" >&2; exit 2; }
done
work=$(mktemp -d) || exit
trap 'rm -rf "$work"' EXIT
export PYTHONDONTWRITEBYTECODE=1 RUHVELMA_LIBRARY=$shared

passed=0 failed=0
warnings=(-Wall -Wextra -Wpedantic -Werror)
sanitizers=(-fsanitize="address,undefined" -fno-sanitize-recover=all)
under_valgrind=(valgrind --quiet --leak-check=full --error-exitcode=9)
# As much stack as the header says.
stack=$(sed -nE 's/.*A call takes at most ([0-9]+) KiB of stack.*/\1/p' include/xt.h)

# Runs words, and counts whether they did it. What they say is shown where they failed.
try() {
    local name=$1
    shift
    if "$@" >"$work/said" 2>&1; then
        passed=$((passed + 1))
        echo "ok $name"
        return 0
    fi
    failed=$((failed + 1))
    echo "FAILED $name"
    head -n 40 "$work/said" | sed 's/^/    /'
    return 1
}

skip() { echo "skipped $1: $2"; }
has() { command -v "$1" >/dev/null; }

# Runs words, whose output is that of the callers.
prints_pose() { "$@" | diff - bindings/c/pose.out; }

# Each makes a program of that name; options stand behind it.
compile_c() { gcc -std=c11 -O1 -g "${warnings[@]}" -Iinclude "${@:3}" "bindings/c/$1.c" "$archive" -pthread -o "$work/$2"; }
compile_over_shared() { gcc -std=c11 "${warnings[@]}" -Iinclude bindings/c/pose.c "$shared" -Wl,-rpath,"$folder" -o "$work/$1"; }
compile_cpp() { g++ -std=c++17 -O1 -g "${warnings[@]}" -Iinclude "${@:2}" bindings/cpp/pose.cpp "$archive" -o "$work/$1"; }

try_c() {
    local name
    for name in pose hostile stack speed; do
        try "compile $name.c" compile_c "$name" "$name" || return
    done
    try "pose.c" prints_pose "$work/pose"
    try "hostile.c" "$work/hostile" 100000
    try "hostile.c, another seed" "$work/hostile" 20000 2
    try "stack.c, $stack KiB" "$work/stack" "$stack"
    try "speed.c" "$work/speed" 100000 && sed 's/^/    /' "$work/said"
    try "compile pose.c over libxt.so" compile_over_shared pose_shared && try "pose.c over libxt.so" prints_pose "$work/pose_shared"
}

try_c_sanitized() {
    try "compile pose.c with sanitizers" compile_c pose pose_sanitized "${sanitizers[@]}" &&
        try "pose.c with sanitizers" prints_pose "$work/pose_sanitized"
    try "compile hostile.c with sanitizers" compile_c hostile hostile_sanitized "${sanitizers[@]}" &&
        try "hostile.c with sanitizers" "$work/hostile_sanitized" 20000
}

try_c_under_valgrind() {
    try "pose.c under valgrind" prints_pose "${under_valgrind[@]}" "$work/pose"
    try "hostile.c under valgrind" "${under_valgrind[@]}" "$work/hostile" 3000
}

try_cpp() {
    try "compile pose.cpp" compile_cpp pose_cpp && try "pose.cpp" prints_pose "$work/pose_cpp"
}

try_cpp_sanitized() {
    try "compile pose.cpp with sanitizers" compile_cpp pose_cpp_sanitized "${sanitizers[@]}" &&
        try "pose.cpp with sanitizers" prints_pose "$work/pose_cpp_sanitized"
}

try_python() {
    try "pose.py" prints_pose python3 bindings/python/pose.py
    try "test_ruhvelma.py" python3 -W error bindings/python/test_ruhvelma.py
    try "the header, the exports and the bindings" tools/header_check.py "$archive" "$shared"
    try "what the page quotes" tools/piece_check.py
}

try_rust() {
    try "compile pose.rs" rustc --edition 2021 -D warnings bindings/rust/pose.rs -L "$folder" -l static=xt -o "$work/pose_rs" &&
        try "pose.rs" prints_pose "$work/pose_rs"
}

# Whether a compiler has the sanitizers, and what it makes with them runs here.
sanitizes() {
    echo 'int main(void) { return 0; }' | "$1" -x "$2" "${sanitizers[@]}" - -o "$work/probe" 2>/dev/null && "$work/probe" 2>/dev/null
}

[[ $stack ]] || { echo "FAILED include/xt.h doesn't say how much stack a call takes"; failed=1 stack=512; }
if has gcc; then
    try_c
    if sanitizes gcc c; then try_c_sanitized; else skip "C with sanitizers" "gcc has none"; fi
    if has valgrind; then try_c_under_valgrind; else skip "C under valgrind" "no valgrind"; fi
else
    skip C "no gcc"
fi
if has g++; then
    try_cpp
    if sanitizes g++ c++; then try_cpp_sanitized; else skip "C++ with sanitizers" "g++ has none"; fi
else
    skip C++ "no g++"
fi
if has python3; then try_python; else skip "Python, the header and the page" "no python3"; fi
if has rustc; then try_rust; else skip Rust "no rustc"; fi
echo "$passed passed, $failed failed"
[[ $failed == 0 ]]
