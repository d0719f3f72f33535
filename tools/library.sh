#!/usr/bin/env bash
# Proves the library for C and builds it: out/libxt.a, out/libxt.so, which have the names of include/xt.h and no others, and out/libxt.commit, the
# commit that they are of. The proof takes hours where `rt check` kept nothing.
set -euo pipefail
cd "$(dirname "${BASH_SOURCE[0]}")/.."
refuse() {
    echo "library.sh: $1" >&2
    exit 1
}

for tool in rt gcc ld ar nm objcopy python3; do
    command -v "$tool" >/dev/null || refuse "$tool is missing"
done
kit=$(dirname "$(dirname "$(readlink -f "$(command -v rt)")")")
heap=$kit/c/liblibc_c.a
[[ -e $heap ]] || refuse "the kit has no $heap"
commit=$(tools/commit.sh)

(cd crates/xt_c && rt lib) || refuse "crates/xt_c isn't proved"
archive=crates/xt_c/out/libxt_c.a
[[ -e $archive ]] || refuse "rt lib made no $archive"
[[ $(tools/commit.sh) == "$commit" ]] || refuse "the files changed while the library was proved"

stage=$(mktemp -d)
trap 'rm -rf "$stage"' EXIT
sed -nE 's/^(uint32_t|void) (xt_[a-z_]+)\(.*/\2/p' include/xt.h >"$stage/names"
[[ -s $stage/names ]] || refuse "include/xt.h declares no call"
{
    echo "{ global:"
    sed 's/$/;/' "$stage/names"
    echo "local: *; };"
} >"$stage/versions"

# One object of the library and of what the kit has for its memory, over malloc. The names in between are its own.
ld -r -o "$stage/xt.o" --whole-archive "$archive" --no-whole-archive "$heap"
objcopy --keep-global-symbols="$stage/names" "$stage/xt.o"
ar rcsD "$stage/libxt.a" "$stage/xt.o"
gcc -shared -o "$stage/libxt.so" -Wl,-soname,libxt.so -Wl,--version-script="$stage/versions" -Wl,--no-undefined \
    -Wl,-z,noexecstack,-z,relro,-z,now "$stage/xt.o"
tools/header_check.py "$stage/libxt.a" "$stage/libxt.so" || refuse "the header and the library differ"

mkdir -p out
rm -f out/libxt.commit
install -m644 "$stage/libxt.a" "$stage/libxt.so" out
echo "$commit" >out/libxt.commit
ls out/libxt.a out/libxt.so
