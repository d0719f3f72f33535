#!/usr/bin/env bash
# Makes a Debian package and a tar of what was built on this machine of this commit, in out/: tools/package.sh LOG
# LOG is what `rt ci` printed. The program comes from crates/xt/out, and the library from out/, where tools/library.sh put it; without it the package
# has neither header nor bindings. Nothing is made where a file differs from the commit, the gate didn't pass, or something was built of other sources.
set -euo pipefail
cd "$(dirname "${BASH_SOURCE[0]}")/.."
refuse() {
    echo "package.sh: $1" >&2
    exit 1
}

# The first source that is newer than a file.
newer_than() {
    find crates crates.txt -newer "$1" -not -path '*/out/*' \( -name '*.rt' -o -name '*.antt' -o -name crates.txt \) -print -quit
}

# Refuses what isn't there or is older than a source.
of_sources() {
    local newer
    [[ -e $1 ]] || refuse "$1 isn't there"
    newer=$(newer_than "$1")
    [[ -z $newer ]] || refuse "$1 is older than $newer"
}

log=${1:?"the file with what rt ci printed is missing"}
program=crates/xt/out/xt
commit=$(tools/commit.sh)
[[ $commit != *changed ]] || refuse "the files differ from the commit: $(git status --porcelain | head -n 1)"
of_sources "$log"
last=$(tail -n 1 "$log")
[[ $last =~ ^[0-9]+\ passed,\ 0\ failed$ ]] || refuse "$log doesn't end in 'N passed, 0 failed', but in '$last'"
of_sources "$program"
has_library=
if [[ -e out/libxt.a || -e out/libxt.so ]]; then
    built=$(cat out/libxt.commit 2>/dev/null || echo "no known commit")
    [[ $built == "$commit" ]] || refuse "the library in out/ is of $built; tools/library.sh builds it anew, and without its files the package has none"
    has_library=yes
fi

architecture=$(dpkg --print-architecture)
triplet=$(gcc -print-multiarch)
day=$(git show -s --format=%cd --date=format:%Y%m%d)
version=0.1+$day.${commit:0:12}
SOURCE_DATE_EPOCH=$(git show -s --format=%ct)
export SOURCE_DATE_EPOCH
stage=$(mktemp -d)
chmod 755 "$stage"
trap 'rm -rf "$stage"' EXIT
usr=$stage/usr doc=$stage/usr/share/doc/ruhvelma

install -Dm755 xt "$usr/bin/xt"
install -Dm755 "$program" "$usr/lib/ruhvelma/xt"
install -d "$doc/docs" "$doc/examples" "$usr/share/man/man1"
install -m644 docs/*.md "$doc/docs"
install -m644 README.md "$doc"
git ls-files -z examples | xargs -0 -I{} cp {} "$doc/examples"
ln -s ../../../bin/xt "$doc/xt"
tools/man_page.py "$version" "$(git show -s --format=%cs)" | gzip -9n >"$usr/share/man/man1/xt.1.gz"
if [[ $has_library ]]; then
    install -Dm644 -t "$usr/lib/$triplet" out/libxt.a out/libxt.so
    install -Dm644 -t "$usr/include" include/xt.h bindings/cpp/xt.hpp
    install -Dm644 bindings/python/ruhvelma.py "$usr/lib/python3/dist-packages/ruhvelma.py"
    (cd bindings && git ls-files -z rust c cpp/pose.cpp python/pose.py python/test_ruhvelma.py | xargs -0 cp --parents -t "$doc")
fi
{
    echo "commit $commit"
    echo "built with $(rt version)"
    echo "the last lines of rt ci:"
    tail -n 5 "$log" | sed 's/^/    /'
    (cd "$stage" && find usr/bin usr/lib -type f | LC_ALL=C sort | xargs sha256sum)
} >"$doc/BUILT"

out=$PWD/out
mkdir -p "$out"
name=ruhvelma-$version-$(uname -m)
find "$stage" -exec touch -hd "@$SOURCE_DATE_EPOCH" {} +
tar -C "$stage" --sort=name --owner=0 --group=0 --numeric-owner --transform "s,^usr,$name," -czf "$out/$name.tar.gz" usr

glibc=$(find "$usr/lib" -type f \( -name xt -o -name libxt.so \) -exec objdump -T {} + 2>/dev/null | grep -o 'GLIBC_[0-9.]*' | sort -uV | tail -n 1)
install -d "$stage/DEBIAN"
cat >"$stage/DEBIAN/control" <<END
Package: ruhvelma
Version: $version
Architecture: $architecture
Maintainer: $(git log -1 --format='%an <%ae>')
Depends: libc6${glibc:+ (>= ${glibc#GLIBC_})}
Suggests: git, parallel, python3
Section: devel
Priority: optional
Installed-Size: $(du -sk "$usr" | cut -f1)
Description: extensible types of DDS (OMG DDS-XTypes 1.3)
 The program xt reads, writes, converts and judges samples of types that evolve,
 as clauses 7.2 to 7.6 of the standard define it, in a stated profile.$([[ -z $has_library ]] || echo "
 The library libxt does it for C, C++, Python and Rust.")
END
[[ -z $has_library ]] || echo "activate-noawait ldconfig" >"$stage/DEBIAN/triggers"
dpkg-deb --root-owner-group --build "$stage" "$out/ruhvelma_${version}_$architecture.deb" >/dev/null
ls "$out/$name.tar.gz" "$out/ruhvelma_${version}_$architecture.deb"
