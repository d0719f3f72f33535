#!/usr/bin/env bash
# What a change of types breaks, and a check that stops it before it is pushed: each command is shown, and then what it prints and its status where it
# isn't 0. examples/compare.out has it all.
set -uo pipefail
command -v git >/dev/null || { echo "compare.sh: git is missing (Debian: apt-get install git)" >&2; exit 2; }
cd "$(dirname "${BASH_SOURCE[0]}")" || exit
top="$(cd .. && pwd)"
work=$(mktemp -d)
trap 'rm -rf "$work"' EXIT
for version in one two three; do cp "pose_$version.idl" "$work/$version.idl"; done
mkdir "$work/bin"
ln -s "$top/xt" "$work/bin/xt"
PATH="$work/bin:$PATH"
cd "$work" || exit

say() { printf '\n# %s\n' "$1"; }
run() {
    printf '$ %s\n' "$1"
    eval "$1" || printf '(status %d)\n' $?
}

say "Three versions of a type. The second appends a member; the third has wider numbers."
run "cat one.idl two.idl three.idl"

say "Each version is held against the one before: backward, whether it reads the older one's samples, and forward, whether the older one reads its own."
run "xt compare xcdr2 -- one.idl two.idl three.idl"

say "Types that are gone, and new ones."
run "echo '@final struct A { long x; }; @final struct B { long x; };' > old.idl"
run "echo '@final struct B { long x; }; @final struct C { long x; };' > new.idl"
run "xt compare xcdr2 -- old.idl new.idl"

say "A repository of types, whose hook compares what is pushed with what was pushed before."
export GIT_CONFIG_GLOBAL=/dev/null GIT_AUTHOR_NAME=A GIT_AUTHOR_EMAIL=a@example.org GIT_COMMITTER_NAME=A GIT_COMMITTER_EMAIL=a@example.org
git init -q --bare -b main shared
git init -q -b main mine
cat >mine/.git/hooks/pre-push <<'END'
#!/usr/bin/env bash
set -euo pipefail
git rev-parse -q --verify origin/main >/dev/null || exit 0
work=$(mktemp -d)
trap 'rm -rf "$work"' EXIT
git show origin/main:pose.idl >"$work/old.idl"
git show HEAD:pose.idl >"$work/new.idl"
xt compare xcdr2 -- "$work/old.idl" "$work/new.idl"
END
chmod +x mine/.git/hooks/pre-push
cd mine || exit
git remote add origin ../shared
run "cat .git/hooks/pre-push"
run "cp ../one.idl pose.idl; git add pose.idl; git commit -qm one; git push -q origin main"

say "The second version passes."
run "cp ../two.idl pose.idl; git commit -qam two; git push -q origin main"

say "The third is stopped."
run "cp ../three.idl pose.idl; git commit -qam three; git push -q origin main 2>/dev/null"
run "git log --format=%s origin/main"
