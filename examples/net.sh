#!/usr/bin/env bash
# Types over TCP on loopback: one process serves the types of a vehicle, another fetches one by its identifier and judges with what it got, and a
# third pushes a newer version. Each command is shown, and then what it prints. examples/net.out has it all. The port is 47611, or the one given.
set -uo pipefail
cd "$(dirname "${BASH_SOURCE[0]}")"
xt=../xt
port=${1:-47611}
here=127.0.0.1:$port
work=$(mktemp -d)
trap 'rm -rf "$work"' EXIT

say() { printf '\n# %s\n' "$1"; }
show() { printf '$ %s\n' "$1"; }
status() { printf '(status %d)\n' "$1"; }
# whether a socket listens at the port
listens() { grep -q ":$(printf %04X "$port") 00000000:0000 0A" /proc/net/tcp; }

old=f2ee51fe8eaf794131137bbb7266ca
"$xt" wrap idl <pose_one.idl >"$work/one"
"$xt" wrap idl <pose_two.idl >"$work/two"
new=$("$xt" show <"$work/two" | sed -n 's/^.* \(f2[0-9a-f]*\)$/\1/p')

say "A service: two workers, three sessions each, with the first version of a type."
show "xt serve 127.0.0.1:PORT 2 3 < one &"
"$xt" serve "$here" 2 3 <"$work/one" >"$work/served" &
server=$!
until listens; do sleep 0.1; done

say "Another process asks for that version by its identifier, and judges a newer version of its own against what it got."
show "xt fetch 127.0.0.1:PORT $old > fetched"
"$xt" fetch "$here" "$old" >"$work/fetched"
status $?
show "cat two fetched | xt judge 0/geo::Pose '#$old' xcdr2"
cat "$work/two" "$work/fetched" | "$xt" judge 0/geo::Pose "#$old" xcdr2
status $?

say "The service doesn't know the newer version yet."
show "xt fetch 127.0.0.1:PORT $new"
"$xt" fetch "$here" "$new" | od -An -c
status "${PIPESTATUS[0]}"

say "A third process pushes the newer version's objects, twice."
show "xt mirror 127.0.0.1:PORT < two"
"$xt" mirror "$here" <"$work/two"
status $?
show "xt mirror 127.0.0.1:PORT < two"
"$xt" mirror "$here" <"$work/two"
status $?

say "Now it is there."
show "xt fetch 127.0.0.1:PORT $new > fetched"
"$xt" fetch "$here" "$new" >"$work/fetched"
status $?
show "xt show < fetched"
"$xt" show <"$work/fetched"
status $?

say "The sixth session ends the service."
show "xt fetch 127.0.0.1:PORT $old > fetched"
"$xt" fetch "$here" "$old" >"$work/fetched"
status $?
show "wait"
wait "$server"
code=$?
cat "$work/served"
status "$code"

say "Nobody is there any more."
show "xt fetch 127.0.0.1:PORT $old"
"$xt" fetch "$here" "$old" | od -An -c
status "${PIPESTATUS[0]}"
