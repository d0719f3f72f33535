#!/usr/bin/env bash
# Prints the commit of this checkout, with `changed` behind it where a file that it has differs from it, or one is there that it doesn't have.
set -euo pipefail
cd "$(dirname "${BASH_SOURCE[0]}")/.."
commit=$(git rev-parse HEAD)
[[ -z $(git status --porcelain) ]] && echo "$commit" || echo "$commit changed"
