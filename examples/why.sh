#!/usr/bin/env bash
# why.sh: says in words what is wrong with the words of a geli command. It runs no command, and touches no file.
#
#   why.sh WORD...
#   why.sh error NUMBER [WORD...]
#
# It is an older name of `vuthrel explain`, with the same options: `vuthrel explain -h` says more.
set -euo pipefail
# shellcheck source=lib.sh
. "$(dirname -- "$(readlink -f -- "${BASH_SOURCE[0]}")")/lib.sh"

go_on_as explain "$@"
