#!/usr/bin/env bash
# kill-provider.sh: destroys a provider after checking that there is one and asking for confirmation.
#
#   kill-provider.sh [-y] IMAGE
#
# It is an older name of `vuthrel destroy`, with the same options: `vuthrel destroy -h` says more.
set -euo pipefail
# shellcheck source=lib.sh
. "$(dirname -- "$(readlink -f -- "${BASH_SOURCE[0]}")")/lib.sh"

go_on_as destroy "$@"
