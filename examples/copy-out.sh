#!/usr/bin/env bash
# copy-out.sh: copies a provider's data, from its sector 0 on, into a new plain file, byte for byte.
#
#   copy-out.sh [-b BYTES] [-p] [-j PASSFILE] [-k KEYFILE]... IMAGE TARGET
#
# It is an older name of `vuthrel read-image`, with the same options: `vuthrel read-image -h` says more.
set -euo pipefail
# shellcheck source=lib.sh
. "$(dirname -- "$(readlink -f -- "${BASH_SOURCE[0]}")")/lib.sh"

go_on_as read-image "$@"
