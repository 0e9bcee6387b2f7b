#!/usr/bin/env bash
# grow-provider.sh: makes an image longer, and the provider in it, and backs its new metadata up.
#
#   grow-provider.sh [-f] [-s OLDSIZE] [-p] [-j PASSFILE] [-k KEYFILE]... SIZE IMAGE BACKUP
#
# It is an older name of `vuthrel grow`, with the same options: `vuthrel grow -h` says more.
set -euo pipefail
# shellcheck source=lib.sh
. "$(dirname -- "$(readlink -f -- "${BASH_SOURCE[0]}")")/lib.sh"

go_on_as grow "$@"
