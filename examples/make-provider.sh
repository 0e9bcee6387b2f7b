#!/usr/bin/env bash
# make-provider.sh: makes a new image with an encrypted provider in it, and backs its keys up.
#
#   make-provider.sh [-af] [-i ITERATIONS] [-J PASSFILE] SIZE IMAGE KEYFILE BACKUP
#   make-provider.sh -d [-a] [-i ITERATIONS] [-J PASSFILE] DISK KEYFILE BACKUP
#
# It is an older name of `vuthrel make`, with the same options: `vuthrel make -h` says more.
set -euo pipefail
# shellcheck source=lib.sh
. "$(dirname -- "$(readlink -f -- "${BASH_SOURCE[0]}")")/lib.sh"

go_on_as make "$@"
