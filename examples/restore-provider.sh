#!/usr/bin/env bash
# restore-provider.sh: puts a backup of the metadata back into an image, after it has said what both are.
#
#   restore-provider.sh [-fy] [-p] [-j PASSFILE] [-k KEYFILE]... BACKUP IMAGE OLD
#
# It is an older name of `vuthrel restore`, with the same options: `vuthrel restore -h` says more.
set -euo pipefail
# shellcheck source=lib.sh
. "$(dirname -- "$(readlink -f -- "${BASH_SOURCE[0]}")")/lib.sh"

go_on_as restore "$@"
