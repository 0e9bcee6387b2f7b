#!/usr/bin/env bash
# change-passphrase.sh: gives a provider a new passphrase, and backs its new metadata up.
#
#   change-passphrase.sh [-p | -j PASSFILE] [-k KEYFILE]... [-P | -J PASSFILE] [-K KEYFILE]... IMAGE BACKUP
#
# It is an older name of `vuthrel passwd`, with the same options: `vuthrel passwd -h` says more.
set -euo pipefail
# shellcheck source=lib.sh
. "$(dirname -- "$(readlink -f -- "${BASH_SOURCE[0]}")")/lib.sh"

go_on_as passwd "$@"
