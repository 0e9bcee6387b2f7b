#!/usr/bin/env bash
# scrub-provider.sh: checks every sector of an authenticated provider, in parts, and says which can't be read. The image
# isn't changed.
#
#   scrub-provider.sh [-r] [-m MINUTES] [-p] [-j PASSFILE] [-k KEYFILE]... IMAGE PLACE
#
# It is an older name of `vuthrel scrub`, with the same options: `vuthrel scrub -h` says more.
set -euo pipefail
# shellcheck source=lib.sh
. "$(dirname -- "$(readlink -f -- "${BASH_SOURCE[0]}")")/lib.sh"

go_on_as scrub "$@"
