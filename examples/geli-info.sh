#!/usr/bin/env bash
# geli-info.sh: says what a provider is, by its metadata, and whether a key opens it. It changes nothing.
#
#   geli-info.sh [--json] [-p] [-j PASSFILE] [-k KEYFILE]... IMAGE
#
# It is an older name of `vuthrel info`, with the same options: `vuthrel info -h` says more.
set -euo pipefail
# shellcheck source=lib.sh
. "$(dirname -- "$(readlink -f -- "${BASH_SOURCE[0]}")")/lib.sh"

go_on_as info "$@"
