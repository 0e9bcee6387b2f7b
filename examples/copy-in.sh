#!/usr/bin/env bash
# copy-in.sh: copies a plain file, such as a filesystem image, into a provider, byte for byte from its sector 0 on.
#
#   copy-in.sh [-cf] [-p] [-j PASSFILE] [-k KEYFILE]... SOURCE IMAGE
#
# It is an older name of `vuthrel write-image`, with the same options: `vuthrel write-image -h` says more.
set -euo pipefail
# shellcheck source=lib.sh
. "$(dirname -- "$(readlink -f -- "${BASH_SOURCE[0]}")")/lib.sh"

go_on_as write-image "$@"
