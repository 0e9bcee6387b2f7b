#!/usr/bin/env bash
# after-a-power-failure.sh: says what a provider is like after a crash, and what to do. It changes nothing.
#
#   after-a-power-failure.sh [-p] [-j PASSFILE] [-k KEYFILE]... IMAGE
#
# It is an older name of `vuthrel check`, with the same options: `vuthrel check -h` says more.
#
# With authentication (-a of geli init), what can't be read may be more than what was being written. A logical sector of
# 4,096 bytes is nine device sectors. If the disk tears one of them, in which 512 bytes are partly old and partly new,
# the whole logical sector can't be read, nor what it held before the last flush: appending a line to a file rewrites
# the bytes before it. A repair by e2fsck writes zeros there ("Force rewrite?"). In a trial a torn superblock of an
# ext4's journal cost 50 files that had been fsynced. So copy the image first. Sectors of 512 bytes (-s 512) lose less
# beside the torn one; most disks don't tear, and there, or without -a, no flushed data was lost in any trial.
set -euo pipefail
# shellcheck source=lib.sh
. "$(dirname -- "$(readlink -f -- "${BASH_SOURCE[0]}")")/lib.sh"

go_on_as check "$@"
