#!/usr/bin/env bash
# Runs the checks of the pages, each of which says what it finds; status 1 if one found something. Outside the gate.
# The links are looked at in the tree, and in the pages as ./install puts them (packaging/docs), which needs no build.
# With shellcheck(1) the scripts are looked at too.
#
#   tools/check_docs.sh
#   tools/check_docs.sh PREFIX      what ./install put there: its links, and its versions beside those of the tree
prefix=${1:-}
case $prefix in '' | /*) ;; *) prefix=$PWD/$prefix ;; esac
cd "$(dirname "$(readlink -f "${BASH_SOURCE[0]}")")" || exit 2
status=0
if [ -n "$prefix" ]; then
    ./versions.py "$prefix" || status=1
    ./check_links.py "$prefix/share/doc/geli" || status=1
    exit $status
fi
./versions.py || status=1
./check_pages.py || status=1
./check_links.py || status=1
installed=$(mktemp -d)
trap 'rm -rf "$installed"' EXIT
../packaging/docs "$installed" >/dev/null || status=1
if ! found=$(./check_links.py "$installed"); then
    status=1
    while IFS= read -r line; do echo "as installed: $line"; done <<<"$found"
fi
for check in definitions names_twice page_numbers format_numbers pictures format_pictures gate_times verbs case_files; do
    "./$check.py" --check || status=1
done
cd ..
if command -v shellcheck >/dev/null; then
    mapfile -t scripts < <(grep -slE '^#!.*sh$|^# shellcheck shell=' -- * {.ci,completions,examples,packaging,tools}/*)
    if shellcheck -x -P examples -P . -S warning "${scripts[@]}"; then
        echo "shellcheck: 0 found in ${#scripts[@]} scripts"
    else
        status=1
    fi
else
    echo 'shellcheck: not here, so no script was looked at'
fi
exit $status
