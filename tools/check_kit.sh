#!/usr/bin/env bash
# Checks the package of the command `vuthrel`: mypy(1) --strict and pylint(1) find nothing in it and in its tests, and
# these hold, over a fake of geli. Status 1 if something was found; what isn't installed is told, and not tried.
#
#   tools/check_kit.sh
unset CDPATH # by which `cd` goes to another folder, and says so
cd "$(dirname "$(readlink -f "${BASH_SOURCE[0]}")")/../kit" || exit 2
status=0
export PYTHONPATH=.:tests MYPYPATH=.:tests
if command -v mypy >/dev/null; then
    mypy --strict --no-incremental --cache-dir=/dev/null -p vuthrel && mypy --strict --cache-dir=/dev/null tests/*.py ||
        status=1
else
    echo 'mypy: not here, so no type was looked at'
fi
if command -v pylint >/dev/null; then
    pylint --rcfile=pylintrc --score=n vuthrel tests/*.py && echo 'pylint: nothing found' || status=1
else
    echo 'pylint: not here'
fi
for python in python3 /usr/bin/python3 ''; do
    "${python:-true}" -c 'import pytest' 2>/dev/null && break
done
if [ -n "$python" ]; then
    "$python" -B -m pytest -q -p no:cacheprovider tests || status=1
else
    echo 'pytest: not here, so no test was run'
fi
exit $status
