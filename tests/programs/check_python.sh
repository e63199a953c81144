#!/bin/sh
# Builds the wheel of python/, installs it in a new environment that has nothing else, and runs python/tests there.
# Usage: sh check_python.sh LIBRARY DISK1541 (the shared library of capi/, and the built program). PYTHON names the Python to use, by default python3.
# Prints a line a test; the last one is 'N passed, N failed'. Ends with 1 if one failed.
set -eu
library=$(realpath "$1")
disk=$(realpath "$2")
root=$(realpath "$(dirname "$0")/../..")
python=${PYTHON:-python3}
work=$(mktemp -d)
trap 'rm -rf "$work"' EXIT
if ! "$python" -c 'import pip, ensurepip, sys; sys.exit(sys.version_info < (3, 9))' 2> /dev/null; then
    echo "skip  the Python package: Python 3.9 with pip and venv isn't installed"
    echo "0 passed, 0 failed"
    exit 0
fi
YELLOWADZE1541=$library "$python" -m pip wheel --quiet --no-build-isolation --no-index --no-deps -w "$work/wheels" "$root/python"
"$python" -m venv "$work/venv"
"$work/venv/bin/python" -m pip install --quiet --no-index --no-deps "$work"/wheels/*.whl
cd "$work"
unset YELLOWADZE1541 PYTHONPATH
DISK1541=$disk LIBRARY=$library PYTHONDONTWRITEBYTECODE=1 "$work/venv/bin/python" "$root/python/tests/run.py"
