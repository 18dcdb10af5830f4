#!/bin/sh
# Runs the tests of the tools and of the program from end to end, and ends with their status. Without
# Python 3.10 or later nothing runs; without the toolchain's rt the program's tests are skipped.
cd "$(dirname "$0")/.." || exit 1
if ! command -v python3 >/dev/null 2>&1; then
    echo "tools: python3 is missing, the tools' tests are skipped"
    exit 0
fi
if ! python3 -c 'import sys; sys.exit(sys.version_info < (3, 10))'; then
    echo "tools: python3 is older than 3.10, the tools' tests are skipped"
    exit 0
fi
PYTHONDONTWRITEBYTECODE=1 python3 -m tests
status=$?
if [ "$status" -eq 0 ]; then
    echo "tools: the tests passed"
else
    echo "tools: the tests failed"
fi
exit "$status"
