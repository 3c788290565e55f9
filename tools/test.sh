#!/usr/bin/env bash
# Tests the tools beside it, without rights and without a network, in some ten seconds on an idle machine, and however
# long it takes on a busy one, up to ten minutes. What wants the program is skipped where none is built: it is $PTPUNI,
# or the one that ./ptpuni would run. The last line is 'N passed, N failed, N skipped'.
cd "$(dirname "${BASH_SOURCE[0]}")" || exit
if ! command -v python3 >/dev/null; then
    echo "skipped: python3 is missing"
    echo "0 passed, 0 failed, 1 skipped"
    exit 0
fi
# (no text here is read or written by the locale of who runs it)
exec timeout -k 5 600 env PYTHONUTF8=1 python3 -B tests/run.py
