#!/usr/bin/env bash
# Runs the tests of docs/RELIABILITY.md over the built program, one after another, and ends with 1 where one of them failed.
# usage: tools/reliability.sh [MINUTES]: how long tools/soak.py runs (10)
# Everything takes some minutes, and up to 1.2 GB of memory.
set -uo pipefail
cd "$(dirname "$0")/.."
failed=0
for test in "refuse_each.py" "program_faults.py --streams" "hostile.py" "stack.py --stored --hostile" "soak.py --minutes ${1-10}"; do
  echo "== tools/$test"
  # shellcheck disable=SC2086
  tools/$test || { echo "tools/$test failed"; failed=1; }
done
exit $failed
