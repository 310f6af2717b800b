#!/usr/bin/env bash
# Runs tools/check_schema.py by a Python that has the module jsonschema, from Debian where none has it.
set -euo pipefail
cd "$(dirname "$0")/.."
has() { "$1" -c 'import jsonschema; jsonschema.Draft202012Validator' 2> /dev/null; }
python=python3
if ! has "$python"; then
    python=/usr/bin/python3
    for try in 1 2 3; do
        has "$python" && break
        apt-get update -qq && DEBIAN_FRONTEND=noninteractive apt-get install -y -qq --no-install-recommends python3-jsonschema > /dev/null || sleep 10
    done
fi
exec "$python" tools/check_schema.py "$@"
