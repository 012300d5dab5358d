#!/bin/bash
# Proves and builds the sheet programs and runs them on inputs and outputs that the gate does not give them, from the
# repository root:
#   bash tests/programs.sh
set -eu
bash tests/program.sh stroke_sheet key_totals
exec python3 tests/programs.py target/bin
