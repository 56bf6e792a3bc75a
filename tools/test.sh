#!/usr/bin/env bash
# Tests of bin/cvc-kit and of the words of bin/cvc. Without python3 there is nothing to run them with, and they are skipped.
cd "$(dirname "$0")" || exit 1
command -v python3 >/dev/null || { echo 'tools/test.sh: skipped, there is no python3'; exit 0; }
exec python3 -B -m unittest discover -s tests -q
