#!/usr/bin/env bash
# SPDX-License-Identifier: Apache-2.0
# Compares the built programs with the slow one: run.sh COUNT SEED. README.md has the options.
set -eu
exec python3 -B "$(dirname "$0")/compare.py" "$@"
