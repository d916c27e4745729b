# SPDX-License-Identifier: Apache-2.0
# What those of the press commands share that are written for the shell. It is read by them, with `here` being the folder press.
# shellcheck shell=bash

name=press-$(basename "$0")

# The statuses of python/press/errors.py.
usage=2 no_tool=3 input=4 output=8

say() { printf '%s: %s\n' "$name" "$1" >&2; }

# refuse STATUS LINE
refuse() { say "$2"; exit "$1"; }

# need TOOL PACKAGE
need() { command -v "$1" >/dev/null || refuse "$no_tool" "$1 is not there (Debian: apt install $2)"; }

# Prints the comment at the head of the command, and the statuses.
help() {
  sed -n '2,/^$/{s/^# \{0,1\}//;p}' "$0"
  sed -n '/^STATUSES = /,/^"""/{s/^STATUSES = """//;/^"""/d;p}' "$here/../python/press/errors.py"
}

# Prints the project's version, which is next to the folder press.
version() { printf '%s (trap) %s\n' "$name" "$(cat "$here/../VERSION")"; }
