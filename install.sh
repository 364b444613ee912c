#!/bin/sh
# Copies the program to a folder: ./install.sh DIR
set -eu
if [ $# -ne 1 ]; then
    echo "usage: ./install.sh DIR" >&2
    exit 2
fi
program=$(dirname "$0")/b2
if [ ! -x "$program" ]; then
    echo "There is no $program yet: run ./setup.sh first." >&2
    exit 1
fi
mkdir -p "$1"
cp "$program" "$1/b2"
echo "installed $1/b2"
