#!/usr/bin/env bash
# Compares under valgrind, in buffers of just their length: an access past an end is an error. The program is
# `blocks`, for blocks at any place and for add and remove, `rundowns`, for whole plays, or `dearest`, for the dearest panels.
#
#     ./valgrind.sh PROGRAM [COUNT] [SEED]
set -eu
cd "$(dirname "${BASH_SOURCE[0]}")"
cargo build --quiet --release --locked --offline -p "$1"
exec valgrind --quiet --error-exitcode=9 "${CARGO_TARGET_DIR:-target}/release/$1" exact "${2:-2000}" "${3:-1}"
