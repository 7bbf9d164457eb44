#!/usr/bin/env bash
# Builds crates/replay_host/out/replay_host: `replay` with packet memory of any length, lent by a host in C. What the library `replay_host` calls is taken
# as `rt check` left it on this machine, and else proved again: `rt lib` takes nothing from `rt ci`.
set -eu
cd "$(dirname "$0")/.."

# The archive calls a few C functions, which the kit has beside it.
kit=$(dirname "$(rt doc)")
out=crates/replay_host/out
(cd crates/replay_host && rt lib)
cc -std=c11 -O2 -Wall -Wextra -Werror -o $out/replay_host tools/replay_host.c $out/libreplay_host.a "$kit/c/libos_c.a" "$kit/c/liblibc_c.a"
