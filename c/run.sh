#!/bin/sh
# run.sh PROGRAM ARGS..: runs an x86-64 program of ours, natively, or elsewhere under the machine's own emulator, qemu-x86_64, over the
# Rattle kit's C library.
set -eu
if [ "$(uname -m)" = x86_64 ]; then
    exec "$@"
fi
. "$(dirname "$0")/kit.sh"
exec qemu-x86_64 "$kit_tools/lib/ld-linux-x86-64.so.2" --library-path "$kit_tools/lib" "$@"
