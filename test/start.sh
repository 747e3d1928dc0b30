#!/usr/bin/env bash
# Runs an x86-64 program that test/cc.sh linked:
#
#     test/start.sh PROGRAM [WORDS..]
#
# On an aarch64 machine it runs under qemu-user's emulator, where a time that is
# measured says nothing.
set -euo pipefail
if [ ! -x "${1-}" ]; then
    echo "start.sh: a program is needed, and '${1-}' is none" >&2
    exit 2
fi
case "$(uname -m)" in
x86_64)
    exec "$(readlink -f "$1")" "${@:2}"
    ;;
aarch64)
    if ! command -v qemu-x86_64 >/dev/null; then
        echo "start.sh: the emulator qemu-x86_64 (of qemu-user) is not found" >&2
        exit 1
    fi
    exec qemu-x86_64 "$@"
    ;;
*)
    echo "start.sh: x86_64 or aarch64 is needed, not $(uname -m)" >&2
    exit 2
    ;;
esac
