#!/usr/bin/env bash
# Runs a C compiler that makes x86-64 programs, for which the library is code:
#
#     test/cc.sh WORDS..
#
# On x86-64 it is cc, or the one that CC names. On an aarch64 machine it is
# Debian's cross compiler, which is installed if it is missing; what it links
# is static, and test/start.sh runs it under an emulator.
set -euo pipefail
case "$(uname -m)" in
x86_64)
    exec "${CC:-cc}" "$@"
    ;;
aarch64)
    cross=x86_64-linux-gnu-gcc
    packages=(gcc-x86-64-linux-gnu libc6-dev-amd64-cross)
    if ! echo 'int main(void) { return 0; }' | "$cross" -static -x c -o /dev/null - 2>/dev/null; then
        apt-get install -y --no-install-recommends "${packages[@]}" ||
            { apt-get update && apt-get install -y --no-install-recommends "${packages[@]}"; }
    fi
    exec "$cross" -static "$@"
    ;;
*)
    echo "cc.sh: x86_64 or aarch64 is needed, not $(uname -m)" >&2
    exit 2
    ;;
esac
