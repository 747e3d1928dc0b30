#!/usr/bin/env bash
# Runs a program that test/build.sh built:
#
#     test/run.sh NAME [WORDS..]
#
# test/start.sh says how it is run.
set -euo pipefail
top="$(dirname "$(dirname "$(readlink -f "${BASH_SOURCE[0]}")")")"
case "${1-}" in
scope | differential | vectors | errors | bench) ;;
*)
    echo "run.sh: a name is needed: scope, differential, vectors, errors or bench, not '${1-}'" >&2
    exit 2
    ;;
esac
program="$top/target/test/$1"
if [ ! -x "$program" ]; then
    echo "run.sh: target/test/$1 is not there; test/build.sh builds it" >&2
    exit 2
fi
shift
exec "$top/test/start.sh" "$program" "$@"
