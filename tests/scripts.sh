#!/bin/sh
# scripts.sh: shellcheck finds nothing in the shell scripts, each that is run can be, and each that takes an argument says so without one.
set -eu
cd "$(dirname "$0")/.."
scripts=$(grep -lrE '^#!(/bin/sh|/usr/bin/env bash)$' listing dump record wire bench host tests .ci | sort)
fail=0
for script in $scripts; do
    if [ ! -x "$script" ]; then
        echo "scripts: $script cannot be run as it stands: its mode lacks x"
        fail=1
    fi
done
for script in tests/cases.sh tests/sizes.sh; do
    status=0
    said=$(sh $script 2>&1) || status=$?
    case $status$said in
    2usage:*) ;;
    *)
        echo "scripts: $script without its argument ends with $status and says: $said"
        fail=1
        ;;
    esac
done
if command -v shellcheck >/dev/null; then
    # shellcheck disable=SC2086 # a script a word
    shellcheck -x $scripts host/*.sh || fail=1
    checked="clean by $(shellcheck --version | sed -n 's/^version: /shellcheck /p')"
else
    checked="shellcheck is not here"
fi
# shellcheck disable=SC2086 # a script a word
set -- $scripts
[ $# -gt 0 ] || fail=1
[ $fail -eq 0 ] && echo "scripts: all $# can be run, and say what they take; $checked"
exit $fail
