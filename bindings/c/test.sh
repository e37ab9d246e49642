#!/usr/bin/env bash
# Tests of the header in C and C++: bindings/c/test.sh, after 'tools/build library'; YUCCADICE_LIB_DIR=DIRECTORY for another place of the library.
set -e
cd "$(dirname "$0")/../.."
library=${YUCCADICE_LIB_DIR:-target/staticlib}/libyuccadice.a
work=$(mktemp -d)
trap 'rm -r "$work"' EXIT
gcc -std=c99 -Wall -Wextra -Werror -pedantic -Iinclude bindings/c/test.c "$library" -o "$work/c"
g++ -std=c++11 -Wall -Wextra -Werror -pedantic -Iinclude -x c++ bindings/c/test.c -x none "$library" -o "$work/c++"
g++ -std=c++11 -Wall -Wextra -Werror -pedantic -Iinclude bindings/c/vectors.cpp "$library" -o "$work/vectors"
for program in c c++ vectors; do "$work/$program"; done
# A stack of YD_STACK bytes is enough; on a small one the program ends by a signal, as the header says.
(ulimit -s 1024 && "$work/c")
status=0
bash -c 'ulimit -c 0 -s 128; "$0"; exit $?' "$work/c" >"$work/out" 2>&1 || status=$?
[ "$status" = 139 ] || { echo "on a small stack the status is $status, and not 139" >&2; exit 1; }
