#!/bin/sh
# Runs the loop in Python, C and Fortran: each must make samples/plate.mesh, byte for byte, and all three print the same.
#   examples/loop/test.sh     after 'tools/build library' and bindings/build-shared; YUCCADICE_LIB_DIR=DIRECTORY for another place of the library
set -e
cd "$(dirname "$0")/../.."
library=${YUCCADICE_LIB_DIR:-target/staticlib}/libyuccadice.a
work=$(mktemp -d)
trap 'rm -r "$work"' EXIT
gcc -Wall -Wextra -Werror -Iinclude examples/loop/loop.c "$library" -lm -o "$work/loop-c"
gfortran -std=f2008 -Wall -Wextra -Werror -J"$work" bindings/fortran/yuccadice.f90 examples/loop/loop.f90 "$library" -o "$work/loop-fortran"
python3 examples/loop/loop.py "$work/python.mesh" >"$work/python.out"
"$work/loop-c" "$work/c.mesh" >"$work/c.out"
"$work/loop-fortran" "$work/fortran.mesh" >"$work/fortran.out"
cat "$work/python.out"
for language in python c fortran; do
    cmp "$work/$language.mesh" samples/plate.mesh
    cmp "$work/$language.out" "$work/python.out"
done
echo ok
