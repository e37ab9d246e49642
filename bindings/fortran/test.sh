#!/bin/sh
# Tests of the Fortran module: bindings/fortran/test.sh, after 'tools/build library'; YUCCADICE_LIB_DIR=DIRECTORY for another place of the library.
set -e
cd "$(dirname "$0")/../.."
library=${YUCCADICE_LIB_DIR:-target/staticlib}/libyuccadice.a
work=$(mktemp -d)
trap 'rm -r "$work"' EXIT
if grep -n '.\{133\}' bindings/fortran/*.f90 examples/loop/*.f90; then
    echo 'lines above have more than 132 columns' >&2
    exit 1
fi
# Positions are exact, so the test compares reals.
gfortran -std=f2008 -Wall -Wextra -Werror -Wno-compare-reals -J"$work" bindings/fortran/yuccadice.f90 bindings/fortran/test.f90 "$library" -o "$work/test"
"$work/test"
