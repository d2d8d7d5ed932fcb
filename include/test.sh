#!/bin/sh
# Compiles test.c as C99 and as C++11, each without a warning, and runs both. It needs the archive:
# `sh tools/archive.sh` writes it, or MOGZIFT_LIB names the folder that holds it.
set -e
here=$(cd "$(dirname "$0")" && pwd)
archive=${MOGZIFT_LIB:-$here/../target/staticlib}/libmogzift.a
made=$(mktemp -d)
trap 'rm -r "$made"' EXIT

gcc -std=c99 -Wall -Wextra -Wpedantic -Werror "$here/test.c" "$archive" -o "$made/c"
printf 'C99: '
"$made/c"
g++ -std=c++11 -Wall -Wextra -Wpedantic -Werror -x c++ "$here/test.c" -x none "$archive" -o "$made/cpp"
printf 'C++11: '
"$made/cpp"
