#!/bin/sh
# Proves the crate `mogzift_c` and what it stands on, and writes its archive to target/staticlib/libmogzift.a.
set -e
cd "$(dirname "$0")/.."
(cd crates/mogzift_c && rt lib)
mkdir -p target/staticlib
cp crates/mogzift_c/out/libmogzift_c.a target/staticlib/libmogzift.a
