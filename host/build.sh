#!/bin/sh
# Proves the host call and builds its archive for C: target/staticlib/libhost.a.
set -eu
cd "$(dirname "$0")/.."
(cd crates/host_c && rt lib)
mkdir -p target/staticlib
cp crates/host_c/out/libhost_c.a target/staticlib/libhost.a
