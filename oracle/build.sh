#!/bin/sh
# Builds the Rust's program from nalgebra 0.35.0's own seven files, which are not kept here: their checksums are.
#   SPARSE_SRC    the folder src/sparse of nalgebra 0.35.0 (default: ../shared/docs/src/src/sparse beside this repository)
#   ORACLE_BUILD  where to build (default: target/oracle)
# Writes the path of the program. A text that is not nalgebra's is refused.
set -eu
here=$(cd "$(dirname "$0")" && pwd)
src=${SPARSE_SRC:-$here/../../shared/docs/src/src/sparse}
out=${ORACLE_BUILD:-$here/../target/oracle}
rm -rf "$out"
mkdir -p "$out/crate/sparse"
(cd "$src" && sha256sum --quiet -c "$here/SHA256SUMS")
cp "$here"/num.rs "$here"/simba.rs "$here"/src/*.rs "$out/crate/"
while read -r _ file; do cp "$src/$file" "$out/crate/sparse/$file"; done <"$here/SHA256SUMS"
cat "$here/accessors.rs" >>"$out/crate/sparse/cs_matrix_cholesky.rs"
cd "$out"
build="rustc --edition 2024 -C opt-level=2 --cap-lints allow"
$build --crate-type rlib --crate-name num crate/num.rs -o libnum.rlib
$build --crate-type rlib --crate-name simba crate/simba.rs -o libsimba.rlib
$build --crate-name oracle crate/main.rs --extern num=libnum.rlib --extern simba=libsimba.rlib -o oracle
echo "$out/oracle"
