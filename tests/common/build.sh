# shellcheck shell=bash
# Sourced by tests/run, bench/run and bench/compare, from the repository's root: builds the Rust that they share.
# Everything goes to target/rust.
out=target/rust
flags=(--edition 2024 -C opt-level=3 -C codegen-units=1 -D warnings --check-cfg 'cfg(library, flint)' --out-dir "$out" -L "$out")
mkdir -p "$out"

# quietly COMMAND..: what it says is shown where it fails
quietly() {
  if ! "$@" >"$out/quietly.log" 2>&1; then
    cat "$out/quietly.log"
    exit 1
  fi
}

# rt_in CRATE WORD..: a command of rt, which works in a crate's folder
rt_in() (
  cd "crates/$1" || exit
  shift
  rt "$@"
)

# Writes the archive over the libraries that 'rt ci' has just left in a clean checkout, in the time of one check: 'rt lib' takes none
# that 'rt ci' built, and would prove all below capi once more. This is its last step, in words of 'rattle build --help'.
archive_over_proved() (
  cd crates/capi || exit
  kit=$(dirname "$(rt doc)")
  read -ra named < <(sed -nE 's/^capi +staticlib *:([^#]*).*/\1/p' ../../crates.txt)
  words=(--crate-name capi src/lib.rt --crate-type staticlib --extern "std=$kit/rlibs/std.rlib" -L "dependency=$kit/rlibs" --links capi=)
  for name in "${named[@]}"; do
    words+=(--extern "$name=../$name/out/rlib/$name.rlib")
  done
  for folder in ../*/out/rlib; do
    words+=(-L "dependency=$folder")
  done
  words+=(--antt-project "$kit/rattle/logic/antt-project.json" --logic-built "$kit/logic_built" --toolchain "$kit/toolchain" --backend llvm)
  mkdir -p out
  "$kit/bin/rattle" build "${words[@]}" --jobs "$(nproc)" -o out/libcapi.a
)

# Proves the library, writes its archive and has the programs link it.
archive=crates/capi/out/libcapi.a
with_library() {
  echo "proving the library and writing its archive .."
  rm -f "$archive"
  if [ -z "${proved-}" ] || ! archive_over_proved >"$out/archive.log" 2>&1; then
    quietly rt_in capi lib
  fi
  flags+=(--cfg library)
  compile_c tests/common/header.c
  linked+=(-C "link-arg=$archive")
}

# Proves and builds the program, which is then crates/tomkhadi/out/tomkhadi: 'rt run' leaves it there, as 'rt ci' does.
with_program() {
  echo "proving and building the program .."
  if [ -z "${proved-}" ] || [ ! -x crates/tomkhadi/out/tomkhadi ]; then
    quietly rt_in tomkhadi run </dev/null
  fi
}

# compile_program NAME SOURCE: the program, over what tests and benchmarks share, with all that is in 'linked'
linked=()
compile_program() {
  rustc "${flags[@]}" --crate-type rlib --crate-name common tests/common/lib.rs
  rustc "${flags[@]}" --crate-type rlib --crate-name plain --extern common bench/src/plain.rs
  rustc "${flags[@]}" "${linked[@]}" --crate-name "$1" --extern common --extern plain "$2"
}

# compile_c SOURCE: an object that the program links
compile_c() {
  local object
  object=$out/$(basename "$1" .c).o
  gcc -std=c11 -Wall -Wextra -Werror -O2 -Iinclude -c "$1" -o "$object"
  linked+=(-C "link-arg=$object")
}

# program_c SOURCE: a program over the library
program_c() {
  gcc -std=c11 -Wall -Wextra -Werror -pedantic -O2 -Iinclude "$1" "$archive" -o "$out/$(basename "$1" .c)"
}
