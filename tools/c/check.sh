#!/bin/sh
# Holds the C side to what mullerpink.h says, over the library that tools/c/build.sh built: in the folder that is named, or
# in build/c. It needs gcc, clang, cargo and python3; with valgrind it looks at the heap, too.
#   tools/c/check.sh [FOLDER [CALLS]]
set -eu
top=$(cd "$(dirname "$0")/../.." && pwd)
built=$(cd "${1:-$top/build/c}" && pwd)
rounds=${2:-1000000}
work=$(mktemp -d)
trap 'rm -rf "$work"' EXIT
guest=$top/bindings/guest.wasm
strict="-Wall -Wextra -Werror -pedantic"

said() {
  printf '%s\n' "$1" > "$work/wanted"
  shift
  "$@" > "$work/told"
  cmp "$work/wanted" "$work/told"
}

# The header by itself, as C11 and as C++.
printf '#include "mullerpink.h"\nint main(void) { return MULLERPINK_DONE; }\n' > "$work/header.c"
cp "$work/header.c" "$work/header.cc"
gcc -std=c11 $strict -I"$built" -o "$work/header" "$work/header.c"
g++ -std=c++11 $strict -I"$built" -o "$work/header" "$work/header.cc"

# The example, linked with the static library.
gcc -std=c11 -O2 $strict -I"$built" -o "$work/example" "$top/bindings/c/example.c" "$built/libmullerpink.a"
said "84 / 2: ok values i32:42
84 / 0: trap IntegerDivisionByZero
forever: trap OutOfFuel
missing: code 6
a call: 42" "$work/example" "$guest"

# All calls: by gcc, by clang with its sanitizers over the C side, which keep little of what was freed, since memory is counted,
# and under valgrind.
gcc -std=c11 -O2 $strict -I"$built" -o "$work/calls" "$top/tools/c/calls.c" "$built/libmullerpink.a" -lpthread
"$work/calls" "$guest" "$rounds"
clang -std=c11 -O1 -g $strict -fsanitize=address,undefined -fno-sanitize-recover=all -I"$built" -o "$work/sane" \
  "$top/tools/c/calls.c" "$built/libmullerpink.a" -lpthread
ASAN_OPTIONS=quarantine_size_mb=1:thread_local_quarantine_size_kb=64 "$work/sane" "$guest" 1000
if command -v valgrind > /dev/null; then
  valgrind --quiet --leak-check=full --error-exitcode=9 "$work/example" "$guest" > /dev/null
fi

# The shared object, from Python; and the static library, from Rust.
export MULLERPINK_LIB="$built"
(cd "$top/bindings/python" && python3 -m unittest --quiet)
said "84 / 2: ok values i32:42
84 / 0: trap IntegerDivisionByZero
forever: trap OutOfFuel
a call: trap IntegerDivisionByZero" python3 "$top/bindings/python/example.py" "$guest"
(cd "$top/bindings/rust" && CARGO_TARGET_DIR="$work/rust" cargo test --offline --quiet)
said "84 / 2: ok values i32:42
84 / 0: trap IntegerDivisionByZero
forever: trap OutOfFuel
a call: trap IntegerDivisionByZero" env CARGO_TARGET_DIR="$work/rust" cargo run --offline --quiet \
  --manifest-path "$top/bindings/rust/Cargo.toml" --example host -- "$guest"
echo "all as mullerpink.h says"
