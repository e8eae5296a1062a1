# A proved program and the second program on the same streams. To be sourced at the project's root.
export LC_ALL=C
. tests/need.sh
. tests/x86.sh

# compared PROGRAM SCRIPT WORDS..: proves and builds PROGRAM where that is to do; SCRIPT gets it, the second program and WORDS.
compared() {
  local name=$1 script=$2
  shift 2
  need python3 python3
  room=$(mktemp -d)
  trap 'rm -rf "$room"' EXIT
  (cd second && cargo build --release --offline --quiet)
  proved_program "$name"
  printf '#!/bin/sh\nexec %s "%s" "$@"\n' "${x86_emulator:+"\"$x86_emulator\""}" "$PWD/target/bin/$name" >"$room/program"
  chmod +x "$room/program"
  python3 "$script" "$room/program" second/target/release/second "$@"
}
