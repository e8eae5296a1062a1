# Programs in C over an archive of rt's, which is for x86-64. To be sourced, with tests/need.sh before it.
# x86_cc ARGS.., x86_cxx ARGS..: compiles C, or C++, for x86-64, with Debian's cross compiler where the machine is another.
# x86_run PROGRAM WORDS..: runs such a program, under the kit's own emulator where the machine is another.
if [ "$(uname -m)" = x86_64 ]; then
  x86_cc() {
    need gcc gcc
    gcc "$@"
  }
  x86_cxx() {
    need g++ g++
    g++ "$@"
  }
  x86_run() { "$@"; }
else
  x86_kit=$(dirname "$(dirname "$(readlink -f "$(command -v rt)")")")
  x86_emulator=$x86_kit/on/$(uname -m)/toolchain/bin/qemu-x86_64
  x86_cc() {
    need x86_64-linux-gnu-gcc gcc-x86-64-linux-gnu
    x86_64-linux-gnu-gcc -static "$@"
  }
  x86_cxx() {
    need x86_64-linux-gnu-g++ g++-x86-64-linux-gnu
    x86_64-linux-gnu-g++ -static "$@"
  }
  x86_run() { "$x86_emulator" "$@"; }
fi

# taken MADE FILE: what rt made, under target/. Whoever runs FILE meanwhile keeps the one that was there.
taken() {
  mkdir -p "$(dirname "$2")"
  cp "$1" "$2.new"
  mv "$2.new" "$2"
}
# stale FILE: it is missing or older than a source. What rt makes lies in crates/NAME/out, and changes the folder crates/NAME itself.
stale() {
  [ ! -e "$1" ] || [ -n "$(find crates crates.txt -regex 'crates/[^/]*/out' -prune -o -newer "$1" ! -regex 'crates/[^/]*' -print -quit)" ]
}
# by_rt FILE CRATE RT-WORD: FILE, proved and made by this rt command in the crate's folder, where it is stale. To be called at the project's root.
by_rt() {
  local file=$1 made said
  stale "$file" || return 0
  made=crates/$2/out/${file##*/}
  rm -f "$made" # so that it is of this call if it is there behind it
  said=$(cd "crates/$2" && rt "$3" 2>&1 </dev/null) || :
  [ -e "$made" ] || {
    printf '%s\n' "$said" >&2
    exit 1
  }
  taken "$made" "$file"
}

# archive CRATE: target/staticlib/libCRATE.a. proved_program CRATE: target/bin/CRATE.
# No word of rt builds a program and does not run it: it runs once, on no words and no input, and rt ends as it does.
archive() { by_rt "target/staticlib/lib$1.a" "$1" lib; }
proved_program() { by_rt "target/bin/$1" "$1" run; }
