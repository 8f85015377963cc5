# For the test of a library beside the gate's, tests/NAME/run: its header include/NAME.h, its C hosts in tests/NAME, and its calls by the
# second program. The test sets `name` first, and defines `constants`, which prints what the second program has for the header's.
. tests/host.sh
. tests/archive.sh
. tests/counting.sh
need_cxx
need_python
need pkg-config pkg-config
need x86_64-linux-gnu-nm binutils-x86-64-linux-gnu
out=target/tests/$name
library=target/staticlib/lib$name.a
warnings="-Wall -Wextra -pedantic -Wconversion -Werror"

# ---- The library and its header

# symbols FLAG..: the names that nm tells of the library
symbols() {
  x86_64-linux-gnu-nm "$@" "$library" | sed -n 's/^[0-9a-f ]* [A-Za-z] //p' | sort -u
}

needs_copying_alone() {
  comm -23 <(symbols --undefined-only) <(symbols --defined-only --extern-only) > "$out/needed" || return
  ! grep -Evx 'memcpy|memmove|memset' "$out/needed"
}

# header STANDARD COMPILER..: the header in one language
header() {
  local program=$out/header-$1
  expect "$name.h compiles as $1 by ${2##*/}, with no warning" \
    ${@:2} -std="$1" $warnings -O1 -Iinclude -o "$program" "tests/$name/header.c" -x none "$library"
  tally "$name.h as $1" $RUN "$program"
}

same_constants() {
  diff <(constants) <($RUN "$out/header-c99" constants)
}

headers() {
  header c99 $CC
  header c11 $CC
  header c++17 $CXX -x c++
  if [[ $(uname -m) == x86_64 ]] && command -v clang > /dev/null; then header c99 clang; fi
  expect "$name.h has the second program's sizes and its last number" same_constants
}

# ---- The host

host() {
  $CC -std=c99 $warnings -O1 -Iinclude "tests/$name/host.c" "$@"
}

# noticed PLACE CALL FAULT: a library with this fault in this call, by the host
noticed() {
  local status=0
  host -D"IN_${2^^}=$3" -o "$out/faulty" "tests/$name/faulty.c" || return
  sed "/^$2 /q" "$out/calls" > "$out/one"
  $RUN "$out/faulty" "$1" "$out/one" > "$out/got" 2> "$out/said" || status=$?
  [[ $status -eq 1 ]] && grep -q 'is not allowed' "$out/said"
}

# refused FILE WHY: a call file ends the host with status 2 and this message
refused() {
  local status=0
  $RUN "$out/host" end "$1" > "$out/got" 2> "$out/said" || status=$?
  cat "$out/got" "$out/said"
  [[ $status -eq 2 && ! -s $out/got && $(< "$out/said") == "$2" ]]
}

# malformed LINE WHY: a file of this line alone
malformed() {
  printf '%s\n' "$1" > "$out/malformed"
  expect "the host refuses '$1'" refused "$out/malformed" "line 1: $2"
}

# ---- Calls

# shorten COUNT: the first calls, as first/calls and so on
shorten() {
  mkdir -p "$out/first"
  for file in calls.names answers; do sed "$1q" "$out/$file" > "$out/first/$file"; done
  awk -v count="$1" '!/^(state|out) / && ++calls > count { exit } { print }' "$out/calls" > "$out/first/calls"
}

declare -A on=([end]="before protected memory" [begin]="behind protected memory" [heap]="on the heap")

# play PLACE FOLDER [COMMAND..]: its calls, by the host under the command
play() {
  local status=0
  "${@:3}" "$out/host" "$1" "$2/calls" > "$out/got" 2> "$out/said" || status=$?
  cat "$out/said"
  expect "the host plays ${2##*/}/calls, each run ${on[$1]}${3:+, under $3}" test "$status" = 0
  tally "its answers" "$PYTHON" -B tests/second compare --calls "$2/calls" --expected "$2/answers" --got "$out/got"
}

# played COUNT: the calls in each place, the first so many on the heap
played() {
  play end "$out" $RUN
  play begin "$out" $RUN
  if [[ $(uname -m) == x86_64 ]]; then
    need valgrind valgrind libc6-dbg
    shorten "$1"
    play heap "$out/first" valgrind -q --error-exitcode=9
  fi
}

# ---- The pages

# block PAGE HEADING NUMBER: an indented block under a heading, without its indentation
block() {
  awk -v heading="## $2" -v wanted="$3" '
    /^#/ { under = $0 == heading; inside = 0 }
    under && /^    / { number += !inside; inside = 1 }
    under && /^[^ ]/ { inside = 0 }
    inside && number == wanted { print substr($0, 5) }' "$1"
}

# prints PAGE HEADING FLAG..: the first block under the heading, compiled so, prints what the second says
prints() {
  local program=$out/$(basename "$1" .md)
  block "$1" "$2" 1 > "$program.c"
  $CC -std=c99 $warnings -O1 -o "$program" "$program.c" "${@:3}" && $RUN "$program" > "$program.printed" || return
  diff -B <(block "$1" "$2" 2) <(tr -d '\r' < "$program.printed")
}

moved() {
  ./build "$out/built" && mv "$out/built" "$out/prefix"
}

# prints_by_pkg_config HEADING: README.md's program
prints_by_pkg_config() {
  local flags
  flags=$(PKG_CONFIG_PATH=$out/prefix/lib/pkgconfig pkg-config --cflags --libs "$name") || return
  prints README.md "$1" $flags
}
