# What the tests and the build command make of the crates, where there is none or a crate has changed since: rt proves the crate
# each time. One at a time, since tests run beside each other and rt keeps one set of logs.

# archive NAME: target/staticlib/libNAME.a, of the crate NAME_c
archive() {
  up_to_date "target/staticlib/lib$1.a" exported "$1"
}

exported() {
  mkdir -p target/staticlib
  (cd "crates/$1_c" && rt lib) && cp "crates/$1_c/out/lib$1_c.a" "target/staticlib/lib$1.a"
}

# program NAME: target/bin/NAME
program() {
  up_to_date "target/bin/$1" compiled_program "$1"
}

# rt makes a program only by running it: here on no input. One that is not proved leaves what was made before.
compiled_program() {
  mkdir -p target/bin
  rm -f "crates/$1/out/$1"
  (cd "crates/$1" && rt run < /dev/null) && cp "crates/$1/out/$1" "target/bin/$1"
}

# up_to_date FILE COMMAND..: the file, by the command
up_to_date() {
  mkdir -p target
  (
    flock 9
    if [[ ! -f $1 || -n $(find crates.txt crates -path '*/out' -prune -o -newer "$1" -print -quit) ]]; then
      "${@:2}" > target/archive.log 2>&1 || { cat target/archive.log; exit 1; }
    fi
  ) 9> target/archive.lock
}
