# For times on a machine that the static library is not compiled for: the module that the kit hands to its compiler, compiled by that
# compiler for this machine, at the same level. What hosts link is the static library; this tells how its shape fares.

# native NAME: target/native/NAME/NAME.o
native() {
  local own=$PWD/target/native/$1 machine kit tools clang
  machine=$(uname -m)
  kit=$(readlink -f "$(command -v rt)")
  kit=${kit%/bin/rt}
  tools=toolchain
  clang=$kit/$tools/bin/clang
  up_to_date "$own/$1.bc" handed_over "$1"
  "$clang" --target="$machine-linux-gnu" -Wno-override-module -x ir -S -emit-llvm -Xclang -disable-llvm-passes -o - "$own/$1.bc" |
    sed 's/"target-\(cpu\|features\)"="[^"]*"//g' |
    "$clang" --target="$machine-linux-gnu" "$(grep -m 1 '^-O' "$own/$1.words")" -fPIC -c -x ir -o "$own/$1.o" -
}

# handed_over NAME: NAME.bc and NAME.words beside it, what the kit hands to its compiler: it is given one that keeps them. Proofs are
# by the kit's place, so this proves the crates anew, in a tree of its own.
handed_over() {
  local below file place tree
  place=$(mktemp -d) # outside of the checkout, where rt refuses links
  rm -rf "${own:?}"
  mkdir -p "$own" "$place/kit/$tools/bin"
  cat > "$place/kit/$tools/bin/clang" <<SCRIPT
#!/bin/sh
printf '%s\n' "\$@" > "$own/$1.words"
for word; do case \$word in *.bc) cp "\$word" "$own/$1.bc" ;; esac; done
exec "$clang" "\$@"
SCRIPT
  chmod +x "$place/kit/$tools/bin/clang"
  for below in . "$tools" "$tools/bin"; do
    for file in "$kit/$below"/*; do
      [[ -e $place/kit/$below/${file##*/} ]] || ln -s "$file" "$place/kit/$below/"
    done
  done
  # rt takes its kit from where it lies itself
  rm "$place/kit/bin"
  cp -r "$kit/bin" "$place/kit/bin"
  tree=$(mktemp -d)
  cp -r crates.txt crates "$tree"
  rm -rf "$tree"/crates/*/out
  (cd "$tree/crates/$1_c" && "$place/kit/bin/rt" lib)
  rm -rf "$tree" "$place"
}
