# What the tests install from Debian's packages.

# install PACKAGE..: the packages, with the lists fetched first where that is needed
install() {
  apt-get install -y --no-install-recommends "$@" >/dev/null 2>&1 && return
  apt-get update >/dev/null && apt-get install -y --no-install-recommends "$@" >/dev/null
}

# need COMMAND PACKAGE..: the packages, unless the command is there
need() {
  command -v "$1" >/dev/null || install "${@:2}"
}

# Sets PYTHON for the second program: one that has the package `cryptography`.
need_python() {
  PYTHON=python3
  "$PYTHON" -c 'import cryptography' 2>/dev/null && return
  install python3 python3-cryptography
  PYTHON=/usr/bin/python3
}
