# For tests that link a C host with our static libraries or run our programs, which the kit compiles for x86-64: sets CC and RUN for this machine.
. tests/packages.sh

case $(uname -m) in
  x86_64)
    need cc gcc libc6-dev
    CC=cc RUN=
    ;;
  *)
    need x86_64-linux-gnu-gcc gcc-x86-64-linux-gnu libc6-dev-amd64-cross
    need qemu-x86_64 qemu-user
    CC=x86_64-linux-gnu-gcc RUN="qemu-x86_64 -L /usr/x86_64-linux-gnu"
    ;;
esac

# Sets CXX for a host in C++.
need_cxx() {
  case $(uname -m) in
    x86_64)
      need c++ g++
      CXX=c++
      ;;
    *)
      need x86_64-linux-gnu-g++ g++-x86-64-linux-gnu
      CXX=x86_64-linux-gnu-g++
      ;;
  esac
}
