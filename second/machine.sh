# Sourced by the scripts that compile C. Sets `root`, the repository's folder; `compiler`, which makes x86-64 programs; `emulator`,
# the word (or none) before one to run it; `symbols`, which lists what an archive defines and needs; `work`, a folder that goes
# when the script ends; and `archive`, that of LYRE_ARCHIVE, or else the one that `./archive` makes.
# On x86-64 gcc is all; elsewhere Debian's cross compiler and emulator are installed where they are missing.

have() {
    command -v "$1" >/dev/null 2>&1
}

install_packages() {
    echo "installing $*" >&2
    messages=$(mktemp)
    status=0
    {
        apt-get -qq update &&
            DEBIAN_FRONTEND=noninteractive apt-get -qq -y -o DPkg::Lock::Timeout=300 install --no-install-recommends "$@"
    } >"$messages" 2>&1 || status=1
    [ $status -eq 0 ] || cat "$messages" >&2
    rm -f "$messages"
    return $status
}

flags='-std=c11 -O2 -Wall -Wextra -Werror -fno-pie -no-pie'
case $(uname -m) in
x86_64)
    have gcc || install_packages gcc libc6-dev || exit 1
    compiler="gcc $flags"
    emulator=''
    symbols=nm
    ;;
*)
    cross=x86_64-linux-gnu-gcc
    have $cross && [ -f "$($cross -print-file-name=libc.a)" ] ||
        install_packages gcc-x86-64-linux-gnu libc6-dev-amd64-cross || exit 1
    have qemu-x86_64 || install_packages qemu-user || exit 1
    # The other processor's libraries are not where its loader looks, so programs carry theirs.
    compiler="$cross $flags -static"
    emulator=qemu-x86_64
    symbols=x86_64-linux-gnu-nm
    ;;
esac

root=$(cd "$(dirname "$0")/.." && pwd)
work=$(mktemp -d)
trap 'rm -rf "$work"' EXIT
archive=$(readlink -m "${LYRE_ARCHIVE:-$root/target/staticlib/liblyre.a}")

need_archive() {
    [ -f "$archive" ] || { echo "no archive at $archive (./archive makes it)" >&2; exit 2; }
}
