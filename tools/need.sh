# need COMMAND [PACKAGE]: sees that a command is there, and installs its Debian package where it is not. The package has the command's name
# unless it is given.
need() {
    command -v "$1" >/dev/null 2>&1 && return
    if [ "$1" = rt ]; then
        echo "The Rattle kit is not on this machine: its command rt must be on the PATH." >&2
        exit 2
    fi
    install_package "${2:-$1}"
}

# install_package PACKAGE: installs a Debian package.
install_package() {
    echo "Installing $1, a Debian package." >&2
    apt_get update && apt_get install -y "$1"
}

# apt_get WORD...: apt-get, which waits, ten minutes at most, while another process holds one of the package system's locks. What it says
# is told where it fails.
apt_get() {
    local said turn
    for turn in $(seq 120); do
        said=$(LC_ALL=C apt-get -qq -o DPkg::Lock::Timeout=600 "$@" 2>&1) && return
        case $said in
            *"Could not get lock"* | *"Unable to lock"*) sleep 5 ;;
            *) break ;;
        esac
    done
    echo "$said" >&2
    return 1
}

# need_x86_compiler: sees that a C compiler for x86-64 is there, and names it in `compiler`.
need_x86_compiler() {
    if [ "$(uname -m)" = x86_64 ]; then
        compiler=gcc
        need gcc
    else
        compiler=x86_64-linux-gnu-gcc
        need x86_64-linux-gnu-gcc gcc-x86-64-linux-gnu
    fi
}
