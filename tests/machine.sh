# For the scripts beside it: sets CC, a C compiler for x86-64, and RUN, what runs its programs here, empty where the
# machine is of that kind. Installs what is missing.

# need COMMAND PACKAGE..
need() {
    command -v "$1" >/dev/null && return
    shift
    apt-get update -qq >/dev/null
    apt-get install -y -qq "$@" >/dev/null
}

if [ "$(uname -m)" = x86_64 ]; then
    need gcc gcc libc6-dev
    CC=gcc RUN=
else
    need x86_64-linux-gnu-gcc gcc-x86-64-linux-gnu libc6-dev-amd64-cross
    need qemu-x86_64 qemu-user
    CC=x86_64-linux-gnu-gcc RUN='qemu-x86_64 -L /usr/x86_64-linux-gnu'
fi
