# What the scripts of this folder have in common; to be read by them.
# shellcheck shell=bash disable=SC2034
CROSS=sparc64-linux-gnu-
# Where build_library puts what it builds.
LIBRARY=${XM_LIBRARY:-${XDG_CACHE_HOME:-$HOME/.cache}/xm_run-library}
# Debian's packages with the sources.
NEWLIB=/usr/src/newlib/newlib-3.3.0.tar.xz
GCC=/usr/src/gcc-12/gcc-12.2.0-dfsg.tar.xz

stop() {
    printf '%s: %s\n' "${0##*/}" "$1" >&2
    exit 1
}
