#!/usr/bin/env bash
# make install and make uninstall: the archive as libgwo.a, its headers, a file for pkg-config, gwo with the program behind gwo rewrite, and its manual
# page.
#   host/gwo/install.sh install|uninstall
# PREFIX is where to (/usr/local), DESTDIR a folder to put before it, as packagers do it; both are taken from the environment.
set -eu
what=$1
cd "$(dirname "$0")/../.."
prefix=${PREFIX:-/usr/local}
case $prefix in
/*) ;;
*) prefix=$PWD/$prefix ;;
esac
to=${DESTDIR:-}$prefix
version=$(sed -n 's/^#define GWO_VERSION "\(.*\)"$/\1/p' host/include/gwo.h)

# Everything that is put there, below the prefix.
files() {
    printf '%s\n' bin/gwo include/gwo.h include/gwo_older.h lib/libgwo.a lib/pkgconfig/gwo.pc share/man/man1/gwo.1 libexec/gwo/gwo-rewrite libexec/gwo/gwo.x86-64 libexec/gwo/run_rewrite
}

# A blank in the prefix is marked, as pkg-config wants it.
pkg_config() {
    cat <<END
prefix=$(printf '%s' "$prefix" | sed 's/[ \\]/\\&/g')
includedir=\${prefix}/include
libdir=\${prefix}/lib

Name: gwo
Description: The serial flash chips KH25L512, KH25L2006E and KH25L12845G as a proved model, for firmware in C (x86-64)
Version: $version
Cflags: -I\${includedir}
Libs: -L\${libdir} -lgwo
END
}

# in_emulator HOW PROGRAM NAME: what starts it where it is no code of this machine; HOW is tools/host.sh's word.
in_emulator() {
    cat <<END
#!/bin/sh
# $3 on a machine that is not x86-64: the program runs in an emulator (the packages qemu-user and libc6-amd64-cross).
here=\$(dirname "\$(readlink -f "\$0")")
exec $(tools/host.sh emulator "$1") "\$here/$2" "\$@"
END
}

put() {
    install -D -m "$1" "$2" "$to/$3"
}

install_all() {
    if [ "$(tools/gwo.sh behind)" != archive ]; then
        echo "make install: what is installed stands over the proved archive; here gwo stands over the independent model (tools/gwo.sh)" >&2
        exit 2
    fi
    tools/gwo.sh build 'make install'
    put 644 target/staticlib/libpod.a lib/libgwo.a
    put 644 host/include/gwo.h include/gwo.h
    put 644 host/include/gwo_older.h include/gwo_older.h
    put 644 host/gwo/gwo.1 share/man/man1/gwo.1
    pkg_config | put 644 /dev/stdin lib/pkgconfig/gwo.pc
    if [ "$(tools/host.sh machine)" = native ]; then
        put 755 build/gwo bin/gwo
        put 755 target/bin/run_rewrite libexec/gwo/gwo-rewrite
    else
        put 755 build/gwo.x86-64 libexec/gwo/gwo.x86-64
        in_emulator run ../libexec/gwo/gwo.x86-64 gwo | put 755 /dev/stdin bin/gwo
        put 755 target/bin/run_rewrite libexec/gwo/run_rewrite
        in_emulator program run_rewrite 'The program behind gwo rewrite' | put 755 /dev/stdin libexec/gwo/gwo-rewrite
    fi
    echo "make install: gwo $version is in $to"
}

uninstall_all() {
    local file
    files | while IFS= read -r file; do rm -f "$to/$file"; done
    [ ! -d "$to/libexec/gwo" ] || rmdir --ignore-fail-on-non-empty "$to/libexec/gwo"
    echo "make uninstall: gwo is no longer in $to"
}

case $what in
install) install_all ;;
uninstall) uninstall_all ;;
*) echo "host/gwo/install.sh: install or uninstall" >&2; exit 2 ;;
esac
