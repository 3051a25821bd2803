# shellcheck shell=sh
# For run, kills and signatures, which stand in this folder: builds the demonstration.
demo=$(cd "$(dirname "$0")" && pwd)
host=$demo/..
out=demo
. "$host/common.sh"
cc=${CC:-cc}

has_headers() {
    printf '#include <stdio.h>\n#include <openssl/evp.h>\n#if OPENSSL_VERSION_NUMBER < 0x30000000L\n#error\n#endif\n' |
        "$cc" -E -x c - >/dev/null 2>&1
}

need_compiler() {
    need "$cc" gcc libc6-dev
    has_headers || install_packages libssl-dev libc6-dev
}

compile() {
    "$cc" -std=c11 -Wall -Wextra -Werror -pedantic -O2 -I"$repository/host/include" "$@"
}

build_demo() {
    need_compiler
    build_token
    (
        cd "$demo"
        shared="fail.c tlv.c commands.c keys.c token.c records.c store.c"
        # shellcheck disable=SC2086
        compile -o "$out/demo" demo.c edges.c afternoon.c terminal.c server.c archive.c show.c $shared "$library" -lcrypto
        # shellcheck disable=SC2086
        compile -o "$out/table_check" table_check.c $shared "$library" -lcrypto
        compile -o "$out/kill_at.so" -shared -fPIC kill_at.c -ldl
    )
}
