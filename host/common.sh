# shellcheck shell=sh
# For the scripts below this folder: installs what is missing and builds the token. The caller has set `host`, this folder, and `out`, its own
# folder under target/.
# shellcheck disable=SC2154
set -eu

repository=$(cd "$host/.." && pwd)
out=$repository/target/$out
library=$repository/target/staticlib/libtoken.a
mkdir -p "$out"

die() {
    printf '%s\n' "$*" >&2
    exit 1
}

# install_packages PACKAGE...: from Debian, saying so
install_packages() {
    command -v apt-get >/dev/null || die "missing here: $* (by their Debian names); install them and start again"
    as_root=
    if [ "$(id -u)" -ne 0 ]; then
        command -v sudo >/dev/null || die "missing here: $*; install them as root and start again"
        as_root=sudo
    fi
    printf 'installing %s\n' "$*"
    {
        $as_root apt-get update &&
            $as_root env DEBIAN_FRONTEND=noninteractive apt-get install -y --no-install-recommends "$@"
    } >"$out/apt.log" 2>&1 || die "that failed; see $out/apt.log"
}

# need COMMAND PACKAGE...
need() {
    wanted=$1
    shift
    command -v "$wanted" >/dev/null || install_packages "$@"
}

# Whether no file that a proof reads is newer than the archive. (rt makes and removes crates/NAME/out, so that the time of crates/NAME says nothing.)
is_current() {
    [ -f "$library" ] && [ -z "$(find "$repository/crates.txt" "$repository"/crates/*/src "$repository"/crates/*/specs "$repository"/crates/*/proofs \
        -newer "$library" -print | head -n 1)" ]
}

# progress TEXT: says on stderr what goes on; in a terminal in one line, which each text writes over.
progress() {
    if [ -t 2 ]; then
        printf '\r%-72s' "$1" >&2
    else
        printf '%s\n' "$1" >&2
    fi
}

# Clears that line.
end_progress() {
    [ ! -t 2 ] || printf '\r%-72s\r' '' >&2
}

# The crate of the archive and those that it rests on, in the order in which rt proves them: each behind those that it names in crates.txt.
archive_crates() {
    awk -F: '
        function visit(name,    needs, count, i) {
            if (!(name in deps) || name in seen) return
            seen[name] = 1
            count = split(deps[name], needs, " ")
            for (i = 1; i <= count; i++) visit(needs[i])
            print name
        }
        !/^#/ { split($1, words, " "); deps[words[1]] = $2 }
        END { visit("token_c") }' "$repository/crates.txt"
}

# Reads what rt says, keeps it in the log and shows which crate is being proved, in a terminal in one line. Those that rt had built before it does not
# name. It fails where rt did, which the last line tells, for a pipe hands on no status.
rt_failed='rt failed'
follow_rt() {
    crates=$(archive_crates)
    all=$(printf '%s\n' "$crates" | wc -l)
    last=
    while IFS= read -r line; do
        printf '%s\n' "$line" >&3
        last=$line
        case $line in 'rt: chose --jobs '*' for '*) ;; *) continue ;; esac
        name=${line##* }
        number=$(printf '%s\n' "$crates" | grep -nx "$name" | cut -d : -f 1)
        [ -z "$number" ] || progress "proving $number of $all: $name"
    done 3>"$out/rt.log"
    end_progress
    [ "$last" != "$rt_failed" ]
}

# The proved token, for every x86-64 processor, which is not rt's default. rt keeps what it has proved of crates that have not changed, and proves
# only what lies below token_c.
build_token() {
    if is_current; then
        return
    fi
    command -v rt >/dev/null || die "rt, of the Rattle kit, is not on the path"
    made=$repository/crates/token_c/out/libtoken_c.a
    first_time=
    [ -f "$made" ] || first_time='; nothing of it is built here yet, and all of it takes some minutes'
    printf 'building target/staticlib/libtoken.a%s\n' "$first_time" >&2
    { (cd "$repository/crates/token_c" && rt lib --cpu=x86-64) 2>&1 || echo "$rt_failed"; } | follow_rt || die "that failed; see $out/rt.log"
    mkdir -p "${library%/*}"
    cp "$made" "$library.new"
    mv "$library.new" "$library"
}
