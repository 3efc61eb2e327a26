# Which programs a checkout has, and what they were made of. Its commands source this, with `top`, the folder of the
# checkout, set.
#
# out/ has the programs trac and trac-walk, and made.txt: the checksums and sizes of both, and then of the sources that
# they were made of, by `cksum`. Each start looks at them: a time or a size alone does not tell whether a file changed.
# What release/ has is told from other bytes by SHA-256, in release/contents.txt, before it is taken to out/.
shopt -s extglob
# (whoever begins this may have set these by SHELLOPTS)
set +fC +o posix
# (else a limit on the size of files would end this where a write is to be refused)
trap '' XFSZ
out=$top/out release=$top/release archive=trac-linux-x86_64.tar.xz gzipped=trac-linux-x86_64.tar.gz

# A name as it is shown to a person: bytes 32 to 126 but \, [ and ] as themselves, all others as \x and two digits.
shown() {
    local LC_ALL=C text=$1 place byte
    [[ $text == *[!\ -Z^-~]* ]] || { printf '%s' "$text" && return; }
    for ((place = 0; place < ${#text}; place++)); do
        byte=${text:place:1}
        if [[ $byte == [\ -Z^-~] ]]; then
            printf '%s' "$byte"
        else
            printf -v byte %d "'$byte"
            printf '\\x%02x' $((byte & 255))
        fi
    done
}

tell() { echo "trac: $1" >&2 2>/dev/null || true; }
give_up() { tell "$1" && exit 70; }
on_terminal() { [ ! -t 2 ] || printf "$@" >&2; }

# Prints the sums that a program, such as sha256sum, makes of these files, and of the sources: the code of the crates
# but those for tests and examples, with its contracts, and the definitions that these cite. (Proofs and edits change
# neither the program nor what is promised of it.) It is for a subshell, of which it changes the folder.
sums_by() {
    LC_ALL=C
    shopt -s globstar nullglob
    cd "$top" &&
        exec "$@" crates.txt crates/!(*_tests|*_faults|*_example|*_web?(_requests))/@(src|specs)/**/*.@(rt|antt)
}
sums() (sums_by sha256sum)

# Whether out/ has this program, whole, as made.txt tells of it. Then `changed` is not empty if a source is another one
# than it was made of. A damaged program must not be run: bash would take it for a script.
find_program() {
    local now kept=''
    changed=''
    [ -x "$out/$1" ] && [ -r "$out/made.txt" ] && now=$(sums_by cksum "out/$1" 2>/dev/null) || return 1
    IFS= read -rd '' kept <"$out/made.txt" || true
    [[ $'\n'$kept == *$'\n'"${now%% out/*} $1"$'\n'* ]] || return 1
    [ "${kept#* trac-walk$'\n'}" = "${now#*$'\n'}"$'\n' ] || changed=yes
}

# Prints what made.txt says of the programs in `making`: made of the sources, if these have such sums, or of others.
made() {
    (cd "$making" && cksum trac trac-walk) && if [ "$1" = "$(sums)" ]; then
        (sums_by cksum)
    else
        echo "other sources"
    fi
}

# What release/ says of itself: the sum of a file, or those of the sources.
in_contents() {
    [ -f "$release/contents.txt" ] && [ -r "$release/contents.txt" ] && sed -n "$1" "$release/contents.txt"
}
released_sum() { in_contents "s/^\([0-9a-f]\{64\}\)  $1\$/\1/p"; }
released_sums() { in_contents '/^[0-9a-f]\{64\}  crates/p'; }
sum_of() {
    local sum
    sum=$(sha256sum <"$1") && printf '%s\n' "${sum%% *}"
}
is_sum() { [ -n "$2" ] && [ "$(sum_of "$1" 2>/dev/null)" = "$2" ]; }

# Whether release/ was built from the sources as they are.
is_release_current() {
    [ "$(released_sums)" = "$(sums)" ]
}

# Unpacks the archive into a folder: by tar with xz or gzip, or by Python. The status is 9 if none is there. (In that
# folder: tar would read the name of one for signs of its own.)
unpack() {
    if command -v xz && command -v tar; then
        XZ_DEFAULTS='' XZ_OPT='' xz -dc "$release/$archive" | (cd "$1" && TAR_OPTIONS='' tar -x -f - trac trac-walk)
    elif command -v gzip && command -v tar && is_sum "$release/$gzipped" "$(released_sum "$gzipped")"; then
        gzip -dc <"$release/$gzipped" | (cd "$1" && TAR_OPTIONS='' tar -x -f - trac trac-walk)
    elif python3 -c 'import lzma, tarfile'; then
        python3 -c 'import sys, tarfile
for name in "trac", "trac-walk":
    tarfile.open(sys.argv[1]).extract(name, sys.argv[2])' "$release/$archive" "$1"
    else
        return 9
    fi >/dev/null 2>&1
}

# Makes a folder in out/ for what is new there, `making`, which goes if a signal ends this. Whatever the umask, all may
# read what comes to be in out/, and nobody else may write it.
make_folder() {
    local it
    (umask 022 && mkdir -p "$out") 2>/dev/null && making=$(mktemp -d "$out/.new.XXXXXX" 2>/dev/null) || return 1
    for it in INT TERM HUP; do
        trap 'rm -rf "$making"; trap - '$it'; kill -s '$it' $$' $it
    done
}

# Has the programs and made.txt in `making` be those of out/, if the status is 0 so far, and takes that away. What
# says what the programs are comes last: a program of which it does not tell is not run.
keep_folder() {
    local status=$?
    [ $status != 0 ] || { mv -f "$making"/trac{,-walk} "$out" && mv -f "$making/made.txt" "$out"; } || status=1
    rm -rf "$making"
    trap - INT TERM HUP
    return $status
}

# Takes the programs out of release/, to out/. Fails, with a line, if there are no whole ones to take.
take_released() {
    local status=0
    is_sum "$release/$archive" "$(released_sum "$archive")" || {
        tell "release/$archive is missing, cut or changed: it is not what release/contents.txt says, and is not used"
        return 1
    }
    on_terminal 'trac: unpacking version %s\n' "$(in_contents 's/^version //p')"
    make_folder || {
        tell "release/ cannot be unpacked: nothing can be written to $(shown "$out")"
        return 1
    }
    {
        (umask 022 && unpack "$making") || status=$?
        [ $status = 0 ] && is_sum "$making/trac" "$(released_sum trac)" &&
            is_sum "$making/trac-walk" "$(released_sum trac-walk)" &&
            (umask 022 && made "$(released_sums)" 2>/dev/null >"$making/made.txt")
        keep_folder
    } && return
    if [ $status = 9 ]; then
        tell "release/ cannot be unpacked: that takes tar with xz or gzip, or Python 3 with its module lzma"
    else
        tell "release/ cannot be unpacked: there is no room in $(shown "$out")"
    fi
    return 1
}

# Has a program in out/. Says so if it is not of the sources as they are.
make_ready() {
    find_program "$1" || { take_released && find_program "$1"; } ||
        give_up "there is no program to run; where the Rattle toolchain is, ./build proves and builds it"
    [ -z "$changed" ] || tell "the sources changed since $1 was made: ./build makes it anew"
}

# The program of this name as rt has built it.
built() {
    local crate=${1/-walk/_walk_program}
    printf '%s' "$top/crates/$crate/out/$crate"
}

# Keeps the programs that rt has built, in out/. These are the sums of the sources that they were built from.
keep_built() {
    make_folder || return
    cp "$(built trac)" "$making/trac" && cp "$(built trac-walk)" "$making/trac-walk" &&
        chmod 755 "$making"/trac{,-walk} && (umask 022 && made "$1" >"$making/made.txt")
    keep_folder
}

# How many tasks rt is to run at once: as many as there are processors, where 4 GB are free for each. By itself it plans
# on far more memory than its checks take (docs/checks.md), and then leaves processors idle. Says nothing where there is
# less, where that cannot be read, or where a control group sets a limit: then rt judges by itself. With MOST, says
# nothing either where more than so many GB are free for each.
tasks() {
    local free count limit
    for limit in memory.max cpu.max; do
        [[ "$(cat "/sys/fs/cgroup/$limit" 2>/dev/null)" != [0-9]* ]] || return 0
    done
    count=$(nproc)
    free=$(awk '/^MemAvailable:/ { print $2 }' /proc/meminfo 2>/dev/null) || true
    [ "${free:-0}" -lt $((count * 4000000)) ] || [ "$free" -gt $((count * ${1-1000} * 1000000)) ] || echo "$count"
}
