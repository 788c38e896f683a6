# What ./roadlrs, ./verify, tools/release and tools/package know in common: the program, the sources that it stands on, and its release.
# They source this file, with the top of the repository in $top.

name=lrs_cli
built=crates/$name/out/$name
manifest=released/manifest
packed=released/roadlrs.xz

# the processor minutes that proving takes, and the minutes that more cores do not shorten (docs/GATE.md)
work_of_the_program=110
work_of_all=150
least=25

say() { printf '%s: %s\n' "$me" "$1" >&2; }

fail() { say "$1"; exit 70; }

# the crates of the repository that the program stands on, lowest first, and its own
crates_of_the_program() {
    # a crate names the crates that it uses, and these theirs; they stand lowest first
    awk -v program="$name" '
        /^#/ { next }
        { sub(/:/, " "); line[++lines] = $0 }
        END {
            is_used[program] = 1
            for (at = lines; at > 0; at--) {
                count = split(line[at], names, " ")
                if (names[1] in is_used) for (i = 2; i <= count; i++) is_used[names[i]] = 1
            }
            for (at = 1; at <= lines; at++) {
                split(line[at], names, " ")
                if (names[1] in is_used && names[1] != program) print names[1]
            }
            print program
        }' "$top/crates.txt"
}

# what a check reads of a crate: its sources
parts_of() {
    local part
    for part in src specs proofs c; do
        if [ -e "$top/crates/$1/$part" ]; then echo "crates/$1/$part"; fi
    done
}

# all that decides the program, but for the kit
find_sources() {
    local crate
    crates=() sources=(crates.txt HANDLES)
    for crate in $(crates_of_the_program); do
        crates+=("$crate")
        mapfile -t -O "${#sources[@]}" sources < <(parts_of "$crate")
    done
}

# A sum over the names and bytes of files and of what lies in folders. There is none where something is neither, as a link.
sum_of() (
    set -o pipefail
    cd "$top" || exit 1
    [ -z "$(find "$@" ! -type f ! -type d -print -quit)" ] || exit 1
    find "$@" -type f -print0 | LC_ALL=C sort -z | xargs -0 sha256sum -- | sha256sum | cut -d ' ' -f 1
)

# a sum over the sources of one crate and its line in the list
sum_of_crate() {
    local parts
    mapfile -t parts < <(parts_of "$1")
    { sum_of "${parts[@]}" && grep "^$1[ :]" "$top/crates.txt"; } | sha256sum | cut -d ' ' -f 1
}

sum_of_file() { sha256sum <"$1" | cut -d ' ' -f 1; }

# what the manifest says under these words
fact() { [ ! -f "$top/$manifest" ] || sed -n "s/^$1 //p" "$top/$manifest"; }

# which version a program says it is, where it runs here
version_of() { "$1" --version </dev/null 2>/dev/null | sed -n '1s/^roadlrs \([^ ,]*\).*/\1/p'; }

# The program that was built here is newer than all that it stands on. What counts is when a source was last changed, which
# nobody can set back, and not the time that it bears.
is_built() {
    [ -x "$top/$built" ] && [ -z "$(cd "$top" && find "${sources[@]}" -newercm "$built" -print -quit)" ]
}

is_released() {
    local sum
    [ -f "$top/$packed" ] && sum=$(sum_of "${sources[@]}") && [ "$sum" = "$(fact sources)" ]
}

# unpacks the released program to a file, by whatever can; what has another sum than the manifest's is no release
unpack_to() {
    local wanted how
    wanted=$(fact program)
    for how in xz python3 /usr/bin/python3; do
        command -v "$how" >/dev/null || continue
        case $how in
            xz) xz -dc ;;
            *) "$how" -c 'import lzma, shutil, sys; shutil.copyfileobj(lzma.open(sys.stdin.buffer), sys.stdout.buffer)' ;;
        esac <"$top/$packed" >"$1" 2>/dev/null || continue
        if [ "$(sum_of_file "$1")" = "$wanted" ]; then chmod 755 "$1"; return; fi
    done
    return 1
}

# A copy of what rt ci reads of these crates, which is the top of a repository of its own. What rt keeps of it, it keeps of
# the same files anywhere. Nothing lies in it that a check of these crates does not read; with must-fail also the edits.
copy_to() {
    local folder=$1 left_out=$2 crate part
    shift 2
    mkdir -p "$folder/.git" && cp "$top/HANDLES" "$folder" || return
    awk -v wanted="$*" '
        BEGIN { split(wanted, names, " "); for (i in names) is_wanted[names[i]] = 1 }
        /^#/ || $1 == "" { print; next }
        { crate = $1; sub(/:.*/, "", crate); if (crate in is_wanted) print }' "$top/crates.txt" >"$folder/crates.txt"
    for crate; do
        mkdir -p "$folder/crates/$crate" || return
        for part in "$top/crates/$crate"/*; do
            case ${part##*/} in
                out | wrong-bodies | "$left_out") ;;
                *) cp -R "$part" "$folder/crates/$crate" || return ;;
            esac
        done
    done
}

# The kit keeps what it proved from one run to the next. Some kits keep nothing, and have no such word.
keeps() { rt help 2>&1 | grep -q -- --anew; }

so_far() { printf '%d min %d s' "$((SECONDS / 60))" "$((SECONDS % 60))"; }

# how long work of so many processor minutes takes on the cores that are here
estimate() {
    local cores minutes
    cores=$(nproc)
    minutes=$((($1 + cores - 1) / cores))
    printf 'about %d min on %d cores' "$((minutes > least ? minutes : least))" "$cores"
}

# reads what rt ci says, and says which layers of this crates.txt are through
tell_layers() {
    local -A layer=() left=()
    local line heading='' crate of=0 count=0
    while IFS= read -r line; do
        case $line in
            '# '*) heading=${line#\# } ;;
            ?*:*)
                crate=${line%%[: ]*} of=$((of + 1))
                layer[$crate]=$heading left[$heading]=$((${left[$heading]:-0} + 1))
                ;;
        esac
    done <"$1"
    while IFS= read -r line; do
        [[ $line =~ ^rt:\ ([a-z0-9_]+)\ (proved$|is kept:) ]] || continue
        crate=${BASH_REMATCH[1]} heading=${layer[${BASH_REMATCH[1]}]:-}
        [ -n "$heading" ] || continue
        layer[$crate]='' count=$((count + 1)) left[$heading]=$((left[$heading] - 1))
        [ "${left[$heading]}" -gt 0 ] || say "$count of $of crates are proved; through: $heading (after $(so_far))"
    done
}

# rt ci in this folder, with these words, and what it said in this log
prove() {
    local folder=$1 log=$2
    shift 2
    (cd "$folder" && exec rt ci "$@" </dev/null) 2>&1 | tee "$log" | tell_layers "$folder/crates.txt"
    [ "${PIPESTATUS[0]}" -eq 0 ]
}

# what a log of rt ci says of a crate that was proved in that run, and did not change while it ran
said_of() {
    awk -v crate="$1" '
        /^== / { is_its = $2 == crate && NF == 2 }
        is_its && /^logic=proved / { said = $0 }
        /^rt: note: what this run proved of / && index($0, " " crate " ") { said = "" }
        END { if (said != "") print said }' "$2"
}
