#!/usr/bin/env bash
# Makes the programs without their proofs, optimized, and runs the rows, the documents' examples and the gallery.
#
#     tools/quick.sh               makes the programs, and runs all
#     tools/quick.sh --programs    only makes burch_dill and bd_view
#     tools/quick.sh --write       writes what is made: counts of rows, command pages, outputs in the documents, lists
#     tools/quick.sh --help        prints this
#
# The programs stand in build/quick/, and run as they are, by the loader of the kit of `rt`. A program is made again
# only if a source of one of its crates has changed: three side by side, which wants four processors and 8 GB. Nothing
# is proved of them: no contract, no proof and no file of crates/*/out is read or written.
#
# Status 0: all agrees. 1: a program can't be made, or something differs. 2: other words.
set -euo pipefail

top=$(cd "$(dirname "$0")/.." && pwd)
build=$top/build/quick

usage() { sed -n '2,/^set /s/^# \{0,1\}//p' "$0"; }

fail() {
    echo "quick.sh: $1" >&2
    exit "${2:-1}"
}

# The crates that a program consists of: itself and all below it, by crates.txt.
crates_of() {
    awk -v program="$1" '
        /^[^#]/ { split($0, sides, ":"); split(sides[1], words, " "); uses[words[1]] = sides[2] }
        function visit(name, parts, count, at) {
            if (seen[name]++ || !(name in uses)) return
            count = split(uses[name], parts, " ")
            for (at = 1; at <= count; at++) visit(parts[at])
            print name
        }
        END { visit(program) }' "$top/crates.txt"
}

# What a program depends on, as one checksum: its sources, the crates' uses, the kit, and how it is made.
checksum() {
    (
        cd "$top"
        rt version
        echo "$kit"
        declare -f shadow_kit level_of
        for crate in $(crates_of "$1"); do
            grep -E "^$crate( .*)?:" crates.txt
            find "crates/$crate/src" -name '*.rt' -print0 | LC_ALL=C sort -z | xargs -0 sha256sum
        done
    ) | sha256sum
}

# The optimization of a program's code: those that people run are as fast as they can be, the rows are made sooner.
level_of() { if [ "$1" = bd_rows ]; then echo -O1; else echo -O3; fi; }

# A copy of the kit in the folder $1, by links, in which `rt try` makes an optimized program: its compiler optimizes by
# $3 and leaves the address sanitizer out, its linker names the kit's own loader and libraries and saves the program as
# $2, and no check runs beside it.
shadow_kit() {
    mkdir -p "$1/bin" "$1/toolchain/bin"
    ln -s "$kit"/* "$1" 2> "$1/links" || true
    ln -s "$kit"/toolchain/* "$1/toolchain" 2>> "$1/links" || true
    ln -s "$kit"/bin/* "$1/bin"
    ln -s "$kit"/toolchain/bin/* "$1/toolchain/bin"
    rm "$1"/bin/rt "$1"/bin/rtlib.py "$1"/bin/rattle "$1"/toolchain/bin/clang "$1"/toolchain/bin/ld.lld
    cp "$kit"/bin/rt "$kit"/bin/rtlib.py "$1/bin"
    printf '#!/bin/sh\nexit 0\n' > "$1/bin/rattle"
    cat > "$1/toolchain/bin/clang" << END
#!/usr/bin/env bash
words=()
for word in "\$@"; do
    case \$word in -O0) words+=($3) ;; -fsanitize=address*) ;; *) words+=("\$word") ;; esac
done
exec -a "\$0" "$kit/toolchain/bin/clang" "\${words[@]}"
END
    cat > "$1/toolchain/bin/ld.lld" << END
#!/usr/bin/env bash
words=() sanitizer=no output=
while [ \$# -gt 0 ]; do
    case \$1 in
        --dynamic-linker) words+=("\$1" "$kit/toolchain/lib/ld-linux-x86-64.so.2" -rpath "$kit/toolchain/lib"); shift ;;
        --whole-archive) sanitizer=yes ;;
        --no-whole-archive) sanitizer=no ;;
        -o) output=\$2; words+=("\$1" "\$2"); shift ;;
        *) [ \$sanitizer = yes ] || words+=("\$1") ;;
    esac
    shift
done
"$kit/toolchain/bin/ld.lld" "\${words[@]}" && cp "\$output" "$2"
END
    chmod +x "$1/bin/rattle" "$1/toolchain/bin/clang" "$1/toolchain/bin/ld.lld"
}

# Makes a program, unless the one that is there is of the same sources.
make_program() {
    local name=$1 sum work start=$SECONDS
    sum=$(checksum "$name")
    if [ -x "$build/$name" ] && [ "$(cat "$build/$name.sum" 2> /dev/null)" = "$sum" ]; then
        echo "$name: kept, no source of it has changed"
        return
    fi
    rm -f "$build/$name" "$build/$name.sum"
    work=$(mktemp -d)
    shadow_kit "$work/kit" "$work/program" "$(level_of "$name")"
    # What the program prints and its status tell nothing here: it gets no words.
    (cd "$top/crates/$name" && TMPDIR=$work "$work/kit/bin/rt" try) > "$work/log" 2>&1 < /dev/null || true
    if [ -x "$work/program" ]; then
        mv "$work/program" "$build/$name"
        echo "$sum" > "$build/$name.sum"
        echo "$name: made in $((SECONDS - start)) s"
    else
        cat "$work/log" >&2
        echo "$name: can't be made" >&2
    fi
    rm -rf "$work"
    [ -x "$build/$name" ]
}

# Runs the rows as the gate does, and compares what they print and their status.
rows() {
    local crate=crates/bd_rows printed=$build/rows.printed status=0 words
    mapfile -t words < "$crate/args"
    (cd "$crate/data" && "$build/bd_rows" "${words[@]}") > "$printed" || status=$?
    diff -u --label "$crate/stdout" "$crate/stdout" --label printed "$printed" || return 1
    [ "$status" = "$(cat "$crate/status")" ] || { echo "status $status" && return 1; }
    echo "${#words[@]} files of rows, 0 faults"
}

programs=("$build/burch_dill" "$build/bd_view")
documents() { python3 tools/command_pages.py "${programs[@]}" && python3 tools/documents.py --check; }
examples() { python3 tools/doc_examples.py "${programs[@]}" "$@"; }
gallery_pages() { examples gallery/README.md gallery/*/README.md; }
gallery() { python3 bench/gallery.py "$build/burch_dill" --check; }

# Writes what follows from the code and from what the programs print; of the rows only counts.
write() {
    local words='s/[0-9]+/N/g' stored=crates/bd_rows/stdout
    rows > "$build/rows.log" || diff <(sed -E "$words" $stored) <(sed -E "$words" "$build/rows.printed")
    cp "$build/rows.printed" $stored
    "$build/burch_dill" 2> crates/bd_rows/data/usage.txt || true
    python3 tools/command_pages.py "${programs[@]}" --write
    examples --write && gallery_pages --write
    python3 tools/documents.py
}

# Runs functions side by side, and prints what each printed, in their order.
side_by_side() {
    local at=0 name jobs=() status=0
    for name in "$@"; do
        "$name" > "$build/$name.log" 2>&1 &
        jobs+=($!)
    done
    for name in "$@"; do
        if wait "${jobs[$at]}"; then echo "$name: as it should be"; else status=1 && echo "$name: differs"; fi
        sed 's/^/    /' "$build/$name.log"
        at=$((at + 1))
    done
    return $status
}

# Makes programs side by side.
make_programs() {
    local name job jobs=() status=0
    for name in "$@"; do
        make_program "$name" &
        jobs+=($!)
    done
    for job in "${jobs[@]}"; do wait "$job" || status=1; done
    return $status
}

[ $# -le 1 ] || fail "one word at most" 2
case ${1-} in
    "" | --write) wanted=(burch_dill bd_view bd_rows) ;;
    --programs) wanted=(burch_dill bd_view) ;;
    --help | -h) usage && exit 0 ;;
    *) usage >&2 && exit 2 ;;
esac
rt=$(command -v rt) || fail "rt isn't on the path: put the kit's bin/ there"
kit=$(dirname "$(dirname "$(readlink -f "$rt")")")
mkdir -p "$build"

make_programs "${wanted[@]}" || exit 1
echo "they stand at $build/burch_dill and $build/bd_view"
[ "${1-}" != --programs ] || exit 0
cd "$top"
[ "${1-}" != --write ] || write || fail "not all is written"
side_by_side rows documents examples gallery_pages gallery || fail "something differs, after $SECONDS s"
echo "all as it should be, after $SECONDS s; nothing is proved: that is for rt ci"
