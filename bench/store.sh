# For run, before, replace and many, which source it from the top folder of the repository: what says that nothing can be
# measured, the store's own code for this machine, and the place of a table in the page.

. examples/watched.sh
say() { echo "bench: $*" >&2; }
cc=${CC:-cc}
machine=$(uname -m)
out=target/bench
page=docs/BENCHMARKS.md
strict=(-std=c11 -D_POSIX_C_SOURCE=200809L -O3 -Wall -Wextra -Wpedantic)
yardsticks=(bench/{expert,inputs,machine,measure,stores}.c tests/reference.c)
mkdir -p "$out"

# Ends the script where no time means anything, or where a command is missing.
must_have() { # COMMAND...
    local need
    for need in "$@"; do
        command -v "$need" >/dev/null || { say "nothing measured: $need is not here"; exit 1; }
    done
    if command -v systemd-detect-virt >/dev/null && [ "$(systemd-detect-virt --vm || true)" = qemu ]; then
        say "nothing measured: QEMU plays this machine, and a time under an emulator says nothing"
        exit 1
    fi
}

if [ "$machine" = x86_64 ]; then
    kind="libcoil.a as it is shipped"
    short_kind=$kind
    compile_store() { "$1/examples/build" coil && cp "$1/target/staticlib/libcoil.a" "$2"; }
else
    kind="libcoil.a, compiled by the kit for this machine (bench/native)"
    short_kind="libcoil.a, compiled for it by bench/native, not the shipped x86-64 code"
    compile_store() { "$1/bench/native" "$2"; }
fi

# Says, for the head of a table, what was measured where.
processor=$(LC_ALL=C lscpu 2>/dev/null | sed -n 's/^Model name: *//p' | head -n 1)
say_machine() {
    local system
    system=$(sed -n 's/^PRETTY_NAME="\(.*\)"/\1/p' /etc/os-release 2>/dev/null || true)
    echo "- Processor: ${processor:-unknown} ($machine), $(nproc) cores. ${system:-$(uname -s)}."
    echo "- Store: $kind."
}

# Proves and compiles the store of a checkout, unless the object is newer than its sources: an older one would give
# the times of other code.
make_store() { # CHECKOUT OBJECT
    if [ -f "$2" ] && [ -z "$(find "$1/crates" -name '*.rt' -newer "$2" -print -quit)" ]; then
        return
    fi
    if ! command -v rt >/dev/null; then
        say "nothing measured: $2 has to be made, and the Rattle kit's command rt is not on the PATH"
        exit 1
    fi
    say "proving and compiling the store (some minutes where nothing is proved yet)"
    if ! watched "$out/store.log" compile_store "$1" "$2"; then
        tail -n 5 "$out/store.log" >&2
        say "nothing measured: the store could not be compiled for $machine"
        exit 1
    fi
}

# Puts a file between two markers of the page.
write_page() { # MARKER FILE
    local marker
    for marker in start end; do
        grep -q "^<!-- $1: $marker" "$page" || { say "$page has no marker: $1 $marker"; exit 1; }
    done
    awk -v name="$1" -v table="$2" '
        index($0, "<!-- " name ": end") == 1 { inside = 0 }
        !inside { print }
        index($0, "<!-- " name ": start") == 1 {
            inside = 1; print ""; while ((getline line < table) > 0) print line; print ""
        }
    ' "$page" >"$out/page.md"
    cp "$out/page.md" "$page"
}

# For a program bench/NAME.c that writes the rows of one table: measures, and puts the table into the page where asked.
table_of() { # NAME [--write]
    case ${2-} in '' | --write) ;; *) sed -n '2,3s/^# \{0,1\}//p' "bench/$1"; exit 2 ;; esac
    must_have "$cc"
    make_store . "$out/coil.o"
    "$cc" "${strict[@]}" bench/{"$1",inputs,machine}.c "$out/coil.o" -lm -o "$out/$1"
    "$out/$1" "$out/rows.md" || { say "no table is written"; exit 1; }
    {
        say_machine
        echo
        cat "$out/rows.md"
    } >"$out/$1.md"
    cat "$out/$1.md"
    if [ "${2-}" = --write ]; then
        write_page "$1" "$out/$1.md"
        say "$page is written; the text beside its table is text: compare it with the new table"
    fi
}
