#!/bin/sh
# The steps of `./x demo`: makes the section of a real library unproved, proves and builds the program, makes the section again, shows what
# was kept and what it says, looks an address up, links and merges freshly compiled objects, and walks core files. `./x demo --help` says
# what it needs.

set -eu
LC_ALL=C
export LC_ALL

say() {
    printf '%s\n' "$*"
}

fail() {
    printf './x demo: %s\n' "$*" >&2
    exit 1
}

# Runs the program, and shows the command on the script's own output.
exec 3>&1
tool() {
    say "   \$ sf_tool $*" >&3
    crates/sf_tool/out/sf_tool "$@"
}

for command in rt python3 clang readelf objdump objcopy nm awk cmp; do
    command -v "$command" >/dev/null || fail "$command is not on PATH"
done

# A name on the command line counts from where the script was started.
file=${1-}
if [ -n "$file" ]; then
    [ -r "$file" ] || fail "$file cannot be read"
    file=$(cd "$(dirname "$file")" && pwd)/$(basename "$file")
fi
cd "$(dirname "$0")/.."
out=demo/out
rm -rf "$out"
mkdir -p "$out"

if [ -z "$file" ]; then
    for name in /lib/*-linux-gnu/libc.so.6 /lib64/libc.so.6 /usr/lib64/libc.so.6 /usr/lib/libc.so.6; do
        case $(readelf -h "$name" 2>/dev/null | awk '$1 == "Class:" || $1 == "Machine:"') in
        *ELF64*X86-64* | *ELF64*AArch64*)
            file=$name
            break
            ;;
        esac
    done
fi

# The first page after a file's last loaded byte.
page_after() {
    ./x at "$1" || fail "there is no place for the section of $1"
}

# Runs a program that aborts, for its core file: by gdb, or as the kernel writes one.
make_core() {
    if command -v gdb >/dev/null; then
        gdb -nx -batch -ex 'set confirm off' -ex run -ex "generate-core-file $out/core" -ex backtrace "$1" >"$out/gdb" 2>&1 </dev/null || :
    else
        : >"$out/gdb"
        # shellcheck disable=SC3045
        (cd "$out" && ulimit -c unlimited && exec "./$(basename "$1")") 2>/dev/null || :
    fi
}

# The program calls and its three libraries, in the folder of what is made: it finds them beside itself.
compile_calls() (
    cd "$out"
    for name in one two three; do
        "$compiler" -O1 -fPIC -shared -o "lib$name.so" "$name.c" || exit
    done
    # shellcheck disable=SC2016
    "$compiler" -O1 -o calls calls.c libone.so libtwo.so libthree.so -Wl,-rpath,'$ORIGIN'
)

# Makes a copy of a file in the folder with, to which its section is added and marked as loaded. No segment holds it, of
# which objcopy warns: procwalk reads the file alone.
add_section() {
    mkdir -p "$out/with"
    at=$(page_after "$out/$1")
    tool link "$out/$1.sframe@$at" "$out/$1@0x0" >/dev/null || fail "the section of $1 was not linked"
    objcopy --add-section .sframe="$out/$1.sframe" --set-section-flags .sframe=alloc,readonly,data \
        --change-section-address .sframe="$at" "$out/$1" "$out/with/$1" 2>/dev/null || fail "$1 did not get its section"
}

# The walk, each frame with gdb's name for it, where it has one; the program counters have to be the same.
show_walk() {
    awk -v walk="$out/walk" '
        /^#[0-9]+ +0x/ { frame[substr($1, 2)] = $2; name[substr($1, 2)] = $4 }
        END {
            while ((getline line < walk) > 0) {
                split(line, word, " ")
                number = substr(word[1], 2)
                if (word[1] !~ /^#/ || !(number in name)) { print line; continue }
                print line "   (gdb: " name[number] ")"
                pc = frame[number]
                sub(/^0x0*/, "0x", pc)
                if (pc != word[3]) differs = 1
            }
            exit differs
        }' "$out/gdb" || fail "gdb lists other frames: see $out/gdb"
}

# A report: its first lines, how many functions were kept, their share, and how often each reason occurs.
show_report() {
    awk '
        $1 == "omit" && NR <= 3
        $1 == "omit" { count[$11]++ }
        $1 == "kept" {
            kept = $2
            omitted = $4
            if (omitted > 3) print ".. and " omitted - 3 " such lines more"
            print
        }
        END {
            if (kept + omitted == 0) { print "   The file has no call frame information."; exit }
            share = kept / (kept + omitted)
            for (i = 0; i < 50; i++) bar = bar (i < int(share * 50) ? "#" : ".")
            printf "   [%s] %.2f %% of the functions are kept\n", bar, 100 * share
            for (reason in count) print "   omitted for " reason ": " count[reason]
        }' "$1"
}

# A function of the file's symbols, printf if it has that one: its start, size and name.
find_function() {
    { nm -D -S --defined-only "$1" 2>/dev/null || :; nm -S --defined-only "$1" 2>/dev/null || :; } | awk '
        $3 ~ /^[TW]$/ {
            sub(/@.*/, "", $4)
            size = $2
            sub(/^0*/, "", size)
            if ($4 == "printf" || first == "" && length(size) > 2) first = "0x" $1 " 0x" $2 " " $4
            if ($4 == "printf") exit
        }
        END { print first }'
}

# The main job by `./x try`: the section of the file, and a look-up in the middle of a function.
show_unproved() {
    at=$(page_after "$file")
    set -- link "$out/unproved@$at" "$file@0x0"
    say "   \$ ./x try $*"
    read -r start size name <<END
$(find_function "$file")
END
    if [ -n "$name" ]; then
        pc=$(printf '0x%x' $((start + size / 2)))
        set -- "$@" -- lookup "$out/unproved@$at" "$pc"
    fi
    status=0
    ./x try "$@" >"$out/printed" 2>"$out/said" || status=$?
    case $status in
    0 | 1) ;;
    125)
        tail -n 3 "$out/said"
        say "   rt try does not run the program here, so this part is skipped."
        return
        ;;
    *)
        cat "$out/said"
        fail 'the section was not linked'
        ;;
    esac
    grep -E '^(omit|kept) ' "$out/printed" >"$out/report"
    show_report "$out/report"
    if [ -n "$name" ]; then
        say "   \$ ./x try lookup $out/unproved@$at $pc        in the middle of $name"
        grep -vE '^(omit|kept) ' "$out/printed"
    fi
    say "   This took $(($(date +%s) - began)) s. All of it is unproved: run-time checks found no fault in these two runs."
}

# Ctrl-C leaves nothing half made.
ended() {
    rm -rf "$out"
    say
    say "$1"
    exit 130
}

say '1. The main job, unproved: the same sources, built with run-time checks in a minute or two, make the section of a library:'
trap 'ended "Ended. Nothing was proved. ./x try WORDS .. runs any command so; sh demo/run begins again."' INT
began=$(date +%s)
if [ -n "$file" ]; then
    show_unproved
else
    say '   There is no C library for AMD64 or AArch64 here. A FILE can be named: sh demo/run FILE'
fi

say
say '2. Proof and build. All functions of the program and of the crates below it are proved and compiled, which takes 10 GB of disk. The line'
say '   of each crate estimates the time left. Proved crates are kept: if you end this by Ctrl-C, later runs and the gate continue from there.'
say '   Meanwhile ./x try runs any command unproved.'
trap 'ended "Ended. Each crate that has a line above is kept: sh demo/run continues from there."' INT
./x build "$out/build.log" || fail "the build failed: see $out/build.log"
trap - INT
say "   The program is crates/sf_tool/out/sf_tool. What the prover said is in $out/build.log."
file=${file:-$PWD/crates/sf_tool/out/sf_tool}
at=$(page_after "$file")

say
say "3. The section of $file, by the proved program. Loaded at 0, the file ends before $at, and there the section is to lie:"
tool link "$out/sframe@$at" "$file@0x0" >"$out/report" || fail 'the section was not linked'
show_report "$out/report"
sizes=$(readelf -SW "$file" | sed 's/^ *\[ *[0-9]*\]//' | awk '$1 ~ /^\.eh_frame(_hdr)?$/ { print "0x" $5 }')
frames=0
for size in $sizes; do
    frames=$((frames + size))
done
say "   The section has $(($(wc -c <"$out/sframe"))) bytes; the file's .eh_frame and its search table have $frames."
say '   Is it right? Wherever it has a row, both recover the same, for all registers and all memory:'
tool verify "$out/sframe@$at" "$file@0x0" || fail 'the section differs from the file'

say
say '4. What the section says: its header, and a row for each range of each function'
tool dump "$out/sframe@$at" >"$out/dump" || fail 'the section was not read'
sed -n 1p "$out/dump"

# A function that saves its frame pointer: one with a name where there is one.
nm -D --defined-only "$file" >"$out/names" 2>/dev/null || :
nm --defined-only "$file" >>"$out/names" 2>/dev/null || :
# The address is in the middle of the widest row of the first function whose widest row says where the frame pointer is.
found=$(awk '
    function ends(at) {
        if (from != "" && at - from > width) { width = at - from; widest = from; saved = said }
    }
    function last() {
        ends(size)
        if (saved && width > 1) {
            line = start " " int(widest + width / 2)
            if (start in name) { print line, name[start]; found = 1; exit }
            if (any == "") any = line " ?"
        }
    }
    FILENAME == ARGV[1] { sub(/^0*/, "", $1); sub(/@.*/, "", $3); name["0x" $1] = $3; next }
    $1 == "func" { last(); start = $2; size = $4; from = ""; width = 0; saved = 0 }
    $1 ~ /^\+/ { ends(substr($1, 2)); from = substr($1, 2); said = / fp=c/ }
    END { if (!found) { last(); if (!found && any != "") print any } }' "$out/names" "$out/dump")
if [ -n "$found" ]; then
    read -r start offset name <<END
$found
END
    awk -v start="$start" '$1 == "func" { is = $2 == start } is' "$out/dump" >"$out/function"
    sed -n 1,12p "$out/function"
    [ "$(wc -l <"$out/function")" -le 12 ] || say '  ..'
    # An objdump that reads such sections shows the same.
    objcopy --add-section ".sframe=$out/sframe" --change-section-address ".sframe=$at" "$file" "$out/with" 2>/dev/null || :
    objdump --sframe=.sframe "$out/with" >"$out/objdump" 2>/dev/null || : >"$out/objdump"
    if grep -q 'func idx' "$out/objdump"; then
        say "   The same function as $(objdump --version | sed -n 1p) reads it:"
        awk -v start="pc = $start," 'index($0, start) { is = 1 } is && NF == 0 { exit } is' "$out/objdump" | sed -n 1,13p
    else
        say "   ($(objdump --version | sed -n 1p) doesn't read sections of this kind.)"
    fi
    rm -f "$out/with"

    pc=$(printf '0x%x' $((start + offset)))
    say
    say "5. Look-up of $pc, in the middle of the function $name, which has saved its frame pointer there"
    tool lookup "$out/sframe@$at" "$pc" || fail 'no row holds there'
    say "   cfa is the canonical frame address (CFA), which is the caller's stack pointer. fp says where the caller's frame pointer is"
    say '   saved. The return address is at CFA-8 on AMD64; on AArch64 ra says where.'
fi

walked=
compiler=
for command in cc gcc clang; do
    if command -v "$command" >/dev/null; then
        compiler=$command
        break
    fi
done
if [ -n "$compiler" ]; then
    say
    say '6. A freshly compiled object, laid out from 0x1000 on: its relocations are applied'
    cat >"$out/object.c" <<'END'
int leaf(int x) { return x + 1; }
int caller(int x)
{
    volatile char bytes[x + 1];
    bytes[x] = (char)leaf(x);
    return bytes[x];
}
END
    "$compiler" -O1 -fasynchronous-unwind-tables -c "$out/object.c" -o "$out/object.o" || fail 'the object was not compiled'
    tool link "$out/object.sframe@0x10000" "$out/object.o@0x1000" || fail 'the object was not linked'
    tool dump "$out/object.sframe@0x10000" || fail 'its section was not read'

    say
    say '7. Another object, linked in one run with the first, and the same by merging two sections'
    cat >"$out/other.c" <<'END'
int other(int x)
{
    volatile int numbers[8];
    numbers[x & 7] = x;
    return numbers[0];
}
END
    "$compiler" -O1 -fasynchronous-unwind-tables -c "$out/other.c" -o "$out/other.o" || fail 'the object was not compiled'
    tool link "$out/both@0x10000" "$out/object.o@0x1000" "$out/other.o@0x2000" || fail 'the objects were not linked'
    tool link "$out/other.sframe@0x20000" "$out/other.o@0x2000" || fail 'the object was not linked'
    tool merge "$out/merged@0x10000" "$out/object.sframe@0x10000" "$out/other.sframe@0x20000" || fail 'the sections were not merged'
    cmp "$out/both" "$out/merged" || fail 'the two sections differ'
    say '   The linked and the merged section are the same, byte for byte. The shortest equivalent, with the bytes before and after:'
    tool slim "$out/slimmed@0x10000" "$out/merged@0x10000" || fail 'the section was not shortened'
    say '   In Version 3, which GNU binutils read from 2.46 on:'
    tool upgrade "$out/version3@0x10000" "$out/slimmed@0x10000" || fail 'the section of Version 3 was not written'

    say
    say '8. A program that aborts some calls deep: the stack in its core file, walked with its section'
    cat >"$out/deep.c" <<'END'
#include <stdlib.h>
int sum;
__attribute__((noinline)) int deep(int n)
{
    volatile char bytes[n + 1];
    bytes[n] = 1;
    if (n == 0)
        abort();
    sum += deep(n - 1);
    return bytes[n];
}
int main(void) { return deep(5); }
END
    # All of a static program is within the reach of one section, and lies where it was linked.
    if "$compiler" -O1 -static -no-pie -o "$out/deep" "$out/deep.c" 2>/dev/null; then
        make_core "$out/deep"
    fi
    if [ -s "$out/core" ]; then
        at=$(page_after "$out/deep")
        tool backtrace "$out/deep.sframe@$at" "$out/core" 64 "$out/deep@0x0" >"$out/walk" || fail 'the core was not walked'
        show_walk
        say '   The same with the section that was written:'
        tool walk "$out/deep.sframe@$at" "$out/core" 64 >"$out/again" || fail 'the core was not walked with the section'
        cmp "$out/walk" "$out/again" || fail 'the two walks differ'
        walked=1
    else
        say '   Skipped, since no core file was made: this step needs a static C library, and gdb or a kernel that writes a file named core.'
    fi

    say
    say '9. A process with three libraries: the stack in its core file, each frame with the table of its own file, made on the spot'
    echo 'int two(int n); int one(int n) { return two(n + 1) + 1; }' >"$out/one.c"
    echo 'int three(int n); int two(int n) { return three(n + 1) + 1; }' >"$out/two.c"
    echo 'int three(int n) { if (n > 0) __builtin_trap(); return n; }' >"$out/three.c"
    echo 'int one(int n); int main(void) { return one(0) + 1; }' >"$out/calls.c"
    rm -f "$out/core"
    if compile_calls 2>/dev/null; then
        make_core "$out/calls"
    fi
    if [ -s "$out/core" ]; then
        tool procbacktrace "$out/core" 64 "$out/calls" "$out/libone.so" "$out/libtwo.so" "$out/libthree.so" >"$out/walk" ||
            fail 'the process was not walked'
        show_walk
        say '   The walk ends in the C library, whose file was not given. The same with sections in copies of the files:'
        for name in calls libone.so libtwo.so libthree.so; do
            add_section "$name"
        done
        tool procwalk "$out/core" 64 "$out/with/calls" "$out/with/libone.so" "$out/with/libtwo.so" "$out/with/libthree.so" >"$out/again" ||
            fail 'the process was not walked with its sections'
        sed 's/ [^ ]*+0x[0-9a-f]*$//' "$out/walk" | cmp - "$out/again" || fail 'the two walks differ'
        walked=1
    else
        say '   Skipped, since no core file was made: this step needs shared libraries, and gdb or a kernel that writes a file named core.'
    fi

    say
    say '10. The same program with lazy binding: linkplt has rows for a plain lazy procedure linkage table, as two more functions'
    if (cd "$out" && "$compiler" -O1 -fcf-protection=none -o lazy calls.c libone.so libtwo.so libthree.so -Wl,-z,lazy) 2>/dev/null; then
        at=$(page_after "$out/lazy")
        tool linkplt "$out/lazy.sframe@$at" "$out/lazy@0x0" >"$out/report" || fail 'the program was not linked'
        sed -n -e '/^plt/p' -e '$p' "$out/report"
    else
        say '   Skipped, since the program was not compiled: this step needs shared libraries, and a compiler for AMD64.'
    fi
fi

say
say '11. A self-test on a generated object, which prints the same line on each machine'
tool gen 1000 || fail 'the object was not linked'

say
say "Checked: every crate of the program is proved. The section of $file was linked and read back, and a row was found."
[ -z "$compiler" ] || say 'One section of two objects is the merged one of both, byte for byte.'
[ -z "$walked" ] || say 'Core files were walked, with the same frames as gdb where it is installed.'
say "Made: in $out, the section (sframe), its report (report) and what it says (dump)."
say 'Next: ./x build --libraries builds the libraries for C; ./x install PREFIX puts all of it in place; docs/tutorial.md explains it;'
say './x bench takes the time beside readelf; ./x gate proves and tests everything; ./x help lists what else there is.'
