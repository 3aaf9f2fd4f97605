#!/bin/sh
# The library for C. Its header's promises, checked in C; each pattern of examples/, and files that are refused, given by the library as by the
# program, whole and in pieces, with a checker of memory where valgrind is there, and with each request for memory refused in turn; the shared
# object, from Python, by the Python module, beside the independent reader, and on files that are chosen against its hashers; the programs of
# examples/; and what `make install` puts in place. It builds the library of crates/golly_canon_c first, over what the gate has proved.
# It needs a C compiler, python3 and pkg-config, and the toolchain's rt.

usage="usage: tests/library/library.sh PROGRAM"
program=${1:?$usage}
[ -x "$program" ] || { echo "there is no program $program"; exit 1; }
case $program in /*) ;; *) program=$PWD/$program ;; esac
top=$(cd "$(dirname "$0")/../.." && pwd)
. "$top/tests/shared/counting.sh"
: "${CC:=cc}"
: "${RT:=rt}"
export CC RT
folder=$(mktemp -d) || exit 1
trap 'rm -rf "$folder"' EXIT
cd "$folder" || exit 1
archive=$top/crates/golly_canon_c/out/libgolly_canon_c.a
rm -f "$archive"
if ! sh "$top/scripts/archive" > said 2>&1; then
    tail -n 20 said
    echo "the library is not built: scripts/archive"
    exit 1
fi
sh "$top/scripts/link_library" "$archive" built || exit 1
version=$(cat "$top/VERSION")
verdict "the shared object's file has the name that programs are linked with, and the version" "$(
    [ "$(readlink built/libgolly_canon.so) $(readlink built/libgolly_canon.so.1)" = "libgolly_canon.so.1 libgolly_canon.so.1.$version" ] || ls -l built)"

built() { # NAME SOURCE WORDS..
    name=$1
    source=$2
    shift 2
    verdict "$name compiles" "$("$CC" -std=c11 -Wall -Wextra -Werror -O1 -g -I"$top/include" -o "$name" "$top/$source" "$@" 2>&1)"
}

# ---- the header's promises

built checks tests/library/checks.c built/libgolly_canon.a -pthread
./checks > said 2>&1
counted "the promises of the header" $?
built shared_checks tests/library/checks.c -Lbuilt -lgolly_canon -Wl,-rpath,"$folder/built" -pthread
./shared_checks > said 2>&1
counted "the same by the shared object" $?
if command -v valgrind > /dev/null; then
    valgrind -q --error-exitcode=9 --leak-check=full --show-leak-kinds=all ./checks > said 2>&1
    counted "the same, each access to memory checked" $?
else
    echo "skipped: each access to memory checked, since valgrind isn't installed"
fi

# The header's numbers are those of the names: GOLLY_CANON_BAD_CHILD is that of BadChild.
sed -n 's/^    \(GOLLY_CANON_[A-Z_]*\) = [0-9]*,*$/\1/p' "$top/include/golly_canon.h" | awk '
    BEGIN { print "#include <golly_canon.h>\n#include <stdio.h>\nint main(void) {\n    unsigned char name[32];\n    size_t n;" }
    { printf "    if (golly_canon_status_name(%s, name, 32, &n) == 0)\n        printf(\"%s %%.*s\\n\", (int)n, (char *)name);\n", $0, $0 }
    END { print "    return 0;\n}" }' > numbers.c
"$CC" -std=c11 -Wall -Wextra -Werror -I"$top/include" -o numbers numbers.c built/libgolly_canon.a && ./numbers > told
verdict "the header's numbers have their names" "$(awk '
    { name = $2; gsub(/[A-Z]/, "_&", name); name = "GOLLY_CANON" toupper(name); if ($2 == "OK") name = "GOLLY_CANON_OK" }
    name != $1 { print " " $0 }
    END { if (NR != 41) print " " NR " numbers" }' told 2>&1)"
if command -v c++ > /dev/null; then
    printf '#include <golly_canon.h>\nint main() { return 0; }\n' > header.cpp
    verdict "the header serves C++" "$(c++ -Wall -Wextra -Werror -I"$top/include" -c header.cpp -o header.o 2>&1)"
else
    echo "skipped: the header in C++, since there is no c++"
fi

# ---- as the program does

built calls tests/library/calls.c built/libgolly_canon.a

# Runs the program and the library on the same words, and tells where they differ.
compared() { # WORDS-OF-CALLS WORDS-OF-PROGRAM FILES..
    words=$1
    "$program" $2 > wanted_out 2> wanted_all
    wanted_status=$?
    # The library doesn't know what a refused file is that isn't a pattern, and the program says that in `keys`.
    sed -E "s/ (This is|This isn't|The file is empty:|The file begins with a UTF-8|The header is missing:|The lines end in) .*//" wanted_all > wanted_err
    shift 2
    ./calls $words "$@" > out 2> err
    status=$?
    if [ "$status" != "$wanted_status" ] || ! cmp -s out wanted_out || ! cmp -s err wanted_err; then
        echo " $words $*: status $status and not $wanted_status, $(diff out wanted_out | head -n 3) $(diff err wanted_err | head -n 3);"
    fi
}

mkdir files
cp "$top"/examples/*.mc "$top"/examples/*.rle "$top"/examples/*.rule files
printf 'x = 3, y = 3, rule = 23/3\nbo$2bo$3o!\n' > files/glider.rle
printf '[M2]\n#R B3/S23\n....*$$$$$$$$\n4 0 0 0 9\n' > files/child.mc
printf 'x = 3, y = 3, rule = B3/S23V\nbo$2bo$3o!\n' > files/rule.rle
printf 'x = 1, y = 1\n0o!\n' > files/zero.rle
printf '' > files/empty.rle
printf 'x = 1, y = 1, rule = WireWorld\nA!\n' > files/named.rle
printf '#CXRLE Gen=18446744073709551615\nx = 1, y = 1\no!\n' > files/last.rle
printf 'x = 1, y = 1, rule = WireWorld\npA!\n' > files/beyond.rle
printf '@RULE WireWorld\n@TABLE\nn_states:2\nneighborhood:Moore\nsymmetries:none\n0,0\n' > files/broken.rule
head -c 1048577 /dev/zero | tr '\0' '#' > files/long.rle
problems=
count=0
for file in files/*; do
    problems="$problems$(compared canon "canon $file" "$file")$(compared show "show $file" "$file")"
    problems="$problems$(compared rle "convert $file --to rle" "$file")$(compared step "step $file" "$file")"
    problems="$problems$(compared phases "canon --form phases --within 12 $file" "$file")"
    for other in files/*; do
        case $other in *.rule) problems="$problems$(compared step "step $file --table $other" "$file" "$other")" ;; esac
        problems="$problems$(compared same "same $file $other" "$file" "$other")"
        problems="$problems$(compared same_phases "same --form phases --within 12 $file $other" "$file" "$other")"
        count=$((count + 1))
    done
done
verdict "the library does what the program does, on $count pairs of files" "$problems"

problems=
count=0
for file in files/*; do
    for size in 1 7 65536; do
        problems="$problems$(compared "pieces $size canon" "canon $file" "$file")$(compared "pieces $size show" "show $file" "$file")"
        problems="$problems$(compared "pieces $size rle" "convert $file --to rle" "$file")$(compared "pieces $size step" "step $file" "$file")"
        problems="$problems$(compared "pieces $size keys" "keys --form placed $file" "$file")"
        problems="$problems$(compared "pieces $size keys_moved" "keys --form moved $file" "$file")"
        problems="$problems$(compared "pieces $size keys_turned" "keys --form turned $file" "$file")"
        problems="$problems$(compared "pieces $size keys_phases" "keys --form phases --within 12 $file" "$file")"
        count=$((count + 1))
    done
done
verdict "streams do what the program does, on $count files in pieces" "$problems"

if command -v valgrind > /dev/null; then
    problems=
    for words in "canon files/gosper_glider_gun.mc" "show files/gosper_glider_gun.mc" "rle files/gosper_glider_gun.mc" "step files/glider.rle" \
        "step files/wire.rle files/WireWorld.rule" "step files/wire.rle files/broken.rule" "same files/glider.rle files/glider.mc" \
        "canon files/child.mc" "moved files/gosper_glider_gun.mc" "turned files/wire.rle" "key_moved files/glider.rle" "key_turned files/child.mc" \
        "same_moved files/glider.rle files/glider.mc" "same_turned files/glider.rle files/child.mc" "same_phases files/glider.rle files/glider.mc" \
        "phases files/gosper_glider_gun.mc" "pieces 7 keys_phases files/glider.rle" "key_phases files/wire.rle" \
        "pieces 1 canon files/gosper_glider_gun.mc" "pieces 7 show files/gosper_glider_gun.mc" "pieces 65536 rle files/gosper_glider_gun.mc" \
        "pieces 1 keys files/gosper_glider_gun.mc" "pieces 7 keys_turned files/glider.rle" "pieces 1 keys_moved files/child.mc" \
        "later files/gosper_glider_gun.mc" "pieces 7 later files/glider.rle" "later files/wire.rle" \
        "pieces 7 step files/glider.rle" "pieces 1 canon files/child.mc" "pieces 7 step files/wire.rle" "pieces 1 show files/empty.rle"; do
        valgrind -q --error-exitcode=9 --leak-check=full --show-leak-kinds=all ./calls $words > out 2> err
        [ $? != 9 ] || problems="$problems $words: $(head -n 5 err);"
    done
    verdict "no access to memory beyond what was handed over, and no leak" "$problems"
fi

# ---- each request for memory refused in turn

"$CC" -shared -fPIC -O2 -o refuse.so "$top/tests/devices/refuse_allocation.c"
each_request() { # WORDS..
    ./calls "$@" > wanted_out 2> wanted_err
    wanted_status=$?
    problems=
    requests_refused 0 0 "$@"
    read -r total _ < report
    [ "$total" -gt 3 ] || problems="$problems only $total requests;"
    request=1
    while [ $request -le "$total" ]; do
        for last in $request 1000000000; do
            requests_refused $request $last "$@"
        done
        request=$((request + 1))
    done
    verdict "$*: each of $total requests refused" "$problems"
}

# Refuses some requests of a run, which then does as ever, or answers Memory. A stream gives all of its memory back.
requests_refused() { # FIRST LAST WORDS..
    first=$1
    last=$2
    shift 2
    : > report
    timeout 10 env FIRST="$first" LAST="$last" REPORT=report LD_PRELOAD=./refuse.so ./calls "$@" > out 2> err
    status=$?
    if [ "$status" != "$wanted_status" ] || ! cmp -s out wanted_out || ! cmp -s err wanted_err; then
        case $(cat err) in Memory | *": Memory: Memory was refused.") told=yes ;; *) told=no ;; esac
        [ "$first" -gt 0 ] && [ "$status" = 4 ] && [ $told = yes ] && [ ! -s out ] || problems="$problems request $first: status $status;"
    fi
    [ "$1" != pieces ] || [ "$(cut -d ' ' -f 3 report)" = 0 ] || problems="$problems request $first: memory is held;"
}
each_request canon files/glider.rle
each_request show files/glider.rle
each_request rle files/glider.mc
each_request step files/glider.rle
each_request later files/glider.rle
each_request step files/wire.rle files/WireWorld.rule
each_request same files/glider.rle files/glider.mc
each_request moved files/glider.rle
each_request key files/glider.rle
each_request same_moved files/glider.rle files/glider.mc
each_request phases files/glider.rle
each_request same_phases files/glider.rle files/glider.mc
each_request canon files/child.mc
each_request pieces 1 canon files/glider.rle
each_request pieces 7 canon files/gosper_glider_gun.mc
each_request pieces 7 show files/glider.rle
each_request pieces 7 rle files/glider.mc
each_request pieces 7 step files/glider.rle
each_request pieces 7 later files/glider.rle
each_request pieces 7 moved files/glider.rle
each_request pieces 7 turned files/glider.mc
each_request pieces 7 canon files/child.mc
each_request pieces 1 keys files/glider.rle
each_request pieces 7 keys_moved files/gosper_glider_gun.mc
each_request pieces 7 keys_turned files/glider.mc
each_request pieces 7 keys_phases files/glider.rle
each_request pieces 7 keys files/child.mc
each_request pieces 65536 step files/wire.rle

# ---- what is installed, and the programs of examples/

prefix=$folder/prefix
sh "$top/scripts/install_library" built "$prefix" > said 2>&1
verdict "the library is installed" "$([ $? = 0 ] || cat said)"
export PKG_CONFIG_PATH="$prefix/lib/pkgconfig" LD_LIBRARY_PATH="$prefix/lib" PYTHONPATH="$prefix/share/golly_canon"
wanted="$(printf '[M2] (canonical 1)\n#R B3/S23\n$$$$.....*$......*$....***$$')"
verdict "the version is the program's" "$([ "golly_canon $(pkg-config --modversion golly_canon)" = "$("$program" --version)" ] || "$program" --version)"
"$CC" -std=c11 -Wall -Wextra -Werror -o canon "$top/examples/canon.c" $(pkg-config --cflags --libs golly_canon) > said 2>&1
verdict "examples/canon.c finds the library" "$(cat said)"
verdict "docs/LIBRARY.md shows examples/canon.c" "$(awk '/^```$/ { on = 0 } on { print } /^```c$/ { on = 1 }' "$top/docs/LIBRARY.md" | diff - "$top/examples/canon.c")"
verdict "examples/canon.c" "$([ "$(./canon < files/glider.rle)" = "$wanted" ] || ./canon < files/glider.rle 2>&1)"
verdict "examples/canon.c refuses" "$([ "$(./canon < files/child.mc 2>&1)" = "line 4: BadChild" ] || ./canon < files/child.mc 2>&1)"
verdict "examples/canon.py" "$([ "$(python3 -B "$top/examples/canon.py" < files/glider.rle)" = "$wanted" ] || echo another)"
verdict "examples/canon.py refuses" "$([ "$(python3 -B "$top/examples/canon.py" < files/child.mc 2>&1)" = "line 4: BadChild" ] || echo another)"
"$CC" -std=c11 -Wall -Wextra -Werror -o pieces "$top/examples/pieces.c" $(pkg-config --cflags --libs golly_canon) > said 2>&1
verdict "examples/pieces.c finds the library" "$(cat said)"
# A glider behind more comments than a piece has room for, and a soup whose text has no room in a piece either.
awk 'BEGIN { while (line++ < 5000) print "#C a line that is passed over" }' > comments
cat comments files/glider.rle > comments.rle
awk 'BEGIN {
    print "x = 0, y = 0"
    seed = 1
    for (row = 0; row < 500; row++) {
        for (at = 1; at <= 200; at++) {
            seed = (seed * 75 + 74) % 65537
            printf "%d%s%s", seed % 9 + 1, at % 2 ? "b" : "o", at % 20 ? "" : "\n"
        }
        print "$"
    }
    print "!"
}' > soup.rle
verdict "examples/pieces.c of a long file" "$([ "$(./pieces < comments.rle)" = "$wanted" ] || ./pieces < comments.rle 2>&1)"
"$program" canon soup.rle > wanted_soup
verdict "examples/pieces.c of a long text" "$(./pieces < soup.rle 2>&1 | cmp - wanted_soup 2>&1
    [ "$(wc -c < wanted_soup)" -gt 65536 ] || echo "a short text")"
verdict "examples/pieces.c refuses" "$([ "$(cat comments files/zero.rle | ./pieces 2>&1)" = "line 5002: ZeroCount" ] || echo another)"
verdict "examples/pieces.c refuses an empty file" "$([ "$(./pieces < files/empty.rle 2>&1)" = "line 1: NoHeader" ] || echo another)"
# collection.py as it is installed finds the module and the library, without a word on where they are.
printf '%s = %s\n' files/glider.rle other.rle > wanted_duplicates
cp files/glider.rle other.rle
(unset PYTHONPATH LD_LIBRARY_PATH GOLLY_CANON_LIBRARY; cd "$folder" && "$prefix/share/golly_canon/collection.py" --workers 0 --table all.sqlite files/glider.rle other.rle) 2> said |
    diff - wanted_duplicates > differing
counts="collection: 2 files, 2 keys, 0 refused, 0 unread, 1 patterns, 1 groups in the form moved"
verdict "collection.py as it is installed" "$(cat differing; grep -qx "$counts" said || cat said)"
(unset PYTHONPATH LD_LIBRARY_PATH GOLLY_CANON_LIBRARY; "$prefix/bin/golly_canon_collection" --workers 0 --table all.sqlite files/glider.rle other.rle) 2> said |
    diff - wanted_duplicates > differing
verdict "golly_canon_collection as it is installed" "$(cat differing; grep -qx "$counts" said || cat said)"
mkdir -p 'some files/deeper'
cp files/glider.rle files/wire.rle files/child.mc 'some files'
printf '[M2]\n#R b3s23\n.*$..*$***$\n4 0 0 0 1\n' > 'some files/deeper/a glider.mc'
gzip -c files/glider.rle > 'some files/packed.rle.gz'
head -c 30 'some files/packed.rle.gz' > 'some files/cut.gz'
printf '[M2]\r#R B3/S23\r$$..*$\r' > 'some files/lost.mc'
lost='line 1 has a carriage return inside it: the file seems to have lost its line ends, so that most of it is read as a comment'
printf '%s\n' "some files/child.mc: line 4: BadChild: A child number doesn't refer to an earlier square one level down." \
    'some files/cut.gz: Compressed file ended before the end-of-stream marker was reached' \
    'some files/deeper/a glider.mc = some files/glider.rle' 'some files/deeper/a glider.mc = some files/packed.rle.gz' \
    "some files/lost.mc: warning: $lost" > wanted
python3 -B "$top/examples/duplicates.py" 'some files' > out 2>&1
verdict "examples/duplicates.py" "$([ $? = 1 ] || echo ' another status')$(sort out | diff - wanted)"
printf 'x = 3, y = 3\n2o$obo$o!\n' > 'some files/turned.rle'
sed 's/^.*packed.rle.gz$/&\nsome files\/deeper\/a glider.mc = some files\/turned.rle/' wanted > wanted_turned
python3 -B "$top/examples/duplicates.py" 'some files' turned > out 2>&1
verdict "examples/duplicates.py of turned patterns" "$([ $? = 1 ] || echo ' another status')$(sort out | diff - wanted_turned)"
verdict "examples/duplicates.py wants a form" "$(python3 -B "$top/examples/duplicates.py" 'some files' shifted 2> /dev/null && echo ' status 0')"
verdict "examples/duplicates.py wants a folder" "$(python3 -B "$top/examples/duplicates.py" 'no folder' 2> /dev/null && echo ' status 0')"
python3 -B "$top/tests/library/library.py" "$program" "$top/examples" > said 2>&1
counted "the library from Python" $?
python3 -B "$top/tests/library/module.py" "$program" > said 2>&1
counted "the Python module" $?
python3 -B "$top/tests/library/tools.py" "$program" > said 2>&1
counted "the tools around the library" $?
python3 -B "$top/tests/program/compare.py" built/libgolly_canon.so --cases 2000 --seed 2 > said 2>&1
counted "the library beside the independent reader" $?
python3 -B "$top/tests/program/crowds.py" built/libgolly_canon.so > said 2>&1
counted "files that are chosen against the library's hashers" $?

ended
