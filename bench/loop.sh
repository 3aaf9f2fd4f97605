#!/bin/sh
# Times a million calls of the library on a glider, in either format, beside the plain program in a loop, and says whether memory grows.
# usage: bench/loop.sh FOLDER [COUNT]    (FOLDER: what scripts/link_library made, as out/library)
set -eu
usage="usage: bench/loop.sh FOLDER [COUNT]"
library=$(cd "${1:?$usage}" && pwd)
count=${2:-1000000}
here=$(cd "$(dirname "$0")" && pwd)
folder=$(mktemp -d)
trap 'rm -rf "$folder"' EXIT
cd "$folder"
: "${CC:=cc}"
"$CC" -O2 -I"$here/../include" -o loop_library "$here/loop_library.c" "$library/libgolly_canon.a"
"$CC" -O2 -w -o loop_plain "$here/loop_plain.c"
printf 'x = 3, y = 3, rule = B3/S23\nbo$2bo$3o!\n' > glider.rle
printf '[M2]\n#R B3/S23\n$$$$.....*$......*$....***$$\n' > glider.mc
for file in glider.rle glider.mc; do
    for program in loop_library loop_plain; do
        for turns in $((count / 10)) "$count"; do
            /usr/bin/time -f "$file $program $turns: %U s, %M KiB" ./$program $file "$turns" > said
        done
    done
done
