#!/bin/sh
# What `make` does, with a compiler in place of the toolchain's that notes what it is asked: each crate that the program stands on is proved once, after
# those below it, and only again where its files or those of a crate below it changed; then the program is left as ./golly_canon. Where a proof fails,
# `make` leaves no program and fails. What `make install` does: it proves nothing, puts what is built into the folders that are named, and puts
# nothing in place where a part isn't built. And where something is missing that a command needs, it says so before anything is proved.
top=$(cd "$(dirname "$0")/../.." && pwd)
folder=$(mktemp -d) || exit 1
trap 'rm -rf "$folder"' EXIT
cd "$folder" || exit 1
cp -r "$top/Makefile" "$top/VERSION" "$top/crates.txt" "$top/scripts" "$top/docs" "$top/completions" "$top/include" "$top/python" "$top/examples" .
for crate in "$top"/crates/*; do mkdir -p "crates/${crate##*/}"; done
mkdir -p crates/golly_canon/src kit/bin && echo "a program" > crates/golly_canon/src/main.rt && echo "a kit" > kit/KIT-ID
printf '#!/bin/sh\necho "rt $*" >> "$NOTES"\n' > kit/bin/rt
# It notes when it begins with a crate and when it ends, and writes what it is told to write.
cat > kit/bin/rattle <<'NOTES'
#!/bin/sh
while [ $# != 0 ]; do
    case $1 in
        --crate-name) crate=$2 ;;
        --jobs) jobs=$2 ;;
        -o) made=$2 ;;
    esac
    shift
done
echo "begin $crate" >> "$NOTES"
echo "$crate in $jobs" >> "$JOBS_NOTES"
echo "logic=proved functions=2 sum=0"
[ "$crate" != "$FAILS" ] || exit 1
case $made in *.rlib) mkdir "$made" ;; *) echo "an object" > "$made" ;; esac
echo "end $crate" >> "$NOTES"
NOTES
cat > kit/bin/rattle-link <<'NOTES'
#!/bin/sh
while [ "$1" != -o ]; do shift; done
echo "the program" > "$2"
NOTES
chmod 755 kit/bin/*
export NOTES="$folder/notes" JOBS_NOTES="$folder/jobs"
unset MAKEFLAGS
RT="$folder/kit/bin/rt"
crates=$(awk -F ': *' '
    /^[a-z]/ { name = $1; sub(/ .*/, "", name); below[name] = $2 }
    function visit(name, words, count, i) {
        if (!(name in below) || seen[name]++) return
        count = split(below[name], words, " ")
        for (i = 1; i <= count; i++) visit(words[i])
        print name
    }
    END { visit("golly_canon") }' crates.txt | sort)

. "$top/tests/shared/counting.sh"

begun() { sed -n 's/^begin //p' notes | sort; }
FAILS= JOBS=4 make -s golly_canon RT="$RT" > said 2>&1
verdict "make ends well" "$([ $? = 0 ] || cat said)"
verdict "the program is left" "$([ "$(cat golly_canon)" = "the program" ] || echo "another file")"
verdict "each crate is proved once" "$([ "$(begun)" = "$crates" ] || begun)"
verdict "a crate is proved after those below it" "$(awk -F ': *' '
    NR == FNR { name = $1; sub(/ .*/, "", name); below[name] = $2; next }
    { split($0, words, " ") }
    words[1] == "end" { proved[words[2]] = 1; next }
    {
        count = split(below[words[2]], libraries, " ")
        for (i = 1; i <= count; i++)
            if (libraries[i] in below && !(libraries[i] in proved)) print words[2] " before " libraries[i]
    }' crates.txt notes)"
verdict "a crate that is proved alone has all processors" "$(grep -qx 'golly_canon in 4' jobs || cat jobs)"
: > jobs
count=$(echo "$crates" | wc -l)
verdict "it says how far it is" "$(grep -q "^golly_canon: $count of $count crates proved, and $((count * 2)) functions" said || cat said)"

: > notes
FAILS= make -s golly_canon RT="$RT" > said 2>&1
verdict "what is proved is not proved again" "$(cat notes)"
mkdir -p crates/life_step/src && echo "a change" > crates/life_step/src/changed.rt
FAILS= JOBS=1 make -s golly_canon RT="$RT" > said 2>&1
verdict "a crate that changed is proved again, and those above it" "$([ "$(begun | tr '\n' ' ')" = "golly_canon life_cli life_generations life_step " ] || begun)"

verdict "with one processor each crate is proved in one job" "$(grep -v ' in 1$' jobs)"

rm golly_canon
mkdir -p crates/life_base/src && echo "a change" > crates/life_base/src/changed.rt
: > notes
FAILS=life_base make -s golly_canon RT="$RT" > said 2>&1
verdict "a crate that isn't proved ends it" "$([ $? != 0 ] || cat said)"
verdict "nothing above it is begun" "$([ "$(cat notes)" = "begin life_base" ] || cat notes)"
verdict "nothing is left then" "$([ ! -e golly_canon ] || echo "a program")"

# ---- the page

python3 -B scripts/page out/page > said 2>&1
status=$?
wanted="scripts/page: the library isn't proved yet: run make library first"
verdict "the page asks for the library first" "$([ "$status $(cat said)" = "1 $wanted" ] || cat said; [ ! -e out/page ] || echo "a page")"
# A PATH on which there is Python and nothing else, so that nothing can be installed either.
mkdir bare && ln -s "$(python3 -c 'import sys; print(sys.executable)')" bare/python3
PATH=$folder/bare "$(command -v make)" -s page RT="$RT" > said 2>&1
verdict "make page does so before it looks for what else it needs" "$([ "$(head -n 1 said)" = "$wanted" ] || cat said)"

# ---- what is installed

: > notes
FAILS=
export FAILS
prefix=$folder/prefix
installed() { find place -type f -o -type l | sort | tr '\n' ' '; }
makes() { make RT="$RT" DESTDIR=place PREFIX="$prefix" LIBDIR="$prefix/lib64" MANDIR=/man "$@" > said 2>&1; }
in_prefix="place$prefix"
program_files="place/man/man1/golly_canon.1 $in_prefix/bin/golly_canon $in_prefix/share/bash-completion/completions/golly_canon \
$in_prefix/share/fish/vendor_completions.d/golly_canon.fish $in_prefix/share/zsh/site-functions/_golly_canon"
library_files="$in_prefix/bin/golly_canon_collection $in_prefix/include/golly_canon.h $in_prefix/lib64/libgolly_canon.a $in_prefix/lib64/libgolly_canon.so \
$in_prefix/lib64/libgolly_canon.so.1 $in_prefix/lib64/libgolly_canon.so.1.2.3 $in_prefix/lib64/pkgconfig/golly_canon.pc \
$in_prefix/share/golly_canon/collection.py $in_prefix/share/golly_canon/golly_canon.py"
equal_files() { # WANTED..
    wanted=$(printf '%s\n' "$@" | sort | tr '\n' ' ')
    [ "$(installed)" = "$wanted" ] || echo "$(installed) and not $wanted"
}
mkdir place
makes install && echo "status 0" >> said
verdict "nothing is installed where nothing is built" "$(grep -q '^there is no ./golly_canon: make builds it$' said || cat said)$(installed)"
echo "the program golly_canon" > golly_canon && chmod 755 golly_canon
makes install && echo "status 0" >> said
verdict "nothing is installed without the library" "$(grep -q '^there is no library in out/library: make library builds it' said || cat said)$(installed)"
makes install_program
verdict "the program is installed without the library" "$([ $? = 0 ] || cat said)$(equal_files $program_files)"
makes uninstall
mkdir -p out/library && cd out/library && touch libgolly_canon.a libgolly_canon.so.1.2.3
ln -s libgolly_canon.so.1.2.3 libgolly_canon.so.1 && ln -s libgolly_canon.so.1 libgolly_canon.so
printf 'prefix=/usr/local\nlibdir=${prefix}/lib\n' > golly_canon.pc
cd "$folder" || exit 1
makes install
verdict "the program and the library are installed" "$([ $? = 0 ] || cat said)$(equal_files $program_files $library_files)"
printf 'prefix=%s\nlibdir=${prefix}/lib64\n' "$prefix" > wanted
verdict "the file for pkg-config names the folders" "$(diff wanted "$in_prefix/lib64/pkgconfig/golly_canon.pc")"
makes uninstall
verdict "what was installed is removed" "$([ $? = 0 ] || cat said)$(installed)"
verdict "an install asks rt nothing" "$(cat notes)"
for name in PREFIX LIBDIR MANDIR PYTHONDIR; do
    for target in install install_program install_library uninstall; do
        makes $target $name=relative && echo "status 0" >> said
        grep -q "^$name=relative is no absolute path" said || echo "make $target $name=relative: $(cat said)" >> problems
    done
done
verdict "a folder that is no absolute path is refused, and nothing is put in place" "$(cat problems 2> /dev/null)$(installed)"

# ---- what is missing

: > notes
cp -r "$top/tests" .
without() { # RT WORDS..
    named=$1
    shift
    PATH=$folder/bare RT=$named HEAP=$folder/heap CC=cc python3 -B "$@" > said 2>&1 < /dev/null
    status=$?
}
for row in "build make" "library gcc" "page binaryen" "packages binutils" "test golly" "test chromium" "test git" "test sqlite3" "test parallel" "test gcc"; do
    without "$RT" scripts/needs "${row% *}"
    line=$(grep "^golly_canon: install what \`make ${row% *}\` needs: apt-get install " said)
    case "$status $line " in "1 "*" ${row#* } "*) ;; *) echo " of $row: status $status, $(cat said)" >> lacking ;; esac
done
verdict "what is missing is said in a line" "$(cat lacking 2> /dev/null)"
for command in page test; do
    without "$RT" scripts/needs $command
    verdict "so is the source of the heap, for make $command" "$(grep -q 'fetch the source of a heap: sh scripts/heap' said || cat said)"
done
without "$folder/no/rt" scripts/needs build
verdict "so is the toolchain" "$([ "$status $(cat said)" = "1 golly_canon: there is no command $folder/no/rt: install the Rattle toolchain first \
(docs/INSTALL.md says which), or name it in RT" ] || cat said)"
without "$RT" tests/all
verdict "a gate that lacks something ends" "$([ "$status $(tail -n 1 said)" = "1 0 passed, 1 failed" ] || cat said)"
verdict "it says what to install" "$(grep -q '^golly_canon: install what `make test` needs: apt-get install ' said || cat said)"
verdict "nothing was proved or tested" "$(cat notes; grep '^== ' said)"
RT="$RT" python3 -B scripts/needs build > said 2>&1
verdict "where nothing is missing, nothing is said" "$([ $? = 0 ] || echo ' another status')$(cat said)"

# ---- the words of the C compiler

cat > cc <<'NOTES'
#!/bin/sh
printf '%s\n' "$@" > "$NOTES"
NOTES
chmod 755 cc
mkdir -p kit/c && touch part.o && ar rc kit/c/liblibc_c.a part.o
CC=$folder/cc CFLAGS="-g -O1" LDFLAGS="-Wl,-z,now" RT=$folder/kit/bin/rt sh scripts/link_library kit/c/liblibc_c.a linked > said 2>&1
verdict "CFLAGS and LDFLAGS reach the shared object" "$([ "$(grep -xE -- '-g|-O1|-Wl,-z,now' notes | tr '\n' ' ')" = "-g -O1 -Wl,-z,now " ] || cat said notes)"

ended
