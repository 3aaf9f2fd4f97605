#!/bin/sh
# Runs the recipes of docs/RECIPES.md and docs/QUESTIONS.md as they stand there, in sh (which is dash in Debian), bash and zsh, with the program, $1, on the
# PATH, in a folder of their own, and compares what they come to with what is known of the patterns in examples/ and of tables; and the examples and
# programs of both, of which the examples say themselves what is written. It needs bgolly, git, GNU parallel, rsync, sqlite3 and Python 3.

program=${1:?usage: tests/documents/recipes.sh PROGRAM}
[ -x "$program" ] || { echo "there is no program $program"; exit 1; }
for tool in git rsync sqlite3; do
    $tool --version > /dev/null 2>&1 || { echo "$tool is missing: apt-get install $tool"; exit 1; }
done
command -v bgolly > /dev/null || { echo "bgolly is missing: apt-get install golly"; exit 1; }
parallel --version 2> /dev/null | grep -q '^GNU parallel' || { echo "GNU parallel is missing: apt-get install parallel"; exit 1; }
top=$(cd "$(dirname "$0")/../.." && pwd)
folder=$(mktemp -d) || exit 1
trap 'rm -rf "$folder"' EXIT
mkdir "$folder/bin" "$folder/home" "$folder/recipes" || exit 1
# In the place of other machines: each has a home folder of its own, and, as from a real one, SHELL is set there whether or not it is here.
cat > "$folder/bin/ssh" <<'END' && chmod 755 "$folder/bin/ssh" || exit 1
#!/bin/sh
while [ "${1#-}" != "$1" ]; do
    [ "$1" != -l ] || shift
    shift
done
home=$FAR/$1
shift
[ "$1" != -- ] || shift
mkdir -p "$home" && cd "$home" && HOME=$home SHELL=/bin/sh exec sh -c "$*"
END
cp "$program" "$folder/bin/golly_canon" && chmod 755 "$folder/bin/golly_canon" || exit 1
HOME=$folder/home
PATH=$folder/bin:$HOME/.local/bin:$PATH
LC_ALL=C
GIT_CONFIG_NOSYSTEM=1
export PATH HOME LC_ALL GIT_CONFIG_NOSYSTEM
unset GIT_DIR GIT_WORK_TREE GIT_INDEX_FILE XDG_CONFIG_HOME
git config --global user.name nobody
git config --global user.email nobody@localhost
git config --global init.defaultBranch main
git config --global core.autocrlf false

. "$top/tests/shared/counting.sh"

# ---- the recipes: a block behind each line <!-- recipe: NAME -->

unnamed=$(awk -v folder="$folder/recipes" '
    /^```$/ { on = 0 }
    on { print > (folder "/" name) }
    /^```sh$/ { on = 1; split(last, words, " "); name = words[3] }
    on && last !~ /^<!-- recipe: [a-z]+ -->$/ && /^```sh$/ { print " line " FNR " of " FILENAME; name = "unnamed" }
    { last = $0 }' "$top/docs/RECIPES.md" "$top/docs/QUESTIONS.md")
verdict "each block of docs/RECIPES.md and docs/QUESTIONS.md has a name" "$unnamed"

# Runs a recipe here, which must end well or with this status, and leaves what it wrote in `out` and `err`.
recipe() { # NAME [STATUS]
    problems=
    echo "$1" >> "$folder/made"
    $shell "$folder/recipes/$1" > "$folder/out" 2> "$folder/err"
    status=$?
    [ "$status" = "${2:-0}" ] || problems=" status $status: $(head -c 500 "$folder/err");"
}

# What the last recipe, or what was run behind it, wrote.
wrote() { # TEXT
    printf '%s\n' "$1" > "$folder/wanted"
    cmp -s "$folder/out" "$folder/wanted" || problems="$problems wrote '$(head -c 2000 "$folder/out")' and not '$1';"
}

equal() { # WHAT FOUND WANTED
    [ "$2" = "$3" ] || problems="$problems $1: '$2' and not '$3';"
}

# A program or a file of docs/QUESTIONS.md or docs/RECIPES.md: the indented lines from one that has this text to the next paragraph.
program_with() { # TEXT
    awk -v text="$1" '
        index($0, "    " text) == 1 { on = 1 }
        on && /^[^ ]/ { exit }
        on { print substr($0, 5) }' "$top/docs/QUESTIONS.md" "$top/docs/RECIPES.md"
}

# ---- what is known: the glider's texts, and the same pattern in other spellings

glider='[M2] (canonical 1)
#R B3/S23
$$..*$...*$.***$$$$'
glider_for_golly='[M2]
#R B3/S23
$$$$$$......*$.......*$
.....***$$$$$$$$
4 1 0 2 0'
glider_rle='#CXRLE Pos=-3,-2
x = 3, y = 3, rule = B3/S23
bo$2bo$3o!'
glider_key=$(printf '%s\n' "$glider" | sha256sum | cut -c 1-64)

spellings() { # FOLDER
    cp "$top/examples/glider.mc" "$1/glider.mc"
    printf '[M2]\r\n#C in a larger square\r\n#R s23b3\r\n$$$$$$......*$.......*$\r\n.....***$\r\n4 1 0 2 0\r\n' > "$1/other.mc"
    printf '#CXRLE Pos=-3,-2\r\nx = 3, y = 3, rule = 23/3\r\nbo$2bo$3o!\r\n' > "$1/glider.rle"
    printf '#C row by row\n#CXRLE Gen=0 Pos=-3,-2\nx=0,y=0\n.o.$\n..o$ooo' > "$1/other.rle"
}

# What the duplicates below the folder `patterns` are, and which of its files have no key. Each way of asking answers the same question.
reported_duplicates() {
    wrote "$turned_key  patterns/a folder/\$(other) 'name'.mc
$turned_key  patterns/a folder/of two
lines.rle
$turned_key  patterns/glider.mc
$turned_key  patterns/glider.rle
$turned_key  patterns/shifted.rle"
    equal "standard error" "$(grep '^patterns/' "$folder/err" | sort)" "$refused"
}

refused='patterns/empty: line 1: NoHeader: The file begins with no header, neither [M2] nor x = .., or it ends before one. The file is empty: save it or download it again.
patterns/more: line 1: NoHeader: The file begins with no header, neither [M2] nor x = .., or it ends before one.
patterns/notes: line 1: NoHeader: The file begins with no header, neither [M2] nor x = .., or it ends before one.'

each_recipe() {
    spellings .
    cp "$top/examples/gosper_glider_gun.mc" gun.mc
    cp "$top/examples/wire.rle" "$top/examples/WireWorld.rule" .

    recipe key
    wrote "$glider_key  glider.mc
$glider_key  glider.rle
$glider_key  -"
    verdict "the key of a pattern, in $shell" "$problems"

    # Four gliders, one more elsewhere and one of another generation, a gun, and files that are no patterns, two of them the same.
    mkdir -p "patterns/a folder"
    spellings patterns
    mv patterns/other.rle "patterns/a folder/of two
lines.rle"
    mv patterns/other.mc "patterns/a folder/\$(other) 'name'.mc"
    printf 'x = 3, y = 3\nbo$2bo$3o!\n' > patterns/shifted.rle
    printf '[M2]\n#G 4\n$$..*$...*$.***$\n' > patterns/later.mc
    cp gun.mc patterns/gun.mc
    : > patterns/empty
    echo "notes" > patterns/notes
    echo "notes" > patterns/more
    turned_key=$(golly_canon canon --form turned glider.mc | sha256sum | cut -c 1-64)
    recipe duplicates
    reported_duplicates
    verdict "duplicates, in $shell" "$problems"

    recipe processors
    reported_duplicates
    verdict "duplicates by all processors, in $shell" "$problems"

    # The same files, in the order of their names, in which a line end is escaped. The status is that of the refused files.
    recipe folder 2
    wrote "patterns/a folder/\$(other) 'name'.mc
patterns/a folder/of two\\nlines.rle
patterns/glider.mc
patterns/glider.rle
patterns/shifted.rle"
    equal "standard error" "$(sort "$folder/err")" "$refused"
    verdict "duplicates of a folder, in $shell" "$problems"

    # All phases of the glider are one pattern, also the one of another generation.
    printf '#CXRLE Pos=-3,-2\nx = 3, y = 3\nobo$b2o$bo!\n' > patterns/phase.rle
    recipe phases 2
    wrote "patterns/a folder/\$(other) 'name'.mc
patterns/a folder/of two\\nlines.rle
patterns/glider.mc
patterns/glider.rle
patterns/later.mc
patterns/phase.rle
patterns/shifted.rle"
    equal "standard error" "$(sort "$folder/err")" "$refused"
    rm patterns/phase.rle
    verdict "all phases in a folder, in $shell" "$problems"

    # The first file of the group stays, and another file of one of the names that go is there already.
    mkdir sorted sorted/aside && cp -r patterns sorted && echo "kept" > sorted/aside/glider.mc && cd sorted || exit 1
    recipe aside
    equal "the files that stay" "$(find patterns -type f | LC_ALL=C sort | tr '\n' ' ')" "patterns/a folder/\$(other) 'name'.mc patterns/empty patterns/gun.mc \
patterns/later.mc patterns/more patterns/notes "
    equal "the files that go" "$(ls -A aside | tr '\n' ' ')" "glider.mc glider.mc.~1~ glider.rle of two lines.rle shifted.rle "
    equal "what is set aside" "$(cat aside/glider.mc.~1~; cmp aside/glider.mc ../patterns/glider.mc)" kept
    cd .. && rm -r sorted
    verdict "duplicates set aside, in $shell" "$problems"

    # Golly's script, which no test runs, takes the lines of this table apart.
    recipe golly 2 # some files aren't patterns
    equal "the lines of a table" "$(grep -cxE "[0-9a-f]{64}  $PWD/patterns/[a-z.]+" "$HOME/keys")" 5
    equal "where the script looks for it" "$(sed -n 's/^local table_of_keys = .*"HOME".*"\(.*\)"$/\1/p' "$top/examples/golly_canon_key.lua")" /keys
    verdict "a table for Golly, in $shell" "$problems"

    recipe fill
    equal "standard error" "$(sort "$folder/err")" "$refused"
    verdict "a table is filled, in $shell" "$problems"
    recipe ask
    wrote "patterns/a folder/\$(other) 'name'.mc
patterns/a folder/of two
lines.rle
patterns/glider.mc
patterns/glider.rle
patterns/shifted.rle
7|3"
    verdict "a table is asked, in $shell" "$problems"

    for machines in : one,two; do
        export machines FAR="$PWD/far"
        recipe machines
        reported_duplicates
        verdict "duplicates by the machines $machines, in $shell" "$problems"
    done
    problems=
    equal "how many files the machines got" "$(find far/*/patterns -type f -exec echo one \; | wc -l)" "$(find patterns -type f -exec echo one \; | wc -l)"
    verdict "files are copied to the machines, in $shell" "$problems"

    recipe formats
    wrote same
    equal "the gun in RLE" "$(tail -n +2 gun.rle)" 'x = 36, y = 9, rule = B3/S23
24bo$22bobo$12b2o6b2o12b2o$11bo3bo4b2o12b2o$2o8bo5bo3b2o$2o8bo3bob2o4b
obo$10bo5bo7bo$11bo3bo$12b2o!'
    equal "the gun again" "$(golly_canon same gun.mc again.mc)" same
    verdict "both formats, in $shell" "$problems"

    # A glider is itself again after four generations, and neither after two nor at its old place.
    recipe period
    wrote "glider.rle
-"
    for words in "4 placed" "2 moved"; do
        golly_canon step glider.rle --generations "${words% *}" |
            golly_canon duplicates --form "${words#* }" --ignore-generation glider.rle - > told
        equal "the status of $words" $? 1
        equal "what $words writes" "$(cat told)" ""
    done
    golly_canon step gun.mc --generations 30 | golly_canon duplicates --ignore-generation gun.mc - > told
    equal "the status of a gun, which has shot" $? 1
    verdict "what an author says, in $shell" "$problems"

    # The wire has eight cells, so that its electron is back behind eight generations.
    recipe table
    wrote '#CXRLE Pos=0,0 Gen=8
x = 4, y = 4, rule = WireWorld
.BA$C2.C$C2.C$.2C!'
    verdict "generations by a table, in $shell" "$problems"

    table_recipes
    mends
    recipe text
    verdict "a script for one text that Golly opens, in $shell" "$problems"
    text_recipe
    untrusted_recipe
    names_recipe
    git_recipes
}

# What the pattern of a 2 and a 3, with a dead cell between them, is one step later, or why not.
next_by() { # TABLE
    golly_canon step between.rle --table "$1" > next.mc 2> told && golly_canon convert next.mc --to rle > told
    tail -n 1 told
}

# The table of docs/RECIPES.md is refused, mended and split, and the order of its two lines counts: bgolly 3.3 gives a 2 by the table as it stands.
# And a table with each form that the tables in Golly's zip files have, by lines of either end.
table_recipes() {
    printf 'x = 1, y = 3, rule = Wind\nB$$C!\n' > between.rle
    wind='@RULE Wind
@TABLE
n_states:4
neighborhood:vonNeumann
symmetries:rotate4
var a = {2,3}
var b = {a}'
    program_with '@RULE Wind' > Wind.rule
    recipe variables
    equal "the table as it stands" "$(next_by Wind.rule)" "table line 6: BadVariable"
    equal "the mended table" "$(cat mended.rule)" "$wind
0,a,0,b,0,a"
    equal "the step by it" "$(next_by mended.rule)" "table line 8: Ambiguous"
    verdict "a table with its variables mended, in $shell" "$problems"

    recipe split
    equal "the split table" "$(cat split.rule)" "$wind
0,2,0,b,0,2
0,3,0,b,0,3"
    equal "the step by it" "$(next_by split.rule)" 'B$B$C!'
    sed -e '8 { h; d }' -e '9 G' split.rule > turned.rule
    equal "the step by the lines in the other order" "$(next_by turned.rule)" 'B$C$C!'
    verdict "a table with its line split, in $shell" "$problems"

    cat > forms <<'END'
@RULE Wind
@TABLE
n_states:4
neighborhood:Moore
symmetries:none
var a.0{0,1,2,3}
var a.1=a.0
	var	b {1, 2} # not = {a.0}
var c = a.0
var d = {3,b}
var e= 1, b # two
2,a.0,0,a.1,0,0,0,c,0,3
3,d,0,0,0,0,0,e,0,1
END
    cat > wanted <<'END'
@RULE Wind
@TABLE
n_states:4
neighborhood:Moore
symmetries:none
var a.0 = {0,1,2,3}
var a.1= {a.0}
	var	b  = {1, 2} # not = {a.0}
var c = {a.0}
var d = {3,b}
var e= {1, b} # two
2,a.0,0,a.1,0,0,0,c,0,3
3,d,0,0,0,0,0,e,0,1
END
    for ending in '' "$(printf '\r')"; do
        sed "s/\$/$ending/" forms > Wind.rule
        recipe variables
        equal "the table as it stands" "$(next_by Wind.rule)" "table line 6: BadVariable"
        equal "the mended table" "$(cat mended.rule)" "$(sed "s/\$/$ending/" wanted)"
        equal "the step by it" "$(next_by mended.rule)" 'C2$C!'
        verdict "each form of a variable, in $shell" "$problems"
    done
}

# What docs/QUESTIONS.md says to do with a file of this kind: the command in its row.
mend_of() { # TEXT
    awk -F '|' -v text="$1" 'index($3, text) && match($4, /`.*`/) { print substr($4, RSTART + 1, RLENGTH - 2); exit }' "$top/docs/QUESTIONS.md"
}

# Files that are refused, and are the glider once they are mended by that command.
mends() {
    problems=
    printf '\357\273\277x = 3, y = 3\nbo$2bo$3o!\n' > marked
    printf 'x = 3, y = 3\rbo$2bo$3o!\r' > returns
    printf 'x = 3, y = 3\nbo$%600000s2bo$%600000s3o!\n' '' '' > long
    printf '!Name: a glider\n.O.\n..O\nOOO\n' > named.cells
    printf 'x = 3, y = 3\nbo$2bo$3o!\n' > mended.rle
    while read -r file line kind text; do
        equal "the fault of $file" "$(golly_canon canon "$file" 2>&1)" "line $line: $kind"
        command=$(mend_of "$text" | sed "s/FILE/$file/; s/NEW/new/")
        rm -f new.rle
        $shell -c "$command" > mended 2>&1
        [ ! -f new.rle ] || mv new.rle mended
        equal "$file, mended by $command" "$(golly_canon same mended mended.rle --form moved 2>&1)" same
    done <<'END'
marked 1 NoHeader a byte order mark
returns 1 BadHeader a carriage return alone
long 2 LineTooLong an RLE of one line
named.cells 1 NoHeader another format
END
    verdict "refused files that are mended, in $shell" "$problems"
}

# How many cells Golly finds in a file.
golly_cells() { # FILE
    bgolly -a HashLife -m 0 "$1" 2>&1 | sed -n 's/^0: //p' | tr -d ,
}

# Files that were probably meant as another pattern. Macrocell files that Golly reads otherwise: they lost all line ends, or the first one; and a rule or a
# generation is a comment here. And RLE that was cut off, and three patterns in one file.
misread() { # FILE NUMBER
    case $2 in
        1) printf '[M2]\r#R B3/S23\r$$..*$...*$.***$\r' ;;
        2) printf '[M2]\r#R B36/S23\n$$..*$...*$.***$\n' ;;
        3) printf '[M2]\n#RB36/S23\n$$..*$...*$.***$\n' ;;
        4) printf '[M2]\r\n#R B3/S23\r\n#G7\r\n$$..*$...*$.***$\r\n' ;;
        5) printf 'x = 5, y = 5, rule = B3/S23\n5o$\n' ;;
        6) printf 'x = 3, y = 3\nbo$2bo$3o!\n%.0s' 1 2 3 ;;
    esac > "$1"
}

# Golly opens the text of a pattern that lies in any of the four quarters about (0, 0), of which the canonical text is blank to it; each spelling has one
# text, and nothing comes of a blank pattern, nor of a file that is probably meant as another one.
text_recipe() {
    problems=
    equal "what Golly reads of the canonical text" "$(golly_canon canon glider.mc > leaf.mc && golly_cells leaf.mc)" 0
    for at in -3,-2 0,0 -4,1 1,-4 3,3 -4,-4 0,-3 -1,-1 -20,7; do
        printf '#CXRLE Pos=%s\nx = 3, y = 3\nbo$2bo$3o!\n' "$at" > at.rle
        for format in mc rle; do
            golly_text $format < at.rle > "at of.$format" || problems="$problems no $format of a glider at $at;"
            equal "the pattern at $at as $format" "$(golly_canon same at.rle "at of.$format")" same
            equal "the cells at $at as $format in Golly" "$(golly_cells "at of.$format")" 5
        done
        golly_canon canon at.rle | golly_text mc | cmp -s - "at of.mc" || problems="$problems the canonical text at $at has another text;"
    done
    equal "a large text" "$(golly_text mc < gun.mc | sha256sum)" "$(golly_canon canon gun.mc | sha256sum)"
    equal "states" "$(golly_text mc < wire.rle | sha256sum)" "$(golly_canon canon wire.rle | sha256sum)"
    printf 'x = 0, y = 0\n!\n' > blank
    for format in mc rle; do
        golly_text $format < blank > told 2> "$folder/err" && problems="$problems a blank pattern has a text;"
        equal "what a blank pattern has" "$(cat told "$folder/err")" "golly_text: the pattern is blank"
        for number in 1 2 3 4 5 6; do
            misread odd.mc $number
            golly_text $format < odd.mc > told 2> "$folder/err"
            equal "the status of file $number that is meant otherwise" $? 2
            equal "what it has" "$(cat told; cat "$folder/err")" "golly_text: $(golly_canon keys odd.mc 2>&1 > /dev/null | sed 's/^odd.mc: warning: //')"
            [ "$(wc -c < "$folder/err")" -gt 60 ] || problems="$problems nothing is said of file $number that is meant otherwise;"
        done
        printf '[M2]\n#R B3/S23\n' > blank.mc
        golly_text $format < blank.mc > told 2>&1 && problems="$problems a file without squares has a text;"
        equal "what a file without squares has" "$(cut -c 1-47 told)" "golly_text: the file has no line of squares, so"
    done
    equal "a refused file" "$(printf '[M2]\n4 0 0 0 9\n' | golly_text mc 2>&1; echo $?)" "$(printf 'line 2: BadChild\n2')"
    equal "no format" "$(golly_text 2>&1 < at.rle; echo $?)" "$(printf 'usage: golly_text rle|mc < FILE\n5')"
    verdict "one text that Golly opens, in $shell" "$problems"
}

# A file is replaced by the one text of its pattern; one that is refused, and one whose text is too long, stay as they are, and nothing is left beside them.
untrusted_recipe() {
    recipe untrusted
    mkdir own && cp glider.rle own/wanted.rle && cp glider.mc own/wanted.mc
    for format in rle mc; do
        ./in_place own/wanted.$format
        equal "the status of a file" "$?" 0
        equal "its text" "$(cat own/wanted.$format)" "$(golly_text $format < glider.$format)"
        equal "what Golly reads of it" "$(golly_cells own/wanted.$format)" 5
    done
    printf '[M2]\n4 0 0 0 9\n' > own/refused.mc
    ./in_place own/refused.mc 2> told
    equal "the status of a refused file" "$?" 2
    equal "a refused file" "$(cat own/refused.mc)" "$(printf '[M2]\n4 0 0 0 9\n')"
    equal "the fault of a refused file" "$(cat told)" "line 2: BadChild"
    for long in rle mc; do
        sed 's/ulimit -f 2000000/ulimit -f 0/' in_place > tight
        cp glider.$long own/long.$long
        sh tight own/long.$long 2> told && problems="$problems a text that is too long was taken;"
        equal "a file whose text is too long" "$(cat own/long.$long)" "$(cat glider.$long)"
    done
    sed 's/timeout 60/timeout 0.01/; s/exec golly_text/sleep 9; exec golly_text/' in_place > late
    sh late own/long.mc 2> told
    equal "the status after too long a time" "$?" 124
    equal "a file that takes too long" "$(cat own/long.mc)" "$(cat glider.mc)"
    equal "the files" "$(ls -A own | tr '\n' ' ')" "long.mc long.rle refused.mc wanted.mc wanted.rle "
    verdict "one text in the place of a file, in $shell" "$problems"
}

# What names may do: each file is replaced, keeps its mode, and no other file is made, changed or lost, also where one has the name of an older version of
# the recipe's own. Links, and what they lead to, stay.
names_recipe() {
    problems=
    mkdir names 'names/sub folder' && cp in_place "$folder/bin/in_place" && cd names || exit 1
    for name in -x.rle -- -rf 'a b.rle' 'two
lines.rle' 'end
' '*.rle' '$(touch oops).rle' '`touch oops`.rle' "'quote\".rle" 'back\slash.rle' 'a=b.rle' '~.rle' 'sub folder/-y.rle' "$PWD/whole.rle" \
        "$(printf 'caf\351.rle')"; do
        case $name in /*) file=$name ;; *) file=./$name ;; esac
        cp ../glider.rle "$file" && chmod 600 "$file"
        timeout 20 in_place "$name" > told 2>&1 || problems="$problems '$name' isn't replaced: $(cat told);"
        cmp -s "$file" ../own/wanted.rle || problems="$problems '$name' has another text;"
        equal "the mode of '$name'" "$(stat -c %a "$file")" 600
    done
    rm told
    equal "how many files there are" "$(find . -type f -exec echo one \; | wc -l)" 16
    cd .. && mkdir beside && cd beside || exit 1
    for file in y.rle WireWorld.rule; do
        cp "$top/examples/WireWorld.rule" "$file" && echo "another upload" > "$file.new"
    done
    cp ../glider.rle y.rle && chmod 640 y.rle && echo "another upload" > .in_place.new
    cp ../glider.rle real.rle && ln -s real.rle link.rle && ln -s nothing broken.rle
    cp ../glider.rle one.rle && ln one.rle two.rle
    mkdir folder.rle && mkfifo pipe.rle
    misread mac.mc 1 && misread meant.mc 3 && misread cut.rle 5 && misread joined.rle 6 && cp mac.mc meant.mc cut.rle joined.rle ..
    [ "$(id -u)" != 0 ] || chown 65534:65534 y.rle # only root may give a file away
    owner=$(stat -c %u:%g y.rle)
    in_place y.rle || problems="$problems y.rle isn't replaced;"
    equal "the owner of y.rle" "$(stat -c %u:%g y.rle)" "$owner"
    equal "y.rle" "$(cat y.rle)" "$(cat ../own/wanted.rle)"
    equal "the mode of y.rle" "$(stat -c %a y.rle)" 640
    for name in WireWorld.rule link.rle broken.rle one.rle two.rle folder.rle pipe.rle mac.mc meant.mc cut.rle joined.rle absent.rle ''; do
        timeout 20 in_place "$name" > told 2>&1 && problems="$problems '$name' is replaced;"
        [ -s told ] || problems="$problems nothing is said of '$name';"
    done
    rm told
    equal "files beside it" "$(cat y.rle.new WireWorld.rule.new .in_place.new | sort -u)" "another upload"
    equal "where a link leads" "$(readlink link.rle) $(readlink broken.rle) $(stat -c %h one.rle two.rle | tr '\n' ' ')" "real.rle nothing 2 2 "
    for name in real.rle one.rle two.rle; do cmp -s $name ../glider.rle || problems="$problems $name is another file;"; done
    for name in mac.mc meant.mc cut.rle joined.rle; do cmp -s $name ../$name || problems="$problems $name, which is meant otherwise, is lost;"; done
    equal "the files" "$(ls -A | tr '\n' ' ')" ".in_place.new WireWorld.rule WireWorld.rule.new broken.rle cut.rle folder.rle joined.rle link.rle \
mac.mc meant.mc one.rle pipe.rle real.rle two.rle y.rle y.rle.new "
    cd ..
    verdict "files of any names, with others beside them, in $shell" "$problems"
}

# Behind a commit of two gliders: their other spellings are no difference, and a cell more is one of canonical texts.
git_recipes() {
    mkdir diff clean
    spellings diff
    cd diff || exit 1
    git init -q
    recipe diff
    git add . && git commit -q -m gliders
    cp other.mc glider.mc
    cp other.rle glider.rle
    equal "the files that git sees changed" "$(git diff --name-only | tr '\n' ' ')" "glider.mc glider.rle "
    equal "the difference of spellings" "$(git diff)" ""
    sed -i 's/ooo$/oooo/' glider.rle
    equal "the difference of patterns" "$(git diff | tail -n +4)" '+++ b/glider.rle
@@ -1,3 +1,3 @@
 [M2] (canonical 1)
 #R B3/S23
-$$..*$...*$.***$$$$
+$$..*$...*$.****$$$$'
    echo "notes" > glider.rle
    equal "the difference to no pattern" "$(git diff | tail -n 1)" "+notes"
    verdict "differences in git, in $shell" "$problems"

    cd ../clean || exit 1
    spellings .
    git init -q
    recipe clean
    git add . && git commit -q -m gliders
    for format in mc rle; do
        text=$glider_for_golly
        [ $format = mc ] || text=$glider_rle
        blob=$(printf '%s\n' "$text" | git hash-object --stdin)
        equal "the blobs of .$format" "$(git ls-files -s "*.$format" | cut -d ' ' -f 2 | tr '\n' ' ')" "$blob $blob "
        rm "other.$format" && git checkout -q -- "other.$format"
        equal "other.$format as it is checked out" "$(cat "other.$format")" "$text"
        equal "what Golly reads of other.$format" "$(golly_cells "other.$format")" 5
    done
    cp glider.mc -- '-x y
z.mc' && chmod 600 ./-* && ln -s glider.rle link.rle && cp glider.mc kept.mc.new
    git add . && git commit -q -m names
    equal "a name of two lines" "$(git cat-file -p ':./-x y
z.mc')" "$glider_for_golly"
    equal "a link" "$(git cat-file -p :link.rle)" glider.rle
    printf '[M2]\n' > odd.mc
    git add odd.mc 2> "$folder/err" && problems="$problems a file without squares was added;"
    for number in 1 2 3 4; do
        misread odd.mc $number
        git add odd.mc 2> "$folder/err" && problems="$problems file $number that is meant otherwise was added;"
    done
    rm odd.mc
    echo "notes" > notes.mc
    git add notes.mc 2> "$folder/err" && problems="$problems a file that is no pattern was added;"
    equal "the files that are kept" "$(git ls-files | tr '\n' ' ')" '"-x y\nz.mc" .gitattributes glider.mc glider.rle kept.mc.new link.rle other.mc other.rle '
    verdict "one text in git, in $shell" "$problems"
    cd .. || exit 1
}

for shell in sh bash zsh; do
    command -v $shell > /dev/null || { echo "skipped: the recipes in $shell, since it isn't installed"; continue; }
    mkdir "$folder/$shell" && cd "$folder/$shell" || exit 1
    each_recipe
done
verdict "each recipe is run" "$(ls "$folder/recipes" | while read -r name; do grep -qx "$name" "$folder/made" || echo " $name isn't"; done)"

# ---- the examples of README.md and docs/QUESTIONS.md: an indented command behind `$ `, and the lines that it writes

mkdir "$folder/top" && cd "$folder/top" || exit 1
cp -r "$top/examples" "$folder/bin/golly_canon" .
cp examples/glider.mc .
printf 'x = 3, y = 3\nbob$2bo$3o!\n' > glider.rle
# The collection of README.md: two blocks, two gliders of which one is turned, and a pattern without a duplicate.
mkdir -p patterns/old patterns/still
printf 'x = 3, y = 3, rule = B3/S23\nbo$2bo$3o!\n' > patterns/glider.rle
printf '[M2] (golly 4.2)\n#R 23/3\n*$*.*$**$$$$$$\n' > patterns/old/glider.mc
printf '[M2] (golly 4.2)\n#R B3/S23\n$$$...**$...**$$$$\n' > patterns/block.mc
printf 'x = 2, y = 2, rule = B3/S23\n2o$2o!\n' > patterns/still/block.rle
cp examples/gosper_glider_gun.mc patterns
for document in README.md docs/QUESTIONS.md; do
    # A blank line is written if indented ones come after it.
    mkdir examples_of && awk '
        /^    \$ / { number = NR; on = 1; blank = ""; print substr($0, 7) > ("examples_of/" number); printf "" > ("examples_of/" number ".wanted"); next }
        /^$/ { blank = blank "\n"; next }
        !/^    / { on = 0 }
        on { printf "%s%s\n", blank, substr($0, 5) > ("examples_of/" number ".wanted"); blank = "" }' "$top/$document"
    for wanted in examples_of/*.wanted; do
        example=${wanted%.wanted}
        sh "$example" > out 2>&1
        verdict "the example in line ${example#*/} of $document" "$(diff out "$wanted")"
    done
    rm -r examples_of
done

# Keys that pass over the place and the direction: of a glider in two places, turned by a quarter, and reflected; and of another pattern.
printf 'x = 3, y = 3\n3o$o$bo!\n' > turned.rle
printf 'x = 3, y = 3\n3o$o$2o!\n' > other.rle
golly_canon keys --form turned glider.rle glider.mc turned.rle other.rle > out 2>&1
problems=
equal "how many keys" "$(cut -d ' ' -f 1 out | sort | uniq -c | sort -n | awk '{ print $1, length($2) }' | tr '\n' ' ')" "1 64 3 64 "
verdict "keys of what is turned" "$problems"

# Without the toolchain, at the top of the repository.
cp -r "$top/tests" . && program_with "cat > canon.py" > without && sh without > out 2>&1
verdict "the canonical text without the toolchain" "$(./golly_canon canon examples/glider.mc | diff out -)"
mkdir flat flat/patterns && cp patterns/glider.rle patterns/old/glider.mc patterns/block.mc patterns/still/block.rle examples/gosper_glider_gun.mc flat/patterns
echo 'no pattern' > flat/patterns/other
program_with "for file in patterns" > flat/listed && (cd flat && cp -r ../tests ../canon.py . && sh listed > ../out 2> ../err)
problems=
equal "how many duplicates" "$(grep -c . out)" 4
equal "the refused file" "$(tr -s '\n ' ' ' < err)" "line 1: NoHeader in patterns/other "
equal "the lines" "$(cat out)" "$(cd flat && golly_canon keys --form turned patterns/* 2> ../err | sort | uniq -w 64 -D)"
verdict "the duplicates without the toolchain" "$problems"

ended
