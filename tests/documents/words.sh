#!/bin/sh
# The man page and the completions have the words of the program, $1: its commands and options are read from its own help. The completions
# for bash are run; those for zsh and fish are read, since these shells may not be there.

program=${1:?usage: tests/documents/words.sh PROGRAM}
[ -x "$program" ] || { echo "there is no program $program"; exit 1; }
case $program in /*) ;; *) program=$PWD/$program ;; esac
cd "$(dirname "$0")/../.." || exit 1
page=docs/golly_canon.1
export COMPLETIONS="$PWD/completions/golly_canon.bash"
folder=$(mktemp -d) || exit 1
trap 'rm -rf "$folder"' EXIT
. tests/shared/counting.sh

# Two lists of words are the same, in any order.
same_words() { # NAME WORDS WANTED
    found=$(printf '%s\n' $2 | sort -u | tr '\n' ' ')
    wanted=$(printf '%s\n' $3 | sort -u | tr '\n' ' ')
    problems=
    [ "$found" = "$wanted" ] || problems=" '$found' and not '$wanted'"
    [ -n "$(echo $3)" ] || problems="$problems; the help names none"
    verdict "$1" "$problems"
}

# What the short help lists below a heading: the commands, or the options in all their spellings.
commands=$("$program" -h | awk '/^Commands:/ { on = 1; next } /^[^ ]/ || /^$/ { on = 0 } on && /^  [a-z]/ { print $1 }')
options() { # COMMAND..
    "$program" "$@" -h | awk '/^Options:/ { on = 1; next } /^[^ ]/ || /^$/ { on = 0 } on' | grep -oE -- '(^| )--?[a-zA-Z]+(-[a-zA-Z]+)*' | tr -d ' '
}
own=$(echo "$commands" | grep -vx help)

# ---- the man page

same_words "the man page has the commands" "$(awk '/^\.SH/ { on = $2 == "COMMANDS" } on && tag && /^\.B[IR] / { print $2 } { tag = $0 == ".TP" }' $page)" "$commands"
same_words "the man page has the options" "$(sed -n '/^\.SH OPTIONS/,/^\.SH "EXIT/p' $page | sed -n 's/^\.B[IR] //p' | tr -d '\\",' | grep -oE -- '--?[a-zA-Z]+(-[a-zA-Z]+)*')" \
    "$(options; for command in $own; do options $command; done)"
same_words "the man page has the statuses" "$(sed -n '/^\.SH "EXIT/,/^\.SH DIAG/s/^\.B \([0-9]\)$/\1/p' $page)" \
    "$("$program" --help | awk '/^Exit status:/ { on = 1; next } /^$/ { on = 0 } on && /^  [0-9]/ { print $1 }')"
if command -v groff > /dev/null; then
    verdict "the man page has no errors" "$(groff -man -Tutf8 -ww -z $page 2>&1 | head -n 5)"
else
    echo "skipped: the man page as groff sets it, since groff isn't installed"
fi

# ---- bash

# What bash completes the last of these words with.
completed() { # WORDS..
    bash -c '
        . "$COMPLETIONS"
        COMP_WORDS=("$@")
        COMP_CWORD=$(($# - 1))
        _golly_canon
        printf "%s\n" "${COMPREPLY[@]}"' bash "$@"
}

if command -v bash > /dev/null; then
    same_words "bash completes commands" "$(completed golly_canon '' | grep -v '^-')" "$commands"
    same_words "bash completes options" "$(completed golly_canon -)" "$(options)"
    for command in $own; do
        same_words "bash completes options of $command" "$(completed golly_canon "$command" -)" "$(options "$command")"
    done
    same_words "bash completes the command of help" "$(completed golly_canon help '')" "$commands"
    same_words "bash completes formats" "$(completed golly_canon convert --to '')" "rle mc"
    # bash takes `=` for a word of its own, unless COMP_WORDBREAKS is set to something else.
    same_words "bash completes formats behind =" "$(completed golly_canon convert --to =; completed golly_canon convert --to = r)" "rle mc"
    same_words "bash completes formats in one word" "$(completed golly_canon convert --to=)" "--to=rle --to=mc"
    same_words "bash completes forms" "$(completed golly_canon canon --form ''; completed golly_canon same --form = t)" "placed moved turned phases turned"
    same_words "bash completes forms of keys" "$(completed golly_canon keys a b --form '')" "placed moved turned phases"
    same_words "bash completes a list behind =" "$(completed golly_canon keys --from = examples/Wire)" "examples/WireWorld.rule"
    same_words "bash completes further files" "$(completed golly_canon keys a examples/wi)" "examples/wire.rle"
    mkdir "$folder/dashes" && touch "$folder/dashes/-x.mc" "$folder/dashes/-other.mc" "$folder/dashes/plain.mc"
    same_words "bash completes a file that begins with -" "$(cd "$folder/dashes" && completed golly_canon canon -x)" "./-x.mc"
    same_words "bash completes such a file among others" "$(cd "$folder/dashes" && completed golly_canon keys '')" "./-x.mc ./-other.mc plain.mc"
    same_words "bash completes such a file after its folder" "$(cd "$folder/dashes" && completed golly_canon keys plain.mc ./-)" "./-x.mc ./-other.mc"
    same_words "bash completes an option before such a file" "$(cd "$folder/dashes" && completed golly_canon canon --fo)" "--form"
    same_words "bash completes tables behind =" "$(completed golly_canon step --table = examples/Wire)" "examples/WireWorld.rule"
fi

# ---- zsh and fish

same_words "zsh has the commands" "$(sed -n "s/^    '\([a-z]*\):.*/\1/p" completions/_golly_canon)" "$commands"
same_words "fish has the commands" "$(sed -n 's/.*__fish_use_subcommand -f -a \([a-z]*\) .*/\1/p' completions/golly_canon.fish)" "$commands"
same_words "fish has the commands of help" "$(sed -n "s/.*__fish_seen_subcommand_from help' -f -a '\(.*\)'/\1/p" completions/golly_canon.fish)" "$commands"
# What zsh offers in the lines of a command: those behind its name in the `case`, or the line in front of it for no command.
zsh_options() { # [COMMAND]
    awk -v command="$1" '
        /^case / { is_case = 1 }
        is_case && /^    [a-z |]*\)$/ { on = 0; count = split($0, names, /[ |)]+/); for (i = 1; i <= count; i++) on = on || names[i] == command }
        is_case ? command != "" && on : command == ""' completions/_golly_canon | grep -oE -- "[{,']--?[a-zA-Z]+(-[a-zA-Z]+)*" | cut -c 2-
}
# What fish offers: the options of a line without a condition stand at each command, the others where their condition says.
fish_options() { # [COMMAND]
    condition=${1:+__fish_seen_subcommand_from $1}
    awk -v condition="${condition:-__fish_use_subcommand}" '!/ -n / || index($0, condition)' completions/golly_canon.fish |
        sed -n 's/^complete \(.*\)/\1/p' | grep -oE -- '-[sl] [a-zA-Z]+(-[a-zA-Z]+)*' | sed 's/-s /-/; s/-l /--/'
}
for shell in zsh fish; do
    same_words "$shell has the options" "$(${shell}_options)" "$(options)"
    for command in $own; do
        same_words "$shell has the options of $command" "$(${shell}_options "$command")" "$(options "$command")"
    done
done
# In zsh a `=` behind the name of an option lets its value stand behind a `=` too; fish always does.
for option in form within to table generations period from; do
    verdict "zsh takes --$option=" "$(grep -q -e "'--$option=\[" completions/_golly_canon || echo " it doesn't")"
done
for file in completions/_golly_canon completions/golly_canon.fish; do
    verdict "$file has the formats" "$(grep -q 'rle mc' $file || echo " no 'rle mc'")"
    verdict "$file has the forms" "$(grep -q 'placed moved turned phases' $file || echo " no 'placed moved turned phases'")"
done

# The formats and the forms are those that the program takes.
for format in rle mc; do
    verdict "convert writes $format" "$(printf '[M2]\n' | "$program" convert - --to $format > /dev/null 2>&1 || echo " it doesn't")"
done
for form in placed moved turned phases; do
    for command in canon keys; do
        verdict "$command takes $form" "$(printf '[M2]\n' | "$program" $command - --form $form > /dev/null 2>&1 || echo " it doesn't")"
    done
done

ended
