#!/bin/sh
# The program carbon for people at a prompt: it is built where that is due, a refusal is put in words, and the exit status
# tells a report from a refusal and from a fault.
set -u

here=$(dirname -- "$(readlink -f -- "$0")")
program=$here/target/bin/carbon
# Where rt writes the program. It is copied from there, and so stays what it was while rt works.
built=$here/crates/carbon/out/carbon
# The bytes of a sheet that are copied, far more than a sheet may have: what is longer is refused by 1 all the same.
most=1000000
# The bytes of a refused line that are shown. No line that is accepted is so long.
shown=120

usage() {
    cat << 'END'
usage: carbon [SHEET]

Prints the report of a works' yearly sheet. Where no SHEET is named, or it is -, the sheet is read from standard input.

A sheet that is sent back gives a refusal: its number, a comma and the line's number on standard output; on standard
error what it means, the text of the line and how to mend it. docs/REFUSALS.md explains every refusal.

Exit status: 0  a report
             1  a refusal
             2  a fault: wrong arguments, the sheet cannot be read, the program cannot be built, or the answer cannot be
                written

The first run has rt prove and build the program, which takes about ten minutes on two processors. A run after a change
of crates.txt or of a file in crates does so again for what changed.
END
}

say() {
    printf 'carbon: %s\n' "$*" >&2
}

fault() {
    say "$*"
    exit 2
}

# A copy of the sheet, so that what is judged and what is shown are the same bytes, also of a pipe. head says what failed.
copy_sheet() {
    if [ "$sheet" = - ] && [ -t 0 ]; then
        say "the sheet is read from standard input; Ctrl-D ends it"
    fi
    head -c "$most" -- "$sheet" > "$room/sheet" || fault "the sheet was not read: $name"
}

# What rt makes of a crate stands in crates/*/out, and is no source.
is_current() {
    [ -x "$program" ] && [ -z "$(
        cd "$here" && find crates crates.txt -path 'crates/*/out' ! -path 'crates/*/*/out' -prune -o -newer "$program" -print
    )" ]
}

# The crates that rt proves for the program, each after those that it stands on: those of this repository that crates.txt
# names for the program, for these, and so on. The last is the program's own.
list_crates() {
    awk -F : '
        function list(crate, names, count, at) {
            if (!(crate in named) || crate in listed) return
            listed[crate]
            count = split(named[crate], names, " ")
            for (at = 1; at <= count; at++) list(names[at])
            print crate
        }
        { sub(/#.*/, ""); split($1, words, " "); named[words[1]] = $2 }
        END { list("carbon") }
    ' "$here/crates.txt"
}

# Passes on what rt says, a line for each crate that it proves, with the crate's place among all: rt says nothing of those that
# have not changed. What the prover says besides stays in target/log.
show_progress() {
    list_crates > "$room/crates"
    total=$(grep -c '' "$room/crates")
    crate=
    while IFS= read -r words; do
        case $words in
        'crate '*': modules '*)
            crate=${words#crate }
            crate=${crate%%:*}
            ;;
        'logic=proved '*)
            place=$(grep -nx -- "$crate" "$room/crates")
            printf '  %s of %s: %s proved\n' "${place%%:*}" "$total" "$crate"
            ;;
        'logic=not-proved'*) printf '  %s not proved\n' "$crate" ;;
        'rt: chose '* | 'rt: nothing has changed '* | 'rt: running '* | 'rt: rt '* | 'rt: '*': begins with '*) ;;
        'rt: '*) printf '  %s\n' "${words#rt: }" ;;
        esac
    done >&2
}

# The program gets the time at which its building began, so that a file that changes meanwhile is newer. Where building
# fails it gets a time before all files.
build() {
    command -v rt > /dev/null || fault "rt, which builds the program, is missing; README.md names the toolchain"
    if [ -x "$program" ]; then
        say "a source is newer than the program: what changed is proved and built again, in up to about ten minutes"
    else
        say "the program is not built yet: it is proved and built, which takes about ten minutes on two processors"
    fi
    # A folder that rt makes would make the crate's own folder newer, so those that it makes are there before that time.
    for crate in "$here"/crates/*/; do
        mkdir -p "$crate/out"
    done
    mkdir -p "$here/target/bin"
    touch "$room/began"
    # Once the program is built rt runs it, here on nothing and for nobody. rt's status is then the program's, so it does not
    # count: that rt runs the program says that it was proved and built.
    (cd "$here/crates/carbon" && rt run) < /dev/null 2>&1 > /dev/null | tee "$here/target/log" "$room/log" | show_progress
    if ! grep -q '^rt: running out/carbon' "$room/log"; then
        [ ! -e "$program" ] || touch -t 197001020000 "$program"
        fault "the program could not be built: rt run in crates/carbon failed; target/log has what the prover said"
    fi
    [ -x "$built" ] || fault "rt run wrote no program; remove the folder crates/carbon/out and try again"
    # A program that runs is replaced, and not written over.
    if ! { cp "$built" "$program.$$" && touch -r "$room/began" "$program.$$" && mv -f "$program.$$" "$program"; }; then
        fault "the program could not be copied to $program"
    fi
}

# The text of the line: bytes that are no printable ASCII are shown as cat -v and -t do, CR as ^M.
show_line() {
    sed -n "$1{p;q;}" "$room/sheet" | tr -d '\n' > "$room/line"
    length=$(wc -c < "$room/line")
    text=$(head -c "$shown" "$room/line" | cat -v -t)
    part=
    [ "$length" -le "$shown" ] || part="the first $shown of "
    printf '  The line, %s%d bytes: %s\n' "$part" "$length" "\`$text\`"
}

# The words are those of the table in docs/REFUSALS.md, each cell behind the head of its column.
show_refusal() {
    IFS=, read -r number line < "$room/answer"
    if [ "$line" = 0 ]; then
        say "$name is refused by $number"
    else
        say "$name is refused by $number at line $line"
        show_line "$line"
    fi
    awk -F ' *[|] *' -v number="$number" '
        $2 == "No." { split($0, heads) }
        $2 == number { for (i = 3; i < NF; i++) print "  " heads[i] ": " $i }
    ' "$here/docs/REFUSALS.md"
}

# A signal ends the launcher as it would without a trap, once the copy is removed.
# shellcheck disable=SC2317 # The traps below call it.
end_by() {
    trap - EXIT "$1"
    rm -rf "$room"
    kill -s "$1" $$
}

[ $# -le 1 ] || fault "name one sheet at most; carbon --help says more"
sheet=${1--}
name=$sheet
case $sheet in
-h | --help)
    usage || exit 2
    exit 0
    ;;
-) name='standard input' ;;
-*) fault "there is no option $sheet; carbon --help says more" ;;
esac

room=$(mktemp -d) || fault "no folder could be made for a copy of the sheet"
trap 'rm -rf "$room"' EXIT
trap 'end_by HUP' HUP
trap 'end_by INT' INT
trap 'end_by PIPE' PIPE
trap 'end_by TERM' TERM

copy_sheet
is_current || build
"$program" < "$room/sheet" > "$room/answer" || fault "the program did not end as it should"
case $(head -c 1 "$room/answer") in
R | T) status=0 ;;
[0-9]) status=1 ;;
*) fault "there is no answer for $name" ;;
esac
cat "$room/answer" || fault "the answer could not be written"
[ "$status" = 0 ] || show_refusal >&2
exit "$status"
