# What tools/programs-test checks with, and tools/pages-test makes records with. It sets to, a folder for files, and the programs list, replay and
# reference. `text`, `input`, `want`, `whole`, `out` and `err` are files of that folder. A check is given its name, what is wanted, and then a command.
text=$to/text
input=$to/input
shim="env LD_PRELOAD=$to/shim.so"
passed=0
failed=0
before=0,0

# In a record, in the place of a number: the extended form, the largest settings, no event words.
none=4294967295

size() {
    wc -c < "$1" | tr -d ' '
}

# A file's beginning and length, for a message.
shown() {
    printf '%s.. (%s bytes)' "$(head -c 300 "$1" | head -n 3 | tr '\0\n' '?|')" "$(size "$1")"
}

# Runs a command, and ends one that hangs.
run() {
    status=0
    timeout 60 "$@" > "$to/out" 2> "$to/err" || status=$?
}

# Counts a check: what was run must have printed `want`, and told the line that is given, or nothing.
count() {
    printf '%s' "${2:+$2
}" > "$to/tell"
    if [ "$status" -eq 0 ] && cmp -s "$to/want" "$to/out" && cmp -s "$to/tell" "$to/err"; then
        passed=$((passed + 1))
        return
    fi
    failed=$((failed + 1))
    printf '%s\n' "$1: wanted $(shown "$to/want") and on standard error $(shown "$to/tell")" \
        "    got $(shown "$to/out") and on standard error $(shown "$to/err"), status $status"
}

# Ends a group: its counts.
group() {
    echo "$1: $((passed - ${before%,*})) passed, $((failed - ${before#*,})) failed"
    before=$passed,$failed
}

# It must print `want`.
gives() {
    name=$1
    shift
    run "$@"
    count "$name"
}

# It must print the line that is given.
prints() {
    name=$1
    printf '%s\n' "$2" > "$to/want"
    shift 2
    run "$@"
    count "$name"
}

# It must tell the line that is given, and print nothing.
tells() {
    name=$1
    line=$2
    : > "$to/want"
    shift 2
    run "$@"
    count "$name" "$line"
}

# It must tell the line that is given, and print a first part of `whole`.
tells_midway() {
    name=$1
    line=$2
    shift 2
    run "$@"
    head -c "$(size "$to/out")" "$to/whole" > "$to/want"
    if [ ! -s "$to/out" ] || cmp -s "$to/out" "$to/whole"; then echo "a first part" > "$to/want"; fi
    count "$name" "$line"
}

# Makes a check on a pipe that gives `input`, and then has nothing without being at its end: a read does not wait there.
on_open_pipe() {
    mkfifo "$to/pipe"
    exec 3<> "$to/pipe"
    dd iflag=nonblock count=0 <&3 2> "$to/err"
    cat "$input" >&3
    "$@" <&3
    exec 3>&-
    rm "$to/pipe"
}

# A text so many times.
many() {
    yes -- "$2" | head -n "$1" | tr -d '\n'
}

# A section into `text`: so many associations of 10 events and so many of 11; around them are 3.
associations() {
    { printf 'properties\n'; yes 'A => 1;' | head -n "$1"; yes 'A => 1 m;' | head -n "$2"; } > "$text"
}

# A file so many times.
copies() {
    for i in $(seq "$1"); do cat "$2"; done
}

# Four bytes, the lowest first.
number() {
    printf "$(printf '\\%03o' $(($1 % 256)) $(($1 / 256 % 256)) $(($1 / 65536 % 256)) $(($1 / 16777216)))"
}

# A record: `text`, lent token words, lent event words.
record() {
    number "$(size "$text")"
    number "$1"
    number "$2"
    cat "$text"
}

# A record of the extended form: call, settings, `text`, lent token words, lent event words, the call's own number.
extended() {
    for n in $none "$1" "$2" "$(size "$text")" "$3" "$4" "$5"; do number "$n"; done
    cat "$text"
}

# A record of the tree call: `text`, lent token words, lent event words, lent record words.
tree() {
    extended 1 $none "$@"
}

# A record that asks for the parts of a number: `text`, lent token words, lent event words, the token's number.
parts() {
    extended 5 $none "$@"
}

# A record of the value call: `text`, lent token words, lent event words, the association's number.
value() {
    extended 6 $none "$@"
}

# The listing of `text` by 01's rule, from its bytes and the words of the answer to a record: columns go from character to character, each as
# long as its first byte says. Of an event's two words it needs the first; the token is counted, and if the second word has another number a line says so.
listing() {
    { od -An -v -tu1 "$text"; record 16384 16384 | "$reference"; } | awk '
        /^ *[0-9]/ { for (i = 1; i <= NF; i++) byte[bytes++] = $i }
        $1 == "answer" { print ($2 ? "refused," $2 "," $3 : "event,class,kind,last,line,column") }
        $1 == "tokens" { line = column = 1
            for (i = 2; i <= NF; i++) { kind = int($i / 65536)
                if (kind != 3 && kind != 4) { spot[++spots] = line "," column; number[spots] = i - 2 }
                for (end += $i % 65536; at < end; at += b < 128 ? 1 : b < 224 ? 2 : b < 240 ? 3 : 4) { b = byte[at]
                    if (b == 10) { line++; column = 1 } else column++ } }
            spot[++spots] = line "," column; number[spots] = NF - 1 }
        $1 == "events" { next_spot = 1
            for (i = 2; i < NF; i += 2) { class = int($i / 16777216)
                print i / 2 - 1 "," substr("STFE", class + 1, 1) "," int($i / 65536) % 256 "," $i % 65536 "," spot[next_spot]
                if ($(i + 1) != number[next_spot]) print "token " $(i + 1) ", not " number[next_spot]
                next_spot += class == 1 } }'
}

# `text` must be listed as the reference has it. What is known beforehand is a refusal's line, or how many lines there are.
lists() {
    listing > "$to/want"
    gives "$1" "$list" < "$text"
    case ${2:-} in
        refused*) prints "$1" "$2" "$list" < "$text" ;;
        ?*) prints "$1, lines" "$2" sh -c '"$0" | grep -c ""' "$list" < "$text" ;;
    esac
}

# The record in `input` must be answered as the reference has it; the lines without words are known.
answered() {
    name=$1
    "$reference" < "$input" > "$to/want"
    gives "$name" "$replay" < "$input"
    shift
    printf '%s\n' "$@" > "$to/want"
    gives "$name, the lines without words" sh -c '"$0" | grep -e ^answer -e ^rest -e ^left' "$replay" < "$input"
}

# A record of `text` with 40,000 token words and 80,000 event words.
answers() {
    record 40000 80000 > "$input"
    answered "$@"
}

# The same of the tree call, with so many record words.
answers_tree() {
    tree 40000 80000 "$1" > "$input"
    shift
    answered "$@"
}

# Standard input can't be read.
unreadable() {
    tells "$1 < DIRECTORY" "standard input: Is a directory" "$@" < samples
    tells "$1 <&-" "standard input: Bad file descriptor" sh -c '"$0" "$@" <&-' "$@"
    on_open_pipe tells "$1 on a pipe that has nothing yet" "standard input: Resource temporarily unavailable" "$@"
}

# Standard output can't be written.
unwritable() {
    tells "$* > /dev/full" "standard output: No space left on device" sh -c '"$0" "$@" > /dev/full' "$@" < "$input"
    tells "$* >&-" "standard output: Bad file descriptor" sh -c '"$0" "$@" >&-' "$@" < "$input"
    mkfifo "$to/pipe"
    tells "$* on a pipe that nobody reads" "standard output: Broken pipe" \
        sh -c 'trap "" PIPE; exec 3<> "$0" 4> "$0" 3>&-; "$@" >&4' "$to/pipe" "$@" < "$input"
    rm "$to/pipe"
}
