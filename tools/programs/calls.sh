# How tools/programs-test tests both programs where calls of C fail or fall short (shim.c).

# A program reads `input`, by the name that is given first; then come the program and its arguments. Where its calls of C fall short or are
# interrupted it must print `whole`. Where a read fails it must tell that and print nothing; where a write fails it must print nothing more: the call
# after that one, which does not fail, would print.
calls_of() {
    source=$1
    shift
    cp "$to/whole" "$to/want"
    for calls in READS=1 READS=h READS=i1 READS=iiih WRITES=1 WRITES=h WRITES=i. WRITES=iii1; do
        gives "$calls $*" $shim $calls "$@" < "$input"
    done
    for calls in READS=e. READS=.e READS=1e READS=hie READS=1i1e; do
        tells "$calls $*" "$source: Input/output error" $shim $calls "$@" < "$input"
    done
    for calls in WRITES=e. WRITES=ie.; do
        tells "$calls $*" "standard output: Input/output error" $shim $calls "$@" < "$input"
    done
    for calls in WRITES=he. WRITES=hihe.; do
        tells_midway "$calls $*" "standard output: Input/output error" $shim $calls "$@" < "$input"
    done
}

test_calls_of_list() {
    cp "$sample" "$text"
    cp "$sample" "$input"
    listing > "$to/whole"
    calls_of "standard input" "$list"
    calls_of "$input" "$list" "$input"
    associations 809 9
    cp "$text" "$input"
    listing > "$to/whole"
    calls_of "standard input" "$list"
    cp "$to/whole" "$to/want"
    gives "three writes for 8,192 events" $shim WRITES=...e "$list" < "$input"
    for calls in WRITES=.e WRITES=..e; do
        tells_midway "8,192 events, $calls" "standard output: Input/output error" $shim $calls "$list" < "$input"
    done
    group "calls of list"
}

test_calls_of_replay() {
    cp "$kept/stdin" "$input"
    cp "$kept/stdout" "$to/whole"
    calls_of "standard input" "$replay"
    tells_midway "WRITES=.e replay" "standard output: Input/output error" $shim WRITES=.e "$replay" < "$input"
    tells_midway "replay, the 8,001st read fails" "standard input: Input/output error" $shim READS="$(many 8000 .)e" "$replay" < "$input"
    group "calls of replay"
}
