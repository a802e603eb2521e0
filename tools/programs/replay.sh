# How tools/programs-test tests `replay`: bad and large records, the two words of each event, parts of numbers, values, and what can't be read or written.

# What a line `parts` has for a token that is no number.
no_parts="0 0 0 0 0 0 0 0"

# The line `bad record`, and nothing for what follows.
bad_records() {
    many 40001 x > "$text"
    record 1 1 > "$to/long-text"
    printf properties > "$text"
    record 40001 1 > "$to/many-tokens"
    record 1 80001 > "$to/many-events"
    record 4294967295 1 > "$to/most-tokens"
    record 1 1 | head -c 11 > "$to/short-head"
    record 1 1 | head -c 21 > "$to/short-text"
    for bad in long-text many-tokens many-events most-tokens; do
        { cat "$to/$bad"; record 1 6; } > "$input"
        prints "bad record, $bad" "bad record" "$replay" < "$input"
    done
    printf '%s\n' "answer 0 0 1 1 3" "tokens 3932170" "events 11075584 0 20709377 0 33554432 1" "rest 2 3" "bad record" > "$to/want"
    for bad in short-head short-text; do
        { record 3 9; cat "$to/$bad"; } > "$input"
        gives "bad record, $bad" "$replay" < "$input"
    done
}

# The records in the files that are named are bad, and what follows is not read.
all_bad() {
    for bad in "$@"; do
        { cat "$to/$bad"; tree 1 6 4; } > "$input"
        prints "bad record of the extended form, $bad" "bad record" "$replay" < "$input"
    done
}

# Behind the record in the file `good`, of which `want` is printed and a line `bad record`, stand so many of its bytes once more.
cut_short() {
    echo "bad record" >> "$to/want"
    for bytes in "$@"; do
        { cat "$to/good"; head -c $bytes "$to/good"; } > "$input"
        gives "bad record of the extended form, $bytes bytes" "$replay" < "$input"
    done
}

# The same of the extended form: a text and words over the limits, calls and settings that there are none of, a number of its own for a call that has none; and
# a record that ends within its numbers or its text.
bad_extended() {
    many 40001 x > "$text"
    tree 1 1 1 > "$to/long-text"
    printf properties > "$text"
    tree 40001 1 1 > "$to/many-tokens"
    tree 1 80001 1 > "$to/many-events"
    tree 1 1 160001 > "$to/many-records"
    tree 1 1 $none > "$to/most-records"
    for call in 2 4 7 $none; do extended $call $none 1 6 4 > "$to/call-$call"; done
    for settings in 0 9; do extended 1 $settings 1 6 4 > "$to/settings-$settings"; done
    extended 0 0 1 6 0 > "$to/section-settings"
    extended 0 $none 1 6 4 > "$to/section-own"
    extended 0 $none 1 $none 4 > "$to/tokens-own"
    all_bad long-text many-tokens many-events many-records most-records call-2 call-4 call-7 call-$none settings-0 settings-9 section-settings section-own tokens-own
    tree 1 6 4 > "$to/good"
    printf '%s\n' "answer 0 0 1 1 3 1" "tokens 3932170" "events 11075584 0 20709377 0 33554432 1" "rest 0 0" "more 169 0 0 1" "left 0" > "$to/want"
    cut_short 4 11 12 13 27 28 37
}

# The same for the parts of a number; its own number has no limit.
bad_parts() {
    many 40001 1 > "$text"
    parts 1 $none 0 > "$to/parts-long-text"
    printf '16#1F#' > "$text"
    parts 40001 $none 0 > "$to/parts-many-tokens"
    parts 1 80001 0 > "$to/parts-many-events"
    extended 5 0 1 $none 0 > "$to/parts-settings"
    all_bad parts-long-text parts-many-tokens parts-many-events parts-settings
    parts 1 $none 0 > "$to/good"
    echo "parts 30 6 0 2 3 5 1 0" > "$to/want"
    cut_short 12 27 28 33
}

# The same for the value call, whose own number has no limit either.
bad_values() {
    many 40001 x > "$text"
    value 1 1 0 > "$to/value-long-text"
    printf properties > "$text"
    value 40001 1 0 > "$to/value-many-tokens"
    value 1 80001 0 > "$to/value-many-events"
    extended 6 0 1 6 0 > "$to/value-settings"
    all_bad value-long-text value-many-tokens value-many-events value-settings
    printf 'properties a=>-7;' > "$text"
    value 8 33 0 > "$to/good"
    printf '%s\n' "answer 0 0 7 6 16 -7" "tokens 3932170 196609 2162689 1179650 1376257 1966081 327681" \
        "events 11075584 0 20709377 0 11141120 2 11206656 2 18939905 2 33554432 3 17956865 3 11862016 4 18153473 4 11993088 5 18743297 5 33554432 6 33554432 6 17104897 6 33554432 7 33554432 7" \
        "rest 1 1" > "$to/want"
    cut_short 4 12 27 28 44
}

# The section call and the tokens-only call in both forms; the tree call with no event words, and with fewer record words than a record has and more.
forms() {
    cp "$sample" "$text"
    for events in 16384 201 $none; do
        record 16384 $events | "$replay" > "$to/want"
        extended 0 $none 16384 $events 0 > "$input"
        gives "both forms, $events event words" "$replay" < "$input"
    done
    printf properties > "$text"
    tree 1 $none 4 > "$input"
    answered "the tree call with no event words" "answer 5 0 0 0 0 0" "rest 1 0" "left 4"
    for words in 0 3; do
        tree 1 6 $words > "$input"
        answered "the tree call with $words record words" "answer 7 0 0 0 0 0" "rest 1 6" "left $words"
    done
    tree 1 6 7 > "$input"
    answered "the tree call with 7 record words" "answer 0 0 1 1 3 1" "rest 0 0" "left 3"
}

# The events of `text`, under a name, must be these, two words each, and the answer these five numbers: with as many event words as they need, and with one more, which
# keeps its contents. With one fewer the last event has no room, and each call must refuse 5 at the text's end and leave zeros.
gives_events() {
    needed=$(echo "$3" | wc -w)
    for lent in $needed $((needed + 1)); do
        record 20 $lent > "$input"
        printf '%s\n' "answer $2" "events $3" "rest $((20 - $(echo "$2" | cut -d ' ' -f 3))) $((lent - needed))" > "$to/want"
        gives "events of $1, $lent words" sh -c '"$0" | grep -v ^tokens' "$replay" < "$input"
    done
    lent=$((needed - 1))
    for form in "record 20 $lent" "tree 20 $lent 80" "value 20 $lent 0"; do
        $form > "$input"
        prints "events of $1, $form" "5 $(size "$text") rest 20 $lent" \
            sh -c '"$0" | awk "/^answer/ { answer = \$2 \" \" \$3 } /^rest/ { print answer, \$0 }"' "$replay" < "$input"
    done
}

# A Token has its own number, trivia counted too; all others have the next one's, and at the end how many tokens there are, a last space and comment among them.
# The Start of the range, which is put around the `1` and completed later, has the token behind that one, and the Start of the `1` keeps its own.
event_words() {
    printf ' properties none; -- end' > "$text"
    gives_events "no association" "0 0 7 3 5" "11075584 1 20709377 1 19333121 3 17104897 4 33554432 7"
    printf 'properties A => 1 .. 2;' > "$text"
    gives_events "a range" "0 0 12 7 19" "11075584 0 20709377 0 11141120 2 11206656 2 18939905 2 33554432 4 17956865 4 11993091 6 18743297 6 33554432 8 12386304 8 17367041 8 11993088 10 18743297 10 33554432 11 33554432 11 17104897 11 33554432 12 33554432 12"
    printf 'properties A => ; ' > "$text"
    gives_events "a missing value" "0 0 8 4 11" "11075584 0 20709377 0 11141120 2 11206656 2 18939905 2 33554432 4 17956865 4 50331653 6 17104897 6 33554432 8 33554432 8"
}

# With so many token and event words lent for `text`, the line `parts` must have the numbers that are given, for each of the tokens behind them.
tells_parts() {
    of="$1, $2 token words, $3 event words"
    words="$2 $3"
    line="parts $4"
    shift 4
    for token in "$@"; do
        parts $words $token > "$input"
        prints "parts, $of, token $token" "$line" "$replay" < "$input"
    done
}

# Each form of number, whole or broken off.
number_forms() {
    while read -r literal numbers; do
        printf %s "$literal" > "$text"
        tells_parts "$literal" 2 $none "$numbers" 0
    done << 'END'
16#1F# 30 6 0 2 3 5 1 0
2#1_0#E3 31 8 0 1 2 5 1 1
16#F.E#e-2 31 10 0 2 3 6 1 1
1_000 30 5 0 0 0 5 0 0
3.14e+5 31 7 0 0 0 4 0 1
1. 31 2 0 0 0 2 0 0
1e 31 2 0 0 0 1 0 1
16# 30 3 0 2 3 3 0 0
16## 30 4 0 2 3 3 1 0
0x1F 2 4 0 0 0 0 0 0
00 30 2 0 0 0 2 0 0
0#1 30 3 0 1 2 3 0 0
1_e 30 2 0 0 0 2 0 0
16#1E5 30 6 0 2 3 6 0 0
END
}

# A number among other tokens: event words are of no account; tokens that are no number, or do not exist, have no parts. Nor has a token of a refused text.
numbers_in_texts() {
    printf 'properties A => -16#F.E#e-2 ms;' > "$text"
    for events in 0 80000 $none; do tells_parts "a section" 11 $events "31 10 0 2 3 6 1 1" 7; done
    tells_parts "a section" 40000 $none "$no_parts" 0 1 6 8 9 10 11 12 39999 40000 $((none - 1)) $none
    tells_parts "a section" 10 $none "$no_parts" 7
    tells_parts "a section" 0 $none "$no_parts" 0
    printf "'0' \"1\" -- 2" > "$text"
    tells_parts "digits in a string and a comment" 7 $none "30 1 0 0 0 1 0 0" 1
    tells_parts "digits in a string and a comment" 7 $none "$no_parts" 0 2 3 4 5 6 7
    printf '16#1F# "' > "$text"
    tells_parts "a string that is not closed" 9 $none "$no_parts" 0 2
    printf '16#1F# \303' > "$text"
    tells_parts "no UTF-8" 9 $none "$no_parts" 0 2
    : > "$text"
    tells_parts "an empty text" 1 $none "$no_parts" 0
}

# The longest number and one that is too long; the last of as many tokens as there can be.
large_numbers() {
    many 32768 1 > "$text"
    tells_parts "32,768 digits" 1 $none "30 32768 0 0 0 32768 0 0" 0
    many 32769 1 > "$text"
    tells_parts "32,769 digits" 1 $none "$no_parts" 0
    many 16384 +1 > "$text"
    tells_parts "32,768 tokens" 32768 80000 "30 1 0 0 0 1 0 0" 32767
    tells_parts "32,768 tokens" 40000 $none "$no_parts" 32766 32768
}

# With so many token and event words lent for `text`, the value call for an association must give what is known of its answer, the number, the place and the
# value; and all of it as the reference has it.
gives_value() {
    value $2 $3 $4 > "$input"
    "$reference" < "$input" > "$to/want"
    gives "value, $1, $2 token words, $3 event words, association $4" "$replay" < "$input"
    prints "value, $1, number, place and value" "$5" sh -c '"$0" | awk "\$1 == \"answer\" { print \$2, \$3, \$7 }"' "$replay" < "$input"
}

# A constant of each form, at the ends of the range and beyond, and what is no constant.
value_forms() {
    while IFS='|' read -r value known; do
        printf 'properties A => %s;' "$value" > "$text"
        gives_value "$value" 40000 80000 0 "$known"
    done << 'END'
0|0 0 0
-0|0 0 0
1_000_|0 0 1000
- - 1 * - + 2|0 0 -2
1 + 2 * 3 - 4|0 0 3
16#F_F# + 2 * 3|0 0 261
0016#_f#|0 0 15
9223372036854775807|0 0 9223372036854775807
-9223372036854775807 - 1|0 0 -9223372036854775808
9223372036854775808|10 16 0
-9223372036854775808|10 17 0
16#8000_0000_0000_0000#|10 16 0
-9223372036854775807 - 2|10 37 0
3037000500 * 3037000500|10 27 0
9223372036854775807 + 9223372036854775808|10 38 0
9223372036854775807 * 2 - 9223372036854775808|10 36 0
16#F|9 11 0
16#_#|9 11 0
10#F#|9 11 0
17#1#|9 11 0
1#0#|9 11 0
1 ms|9 11 0
4 / 2|9 11 0
1 .. 2|9 11 0
(1)|9 11 0
1.0|9 11 0
a|9 11 0
9223372036854775808 + 1 ms|9 11 0
END
}

# Which association, and which refusal comes first; where the text is not clean or has no such association, 9 is at its length.
values_in_texts() {
    printf 'properties A => 1 ms, 2; B :: C +=> constant 5 in modes (m), 6;' > "$text"
    while read -r tokens events association known; do
        gives_value "two associations" $tokens $events $association "$known"
    done << END
40000 80000 0 9 11 0
40000 80000 1 0 0 5
40000 80000 2 9 63 0
40000 80000 $none 9 63 0
37 84 1 0 0 5
37 85 1 0 0 5
36 84 1 3 62 0
37 83 1 5 63 0
37 $none 1 5 0 0
END
    while IFS='|' read -r format known; do
        printf "$format" > "$text"
        gives_value "'$format'" 40000 80000 0 "$known"
    done << 'END'
properties none;|9 16 0
properties A => 1; }|9 20 0
properties A => 1; B => ;|9 25 0
properties A => 9223372036854775808|9 35 0
properties A => 1; \303|2 19 0
properties A => 1; "|8 19 0
A => 1;|4 0 0
END
    { printf 'properties A => '; many 65 +; printf '1;'; } > "$text"
    gives_value "65 signs" 40000 80000 0 "6 80 0"
}

# As many operators as there can be, one more, and too many bytes; a literal of as many digits as there can be, with its value in the last.
large_values() {
    { printf 'properties a=>0'; many 5459 +1; printf ';'; } > "$text"
    gives_value "5,459 operators" 40000 80000 0 "0 0 5459"
    { printf 'properties a=>0'; many 5460 +1; printf ';'; } > "$text"
    gives_value "5,460 operators" 40000 80000 0 "5 10935 0"
    { printf 'properties a=>9223372036854773079'; many 5459 +1; printf ';'; } > "$text"
    gives_value "5,459 operators, out of range on the way" 40000 80000 0 "10 5489 0"
    { printf 'properties a=>'; many 32752 0; printf '1;'; } > "$text"
    gives_value "32,753 digits" 40000 80000 0 "0 0 1"
    { printf 'properties a=>1'; many 32752 0; printf ';'; } > "$text"
    gives_value "32,753 digits, out of range" 40000 80000 0 "10 14 0"
    printf ' ' >> "$text"
    gives_value "32,769 bytes" 40000 80000 0 "1 32768 0"
}

# 40,000 bytes, nearly as many tokens, as many events as there may be and one more, their nodes, and many such records.
large_records() {
    many 40000 ' ' > "$text"
    answers "40,000 bytes" "answer 1 32768 0 0 0" "rest 40000 80000"
    { printf properties; many 32758 ';'; } > "$text"
    answers "32,759 tokens" "answer 0 0 32759 1 3" "rest 7241 79994"
    { printf 'properties a=>'; many 4 1m,; many 8184 1,; printf '1;'; } > "$text"
    answers "32,769 events" "answer 5 $(size "$text") 0 0 0" "rest 40000 80000"
    { printf 'properties a=>'; many 3 1m,; many 8185 1,; printf '1;'; } > "$text"
    answers "32,768 events" "answer 0 0 16385 16384 32768" "rest 23615 14464"
    for events in 65536 65537; do
        record 40000 $events > "$input"
        answered "32,768 events, $events event words" "answer 0 0 16385 16384 32768" "rest 23615 $((events - 65536))"
    done
    record 40000 65535 > "$input"
    answered "32,768 events, 65535 event words" "answer 5 $(size "$text") 0 0 0" "rest 40000 65535"
    answers_tree 160000 "8,192 nodes" "answer 0 0 16385 16384 32768 8192" "rest 23615 14464" "left 127232"
    answers_tree 32768 "8,192 nodes, a record for each" "answer 0 0 16385 16384 32768 8192" "rest 23615 14464" "left 0"
    answers_tree 32767 "8,192 nodes, one record too few" "answer 7 $(($(size "$text") - 2)) 0 0 0 0" "rest 40000 80000" "left 32767"
    for form in "record 40000 80000" "tree 40000 80000 160000"; do
        $form | "$reference" > "$to/one"
        copies 12 "$to/one" > "$to/want"
        $form > "$to/one"
        copies 12 "$to/one" > "$input"
        gives "12 times $form, 32,768 events" "$replay" < "$input"
    done
}

test_replay() {
    bad_records
    bad_extended
    bad_parts
    bad_values
    forms
    event_words
    number_forms
    numbers_in_texts
    large_numbers
    value_forms
    values_in_texts
    large_values
    large_records
    copies 3 "$kept/stdin" > "$input"
    copies 3 "$kept/stdout" > "$to/want"
    gives "three times the kept sample" "$replay" < "$input"
    printf properties > "$text"
    record 1 6 > "$input"
    unreadable "$replay"
    unwritable "$replay"
    group "replay"
}
