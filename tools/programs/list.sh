# How tools/programs-test tests `list`: limits, texts, arguments, and what can't be read or written.
usage="list: one FILE at most, and no option but --help"

# 64 of an opener, behind a beginning, are read, with so many lines; the 65th is refused where it stands, so many bytes behind the begin of its text.
openers() {
    { printf '%s' "$1"; many 64 "$2"; } > "$text"
    lists "64 of $2" "$3"
    printf '%s' "$2" >> "$text"
    lists "65 of $2" "refused,6,$((${#1} + 64 * ${#2} + $4))"
}

limits_of_bytes() {
    { printf 'properties A => "'; many 32749 x; printf '";'; } > "$text"
    lists "32,768 bytes" 14
    printf '\n' >> "$text"
    lists "32,769 bytes" refused,1,32768
    cp "$text" "$input"
    on_open_pipe prints "no byte more is read than needed" refused,1,32768 "$list"
    { printf 'properties -- '; many 32753 x; printf '\303'; } > "$text"
    lists "32,768 bytes, cut in a sequence" refused,2,32767
    printf '\274' >> "$text"
    lists "a sequence over the limit" refused,1,32768
    yes 'A => 1;' | head -c 10000000 > "$to/long"
    prints "10,000,000 bytes of a file" refused,1,32768 "$list" "$to/long"
    prints "10,000,000 bytes of a pipe" refused,1,32768 sh -c 'cat "$1" | "$0"' "$list" "$to/long"
    prints "a pipe without end" refused,1,32768 sh -c 'yes | "$0"' "$list"
}

test_limits() {
    limits_of_bytes
    { printf properties; many 16383 ';'; } > "$text"
    lists "16,384 tokens" 4
    printf ';' >> "$text"
    lists "16,385 tokens" refused,3,16393
    associations 809 9
    lists "8,192 events" 8193
    associations 808 10
    lists "8,193 events" "refused,5,$(size "$text")"
    associations 900 0
    lists "9,003 events" refused,5,6563
    openers 'properties A => ' '(' 268 0
    openers 'properties A => ' '[b=>' 588 0
    openers 'properties A => ' 'not ' 204 0
    openers 'properties A => ' '+' 204 0
    openers 'properties A => ' '- ' 204 0
    openers 'properties A => classifier (' 'B(c=>' 720 1
    group "limits"
}

# Listings of about 65,536 bytes, each a little longer than the one before, so that a piece's end falls on nearly every place in a line.
lists_around_a_piece() {
    for wide in 4 5 6 7 8 9 10 11 12 13 14 15; do
        for indent in 0 3 5 8; do
            awk -v wide=$wide -v indent=$indent 'BEGIN { print "properties"; for (i = 0; i < 377; i++)
                print substr("         ", 1, i < wide ? 9 : i == wide ? indent : 0) "A => 1;" }' > "$text"
            lists "377 associations, $wide indented by 9, one by $indent"
        done
    done
}

test_texts() {
    for sample_text in samples/*.aadl; do
        cp "$sample_text" "$text"
        lists "$sample_text"
    done
    cp samples/characters.listing "$to/want"
    gives "the kept listing of many characters" "$list" samples/characters.aadl
    while read -r known format; do
        printf -- "$format" > "$text"
        lists "the text '$format'" "$known"
    done << 'END'
refused,4,0
refused,4,3 \n\t\040
refused,4,14 -- properties\n
refused,4,0 \357\273\277properties none;
refused,4,0 property none;
refused,2,18 properties A => 1;\377
refused,2,14 properties -- \303
refused,2,17 properties A => "\342\202
refused,2,0 \377\376p\000
refused,8,0 "
refused,8,5 A => "1
refused,8,16 properties A => "a;\n
refused,8,16 properties A => "a"";
refused,8,25 properties A => ("a"", "b");
refused,2,18 properties A => "a\303
14 properties A => "a""";
18 properties A => "a", "";
14 properties A => ""; -- "
4 properties
4 properties\n\n-- the rest\n\n
6 PROPERTIES none;
12 properties A => ;
12 properties A => \000;\n
15 properties A => 0x1F;
15 properties\r\n\tA => 1 ms;\r\n
12 properties -- M\303\274hle\n\n A\t=> \342\200\2341;
18 properties -- \303\244\n  A => "\303\274",  -- x\r\n\t1; \303\266
26 properties A => "\342\202\254\360\237\230\200", "e\314\201",\r\n\t"\357\273\277", 1; \360\237\230\200 B
14 properties A => "\302\205\342\200\250" ;
END
    lists_around_a_piece
    group "texts"
}

test_arguments() {
    cp "$sample" "$text"
    cp "$sample" "$to/-x"
    path=.//$(many 2036 ./)$sample
    listing > "$to/want"
    gives "FILE" "$list" "$sample" < /dev/null
    gives "no argument" "$list" < "$sample"
    gives "-" "$list" - < "$sample"
    gives "./-x" sh -c 'cd "$1" && "$0" ./-x' "$list" "$to"
    gives "a path of 4,095 bytes" "$list" "$path"
    tells "a path of 4,096 bytes" "/$path: File name too long" "$list" "/$path"
    tells "a path of 4,097 bytes" "argument: File name too long" "$list" "./$path"
    tells "an empty argument" ": No such file or directory" "$list" ''
    tells "two arguments" "$usage" "$list" "$sample" "$sample"
    tells "an unknown option" "$usage" "$list" --helped
    printf '%s\n' "list [FILE] " "            " "list --help " > "$to/want"
    gives "--help" sh -c '"$0" --help | cut -c 1-12' "$list"
    group "arguments"
}

test_failures() {
    cp "$sample" "$input"
    unreadable "$list"
    unreadable "$list" -
    tells "a directory" "samples: Is a directory" "$list" samples
    tells "no such file" "no-such-file: No such file or directory" "$list" no-such-file
    if [ "$(id -u)" -eq 0 ]; then
        echo "a file without permission: left out, root may read it"
    else
        cp "$sample" "$to/shut" && chmod 0 "$to/shut"
        tells "no permission" "$to/shut: Permission denied" "$list" "$to/shut"
    fi
    unwritable "$list"
    unwritable "$list" "$sample"
    unwritable "$list" --help
    unwritable "$list" /dev/null
    group "failures"
}
