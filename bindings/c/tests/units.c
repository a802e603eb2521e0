/* Tests of gigboda.h, each a function; a test's name says what holds. The last line counts them. */
#include "gigboda.h"
#include <stdio.h>
#include <stdlib.h>
#include <string.h>
#include <time.h>

enum { ENOUGH = GIGBODA_EVENT_WORDS * GIGBODA_MOST_EVENTS }; /* event words */

static uint32_t tokens[GIGBODA_MOST_BYTES];
static uint32_t events[2 * ENOUGH];
static uint32_t records[GIGBODA_RECORD_WORDS * GIGBODA_MOST_NODES];
static char text[GIGBODA_MOST_BYTES + 1];
static char shown[1000];
static int failures; /* of the test that runs */

static void check(int holds, const char *what, int line)
{
    if (!holds) {
        printf("line %d: not so: %s\n", line, what);
        failures++;
    }
}
#define CHECK(holds) check((holds), #holds, __LINE__)

static void check_same(const char *got, const char *wanted, int line)
{
    if (strcmp(got, wanted) != 0) {
        printf("line %d: wanted: %s\n    got: %s\n", line, wanted, got);
        failures++;
    }
}
#define CHECK_SAME(got, wanted) check_same((got), (wanted), __LINE__)

#define COUNT(array) (sizeof(array) / sizeof((array)[0]))

static struct gigboda_answer read_enough(const char *section)
{
    return gigboda_read_section(section, strlen(section), tokens, GIGBODA_MOST_BYTES, events, ENOUGH);
}

static struct gigboda_tree_answer read_tree_of(const char *section, size_t lent_records)
{
    return gigboda_read_tree(section, strlen(section), tokens, GIGBODA_MOST_BYTES, events, ENOUGH, records, lent_records);
}

/* An answer's numbers in a row. */
static const char *numbers(struct gigboda_answer answer)
{
    sprintf(shown, "%zu %zu %zu %zu %zu", answer.number, answer.place, answer.tokens, answer.taken, answer.events);
    return shown;
}

static const char *tree_numbers(struct gigboda_tree_answer tree)
{
    numbers(tree.answer);
    sprintf(shown + strlen(shown), ", %zu", tree.records);
    return shown;
}

static const char *value_numbers(struct gigboda_value_answer read)
{
    numbers(read.answer);
    sprintf(shown + strlen(shown), ", %lld", (long long)read.value);
    return shown;
}

/* A node's record in a row. */
static const char *record(size_t node)
{
    struct gigboda_record r = gigboda_record_of(records, node);

    sprintf(shown, "%s %zu %zu %zu", gigboda_kind_name(r.kind), r.parent, r.first, r.below);
    return shown;
}

/* A number's parts in a row, and those of a token that is none. */
static const char no_parts[] = "0 0 0 0 0 0 0 0";
static const char *parts(struct gigboda_number n)
{
    sprintf(shown, "%u %zu %zu %zu %zu %zu %d %d", n.kind, n.length, n.base_begin, n.base_end, n.inner_begin, n.inner_end, n.closed,
            n.exponent);
    return shown;
}

/* Writes a beginning, then a piece so many times, then an end; its length. */
static size_t make_text(const char *begin, const char *piece, size_t times, const char *end)
{
    char *at = text + sprintf(text, "%s", begin);

    for (; times > 0; times--)
        at += sprintf(at, "%s", piece);
    return (size_t)(at + sprintf(at, "%s", end) - text);
}

/* ---- Versions, kinds, words ---- */

static void the_version_is_its_numbers(void)
{
    sprintf(shown, "%d.%d.%d", GIGBODA_VERSION_MAJOR, GIGBODA_VERSION_MINOR, GIGBODA_VERSION_PATCH);
    CHECK_SAME(GIGBODA_VERSION, shown);
}

/* The numbers that document 01 names. */
static void kinds_have_their_numbers_and_names(void)
{
    CHECK(GIGBODA_KIND_TOMBSTONE == 0 && GIGBODA_KIND_SEMICOLON == 5 && GIGBODA_KIND_FAT_ARROW == 18);
    CHECK(GIGBODA_KIND_INTEGER_LIT == 30 && GIGBODA_KIND_IDENT == 33);
    CHECK(GIGBODA_KIND_PACKAGE_KW == 34 && GIGBODA_KIND_FILE_KW == 114);
    CHECK(GIGBODA_KIND_PROPERTY_SECTION == 169 && GIGBODA_KIND_INTEGER_VALUE == 183);
    CHECK_SAME(gigboda_kind_name(0), "TOMBSTONE");
    CHECK_SAME(gigboda_kind_name(GIGBODA_KIND_EOF), "EOF");
    CHECK_SAME(gigboda_kind_name(169), "PROPERTY_SECTION");
    CHECK_SAME(gigboda_kind_name(GIGBODA_KIND_COUNT - 1), "REFINED_TO");
    CHECK_SAME(gigboda_kind_name(GIGBODA_KIND_COUNT), "(no kind)");
}

static void refusals_have_words(void)
{
    CHECK_SAME(gigboda_refusal_text(GIGBODA_REFUSAL_NONE), "not refused");
    CHECK_SAME(gigboda_refusal_text(2), "the text is not UTF-8");
    CHECK_SAME(gigboda_refusal_text(GIGBODA_REFUSAL_NO_RECORD), "more nodes than the tool has room for");
    CHECK_SAME(gigboda_refusal_text(GIGBODA_REFUSAL_UNCLOSED_STRING), "a string is not closed");
    CHECK_SAME(gigboda_refusal_text(GIGBODA_REFUSAL_NO_VALUE), "no whole number to compute");
    CHECK_SAME(gigboda_refusal_text(GIGBODA_REFUSAL_OUT_OF_RANGE), "a number is out of range");
    CHECK_SAME(gigboda_refusal_text(11), "(no refusal)");
}

static void messages_have_words(void)
{
    CHECK_SAME(gigboda_message_text(GIGBODA_MESSAGE_NO_EXPRESSION), "no value where one must stand");
    CHECK_SAME(gigboda_message_text(GIGBODA_MESSAGE_MISSING + GIGBODA_KIND_SEMICOLON), "expected `;`");
    CHECK_SAME(gigboda_message_text(GIGBODA_MESSAGE_MISSING + GIGBODA_KIND_TO_KW), "expected `to`");
    CHECK_SAME(gigboda_message_text(GIGBODA_MESSAGE_MISSING + GIGBODA_KIND_PROPERTY_SECTION), "expected PROPERTY_SECTION");
    CHECK_SAME(gigboda_message_text(0), "(no message)");
    CHECK_SAME(gigboda_message_text(9), "(no message)");
    CHECK_SAME(gigboda_message_text(GIGBODA_MESSAGE_MISSING + GIGBODA_KIND_COUNT), "(no message)");
}

/* ---- Calls ---- */

static void the_calls_answer(void)
{
    const char *section = "properties\n  A => 1 ms;\n";
    struct gigboda_part part;

    CHECK_SAME(numbers(read_enough(section)), "0 0 11 6 14");
    CHECK(tokens[0] == 3932170 && events[2] == 20709377 && events[3] == 0);
    part = gigboda_token_part(section, strlen(section), tokens, 11, 8);
    CHECK(part.start == 20 && part.length == 2);
    part = gigboda_token_part(section, strlen(section), tokens, 11, 11);
    CHECK(part.length == 0);
    CHECK_SAME(numbers(gigboda_read_tokens(section, strlen(section), tokens, 11)), "0 0 11 0 0");
    CHECK_SAME(numbers(gigboda_read_tokens(section, strlen(section), tokens, 3)), "3 14 0 0 0");
}

static void a_refusal_leaves_zeros(void)
{
    tokens[0] = tokens[8] = events[0] = events[8] = 7;
    CHECK_SAME(numbers(gigboda_read_section("properties \377", 12, tokens, 8, events, 8)), "2 11 0 0 0");
    CHECK(tokens[0] == 0 && tokens[8] == 7 && events[0] == 0 && events[8] == 7);
}

/* At its opening quote, after 3 and before 4, by all calls. */
static void a_string_that_is_not_closed_is_refused_8(void)
{
    tokens[0] = tokens[8] = events[0] = events[8] = 7;
    CHECK_SAME(numbers(gigboda_read_section("properties A => \"a\"\"", 20, tokens, 8, events, 8)), "8 16 0 0 0");
    CHECK(tokens[0] == 0 && tokens[8] == 7 && events[0] == 0 && events[8] == 7);
    CHECK_SAME(numbers(gigboda_read_section("properties A => \"a", 18, tokens, 6, events, 8)), "3 16 0 0 0");
    CHECK_SAME(numbers(gigboda_read_tokens("a \"", 3, tokens, 8)), "8 2 0 0 0");
    CHECK_SAME(numbers(gigboda_read_tokens("a \"\"", 4, tokens, 8)), "0 0 3 0 0");
    CHECK_SAME(tree_numbers(gigboda_read_tree("none; \"", 7, tokens, 8, events, 8, records, 2)), "8 6 0 0 0, 0");
    CHECK_SAME(value_numbers(gigboda_read_value("none; \"", 7, tokens, 8, events, 8, 0)), "8 6 0 0 0, 0");
}

static void the_tree_call_answers(void)
{
    const char *section = "properties\n  A => 1 ms;\n";

    records[16] = 7;
    CHECK_SAME(tree_numbers(read_tree_of(section, 17)), "0 0 11 6 14, 4");
    CHECK(tokens[0] == 3932170 && events[2] == 20709377 && records[16] == 7);
    CHECK_SAME(record(0), "PROPERTY_SECTION 0 0 6");
    CHECK_SAME(record(1), "PROPERTY_ASSOCIATION 0 1 5");
    CHECK_SAME(record(2), "PROPERTY_REF 1 1 1");
    CHECK_SAME(record(3), "INTEGER_VALUE 1 3 2");
}

/* Whether so many words are 0, and the one behind them is 7. */
static int is_zero_up_to(const uint32_t *words, size_t count)
{
    size_t i;

    for (i = 0; i < count && words[i] == 0; i++)
        ;
    return i == count && words[count] == 7;
}

/* A refusal 7 at a place where so many record words are lent. */
static void check_refused_7(const char *section, size_t lent, size_t place)
{
    struct gigboda_tree_answer tree;

    memset(records, 255, sizeof records);
    tokens[50] = events[50] = records[lent] = 7;
    tree = gigboda_read_tree(section, strlen(section), tokens, 50, events, 50, records, lent);
    sprintf(shown, "%zu record words are refused 7 at %zu", lent, place);
    check(tree.answer.number == GIGBODA_REFUSAL_NO_RECORD && tree.answer.place == place, shown, __LINE__);
    CHECK(tree.answer.tokens + tree.answer.taken + tree.answer.events + tree.records == 0);
    CHECK(is_zero_up_to(tokens, 50) && is_zero_up_to(events, 50) && is_zero_up_to(records, lent));
}

/* Four words are a record and fewer are none: the place is that of the first node without one. */
static void too_few_records_are_refused_7(void)
{
    static const size_t places[] = {1, 14, 14, 19};
    const char *section = " properties\n  A => 1 ms;\n", *empty = "properties A=>1 applies to --";
    size_t lent;

    for (lent = 0; lent < 16; lent++)
        check_refused_7(section, lent, places[lent / 4]);
    for (lent = 16; lent < 20; lent++)
        CHECK_SAME(tree_numbers(read_tree_of(section, lent)), "0 0 12 6 14, 4");
    for (lent = 20; lent < 24; lent++)
        check_refused_7(empty, lent, strlen(empty));
    CHECK_SAME(tree_numbers(read_tree_of(empty, 24)), "0 0 11 6 19, 6");
    CHECK_SAME(record(5), "CONTAINMENT_PATH 4 6 0");
}

/* The other refusals come first, and leave record words 0 too. */
static void what_is_refused_1_to_6_is_not_refused_7(void)
{
    records[0] = records[2] = 7;
    CHECK_SAME(tree_numbers(gigboda_read_tree("properties \377", 12, tokens, 8, events, 8, records, 2)), "2 11 0 0 0, 0");
    CHECK(records[0] == 0 && records[2] == 7);
    CHECK_SAME(tree_numbers(gigboda_read_tree("properties a", 12, tokens, 2, events, 8, records, 2)), "3 11 0 0 0, 0");
    CHECK_SAME(tree_numbers(gigboda_read_tree("none;", 5, tokens, 2, events, 8, records, 2)), "4 0 0 0 0, 0");
    CHECK_SAME(tree_numbers(gigboda_read_tree("properties", 10, tokens, 2, events, 5, records, 2)), "5 10 0 0 0, 0");
    make_text("properties A=>", "+", 65, "1;");
    CHECK_SAME(tree_numbers(read_tree_of(text, 2)), "6 78 0 0 0, 0");
}

/* As many of the answer's numbers are written as are lent. */
static void the_librarys_functions_keep_to_what_is_lent(void)
{
    size_t answer[7] = {7, 7, 7, 7, 7, 7, 7};

    gigboda_tokenize("a", 1, tokens, 1, answer, 3);
    CHECK(answer[0] == 0 && answer[1] == 0 && answer[2] == 1 && answer[3] == 7 && answer[4] == 7);
    gigboda_property_tree("properties", 10, tokens, 1, events, 6, records, 4, answer, 5);
    CHECK(answer[2] == 1 && answer[3] == 1 && answer[4] == 3 && answer[5] == 7);
    gigboda_property_tree("properties", 10, tokens, 1, events, 6, records, 4, answer, 7);
    CHECK(answer[4] == 3 && answer[5] == 1 && answer[6] == 7);
}

static void null_with_length_0_is_allowed(void)
{
    struct gigboda_part part = gigboda_token_part(NULL, 0, NULL, 0, 0);
    struct gigboda_answer refused = gigboda_read_section(NULL, 0, NULL, 0, NULL, 0);
    struct gigboda_walk walk = gigboda_walk_of(&refused, NULL, NULL);
    struct gigboda_step step;

    CHECK(part.start == 0 && part.length == 0);
    CHECK_SAME(parts(gigboda_read_number(NULL, 0, NULL, 0, 0)), no_parts);
    CHECK_SAME(parts(gigboda_read_number("1", 1, NULL, 0, 0)), no_parts);
    CHECK_SAME(numbers(refused), "4 0 0 0 0");
    CHECK(!gigboda_is_clean(&refused, NULL, NULL) && !gigboda_walk_next(&walk, &step));
    CHECK_SAME(numbers(gigboda_read_section("properties", 10, NULL, 0, NULL, 0)), "3 0 0 0 0");
    CHECK_SAME(numbers(gigboda_read_section("properties", 10, tokens, 1, NULL, 0)), "5 0 0 0 0");
    CHECK_SAME(tree_numbers(gigboda_read_tree(NULL, 0, NULL, 0, NULL, 0, NULL, 0)), "4 0 0 0 0, 0");
    CHECK_SAME(tree_numbers(gigboda_read_tree("properties", 10, tokens, 1, events, 6, NULL, 0)), "7 0 0 0 0, 0");
    CHECK_SAME(value_numbers(gigboda_read_value(NULL, 0, NULL, 0, NULL, 0, 0)), "4 0 0 0 0, 0");
    CHECK_SAME(value_numbers(gigboda_read_value("properties", 10, tokens, 1, NULL, 0, 0)), "5 0 0 0 0, 0");
    CHECK_SAME(numbers(gigboda_read_tokens(NULL, 0, NULL, 0)), "0 0 0 0 0");
    CHECK_SAME(numbers(gigboda_read_tokens("a", 1, NULL, 0)), "3 0 0 0 0");
    CHECK(gigboda_position_of(NULL, 0, 3).column == 1);
}

/* The parts of the token with which a text begins. */
static const char *first_parts(const char *section)
{
    size_t count = gigboda_read_tokens(section, strlen(section), tokens, GIGBODA_MOST_BYTES).tokens;

    return parts(gigboda_read_number(section, strlen(section), tokens, count, 0));
}

static void numbers_have_their_parts(void)
{
    CHECK_SAME(first_parts("1_000"), "30 5 0 0 0 5 0 0");
    CHECK_SAME(first_parts("00"), "30 2 0 0 0 2 0 0");
    CHECK_SAME(first_parts("1."), "31 2 0 0 0 2 0 0");
    CHECK_SAME(first_parts("1..2"), "30 1 0 0 0 1 0 0");
    CHECK_SAME(first_parts("3.14e+5"), "31 7 0 0 0 4 0 1");
    CHECK_SAME(first_parts("1e"), "31 2 0 0 0 1 0 1");
    CHECK_SAME(first_parts("1_e"), "30 2 0 0 0 2 0 0");
    CHECK_SAME(first_parts("0x1F"), "2 4 0 0 0 0 0 0");
}

static void numbers_with_a_base_have_their_parts(void)
{
    CHECK_SAME(first_parts("16#1F#"), "30 6 0 2 3 5 1 0");
    CHECK_SAME(first_parts("2#1_0#E3"), "31 8 0 1 2 5 1 1");
    CHECK_SAME(first_parts("16#F.E#e-2"), "31 10 0 2 3 6 1 1");
    CHECK_SAME(first_parts("16#1E5"), "30 6 0 2 3 6 0 0");
    CHECK_SAME(first_parts("16#"), "30 3 0 2 3 3 0 0");
    CHECK_SAME(first_parts("16##"), "30 4 0 2 3 3 1 0");
    CHECK_SAME(first_parts("0#1"), "30 3 0 1 2 3 0 0");
}

/* A string, a comment, a space, marks, a word, a character that fits no rule. */
static void other_tokens_have_no_parts(void)
{
    static const char *const others[] = {"\"16#1F#\"", "--16#1F#", " 1", "#1", ".1", "e1", "-1", "\302\262"};
    size_t i;

    for (i = 0; i < COUNT(others); i++)
        CHECK_SAME(first_parts(others[i]), no_parts);
}

/* Writes base, inner digits and exponent of a literal; how many characters. */
static int put_parts(char *at, const char *literal, struct gigboda_number n)
{
    size_t exponent = n.exponent ? n.inner_end + n.closed : n.length;

    return sprintf(at, "%.*s|%.*s|%.*s ", (int)(n.base_end - n.base_begin), literal + n.base_begin, (int)(n.inner_end - n.inner_begin),
                   literal + n.inner_begin, (int)(n.length - exponent), literal + exponent);
}

/* A step has the number that its token's parts are asked by. */
static void a_walk_meets_numbers(void)
{
    const char *section = "properties A => 16#1F#E2 ms .. -- 7\n 2.5e3; B1 => (0x1F, 1_0);";
    struct gigboda_answer answer = read_enough(section);
    struct gigboda_walk walk = gigboda_walk_of(&answer, tokens, events);
    struct gigboda_step step;
    char *at = shown;

    while (gigboda_walk_next(&walk, &step)) {
        struct gigboda_number n = gigboda_read_number(section, strlen(section), tokens, answer.tokens, step.token);

        if (step.sort == GIGBODA_STEP_TOKEN && n.length > 0)
            at += put_parts(at, section + step.place, n);
    }
    CHECK_SAME(shown, "16|1F|E2 |2.5|e3 || |1_0| ");
}

/* What words tell of the token that stands behind the first bytes of a text, so many of them. */
static const char *told(const char *section, uint32_t before, uint32_t kind, uint32_t length)
{
    uint32_t words[2];

    words[0] = before;
    words[1] = kind * 65536 + length;
    return parts(gigboda_read_number(section, strlen(section), words, 2, 1));
}

/* Whatever the words are, a literal is told only where it stands, with its own kind and length. */
static void wrong_words_tell_no_number(void)
{
    static const uint32_t wrong[][3] = {{1, 31, 6}, {1, 2, 6},  {1, 33, 6}, {1, 30, 0}, {1, 30, 2},    {1, 30, 5}, {1, 30, 7},
                                        {0, 30, 6}, {2, 30, 6}, {3, 30, 1}, {7, 30, 1}, {65535, 30, 1}};
    const uint32_t word = GIGBODA_KIND_INTEGER_LIT * 65536 + 6;
    size_t i;

    CHECK_SAME(told(" 16#1F#", 1, 30, 6), "30 6 0 2 3 5 1 0");
    CHECK_SAME(told(" 16#1F#", 2, 30, 5), "30 5 0 1 2 4 1 0");
    CHECK_SAME(told(" 16#1F#", 4, 30, 1), "30 1 0 0 0 1 0 0");
    for (i = 0; i < COUNT(wrong); i++)
        CHECK_SAME(told(" 16#1F#", wrong[i][0], wrong[i][1], wrong[i][2]), no_parts);
    CHECK_SAME(parts(gigboda_read_number("16#1F#", 6, &word, 1, 1)), no_parts);
    CHECK_SAME(parts(gigboda_read_number("16#1F#", 6, &word, 1, SIZE_MAX)), no_parts);
    CHECK_SAME(parts(gigboda_read_number("16#1F#", 5, &word, 1, 0)), no_parts);
}

/* As many of the eight numbers are written as are lent; eight zeros, too. */
static void parts_keep_to_what_is_lent(void)
{
    static const size_t wanted[] = {30, 6, 0, 2, 3, 5, 1, 0};
    const uint32_t word = GIGBODA_KIND_INTEGER_LIT * 65536 + 6;
    size_t lent, i;

    for (lent = 0; lent <= 9; lent++) {
        size_t number[9] = {7, 7, 7, 7, 7, 7, 7, 7, 7}, none[9] = {7, 7, 7, 7, 7, 7, 7, 7, 7};

        gigboda_number_parts("16#1F#", 6, &word, 1, 0, number, lent);
        gigboda_number_parts("", 0, &word, 1, 0, none, lent);
        for (i = 0; i < 9; i++) {
            CHECK(number[i] == (i < lent && i < 8 ? wanted[i] : 7));
            CHECK(none[i] == (i < lent && i < 8 ? 0 : 7));
        }
    }
}

/* ---- Values ---- */

static struct gigboda_value_answer read_value_of(const char *section, size_t association)
{
    return gigboda_read_value(section, strlen(section), tokens, GIGBODA_MOST_BYTES, events, ENOUGH, association);
}

/* The value of a section's only association, or the refusal's number and place. The association is at 11, its value at 16. */
static const char *valued(const char *value)
{
    struct gigboda_value_answer read;

    sprintf(text, "properties A => %s;", value);
    read = read_value_of(text, 0);
    if (read.answer.number == GIGBODA_REFUSAL_NONE)
        sprintf(shown, "%lld", (long long)read.value);
    else
        sprintf(shown, "%zu at %zu", read.answer.number, read.answer.place);
    return shown;
}

static void constants_have_their_value(void)
{
    static const char *const rows[][2] = {
        {"0", "0"}, {"-0", "0"}, {"007", "7"}, {"1_000_", "1000"}, {"+ - 5", "-5"}, {"2 - 3 - 4", "-5"}, {"1 + 2 * 3", "7"},
        {"2 * 3 - 4 * 5", "-14"}, {"- - 1 * - + 2", "-2"}, {"1 -- 2\n + 3", "4"}, {"16#F_F# + 2 * 3", "261"}, {"0016#_f#", "15"},
        {"2#1010#", "10"}, {"16#aBcDeF#", "11259375"},
    };
    size_t i;

    for (i = 0; i < COUNT(rows); i++)
        CHECK_SAME(valued(rows[i][0]), rows[i][1]);
}

/* A literal counts without its sign; then the left operand, the right one, the operator. */
static void values_keep_to_the_range(void)
{
    static const char *const rows[][2] = {
        {"9223372036854775807", "9223372036854775807"}, {"-9223372036854775807 - 1", "-9223372036854775808"},
        {"16#7FFF_FFFF_FFFF_FFFF#", "9223372036854775807"}, {"4294967296 * -2147483648", "-9223372036854775808"},
        {"9223372036854775808", "10 at 16"}, {"-9223372036854775808", "10 at 17"}, {"16#8000_0000_0000_0000#", "10 at 16"},
        {"-9223372036854775807 - 2", "10 at 37"}, {"9223372036854775807 + 1 - 1", "10 at 36"}, {"3037000500 * 3037000500", "10 at 27"},
        {"9223372036854775807 + 9223372036854775808", "10 at 38"}, {"9223372036854775808 * 0", "10 at 16"},
        {"9223372036854775807 * 2 + 9223372036854775808", "10 at 36"}, {"1 + 3037000500 * 3037000500 - 9223372036854775808", "10 at 31"},
    };
    size_t i;

    for (i = 0; i < COUNT(rows); i++)
        CHECK_SAME(valued(rows[i][0]), rows[i][1]);
}

/* 9, at the association's start. */
static void what_is_no_constant_has_no_value(void)
{
    static const char *const values[] = {
        "16#F", "16#_#", "16##", "10#F#", "17#1#", "1#0#", "0#0#", "1 ms", "4 / 2", "1 .. 2", "(1)", "-(1)", "1.0", "1e3", "a", "1 + a::b",
        "-a", "\"1\"", "true", "not 1", "[a => 1;]", "9223372036854775808 + 1 ms", "9223372036854775807 * 2 * 16#F",
    };
    size_t i;

    for (i = 0; i < COUNT(values); i++)
        CHECK_SAME(valued(values[i]), "9 at 11");
}

static void associations_count_from_0(void)
{
    const char *section = "properties A => 1 ms, 2; B :: C +=> constant 5 in modes (m), 6;";

    CHECK_SAME(value_numbers(read_value_of(section, 0)), "9 11 0 0 0, 0");
    CHECK(read_value_of(section, 1).value == 5);
    CHECK_SAME(value_numbers(read_value_of(section, 2)), "9 63 0 0 0, 0");
    CHECK_SAME(value_numbers(read_value_of(section, SIZE_MAX)), "9 63 0 0 0, 0");
    CHECK_SAME(value_numbers(read_value_of("properties none;", 0)), "9 16 0 0 0, 0");
    CHECK_SAME(value_numbers(read_value_of("properties A => 1; }", 0)), "9 20 0 0 0, 0");
    CHECK_SAME(value_numbers(read_value_of("properties A => 1; B => ; --", 0)), "9 28 0 0 0, 0");
    CHECK_SAME(value_numbers(read_value_of("properties A => 9223372036854775808", 0)), "9 35 0 0 0, 0");
}

/* The section call's answer and words; a refusal leaves zeros in all that is lent. */
static void values_leave_the_sections_words(void)
{
    const char *section = "properties A => 1 - 3;";

    tokens[12] = tokens[13] = events[38] = events[39] = 7;
    CHECK_SAME(value_numbers(gigboda_read_value(section, 22, tokens, 13, events, 39, 0)), "0 0 12 7 19, -2");
    CHECK(tokens[0] == 3932170 && events[2] == 20709377 && tokens[12] == 7 && events[38] == 7);
    CHECK_SAME(value_numbers(gigboda_read_value(section, 22, tokens, 13, events, 39, 1)), "9 22 0 0 0, 0");
    CHECK(is_zero_up_to(tokens, 13) && is_zero_up_to(events, 39));
    section = "properties A => 9223372036854775808;";
    memset(tokens, 255, 13 * sizeof tokens[0]);
    memset(events, 255, 39 * sizeof events[0]);
    CHECK_SAME(value_numbers(gigboda_read_value(section, 36, tokens, 13, events, 39, 0)), "10 16 0 0 0, 0");
    CHECK(is_zero_up_to(tokens, 13) && is_zero_up_to(events, 39));
}

/* Each of these has no association 7, either. */
static void what_is_refused_1_to_8_is_not_refused_9(void)
{
    CHECK_SAME(value_numbers(gigboda_read_value(text, GIGBODA_MOST_BYTES + 1, tokens, 8, events, 8, 7)), "1 32768 0 0 0, 0");
    CHECK_SAME(value_numbers(gigboda_read_value("properties \377", 12, tokens, 8, events, 8, 7)), "2 11 0 0 0, 0");
    CHECK_SAME(value_numbers(gigboda_read_value("properties a", 12, tokens, 2, events, 8, 7)), "3 11 0 0 0, 0");
    CHECK_SAME(value_numbers(gigboda_read_value("properties \"", 12, tokens, 8, events, 0, 7)), "8 11 0 0 0, 0");
    CHECK_SAME(value_numbers(gigboda_read_value("none;", 5, tokens, 2, events, 0, 7)), "4 0 0 0 0, 0");
    CHECK_SAME(value_numbers(gigboda_read_value("properties", 10, tokens, 2, events, 5, 7)), "5 10 0 0 0, 0");
    make_text("properties A=>", "+", 65, "1;");
    CHECK_SAME(value_numbers(read_value_of(text, 7)), "6 78 0 0 0, 0");
}

/* As many operators as there can be, one more, and 64 signs. */
static void long_sums_have_their_value(void)
{
    make_text("properties a=>0", "+1", 5459, ";");
    CHECK(read_value_of(text, 0).value == 5459);
    make_text("properties a=>0", "+1", 5460, ";");
    CHECK(read_value_of(text, 0).answer.number == GIGBODA_REFUSAL_NO_EVENT_WORD);
    make_text("properties a=>9223372036854773079", "+1", 5459, ";");
    CHECK_SAME(value_numbers(read_value_of(text, 0)), "10 5489 0 0 0, 0");
    make_text("properties a=>", "-+", 32, "1;");
    CHECK(read_value_of(text, 0).value == 1);
}

/* As many of the answer's five numbers are written as are lent. */
static void values_keep_to_what_is_lent(void)
{
    static const size_t wanted[] = {0, 0, 8, 5, 13};
    size_t lent, i;

    for (lent = 0; lent <= 6; lent++) {
        size_t answer[6] = {77, 77, 77, 77, 77, 77};

        CHECK(gigboda_association_value("properties A => 1;", 18, tokens, 50, events, 50, 0, answer, lent) == 1);
        for (i = 0; i < 6; i++)
            CHECK(answer[i] == (i < lent && i < 5 ? wanted[i] : 77));
    }
}

/* ---- Limits ---- */

static void with_most_bytes_token_words_no_text_is_refused_3(void)
{
    size_t length = make_text("", ";", GIGBODA_MOST_BYTES, "");

    CHECK(gigboda_read_tokens(text, length, tokens, GIGBODA_MOST_BYTES).tokens == GIGBODA_MOST_BYTES);
    CHECK_SAME(numbers(gigboda_read_tokens(text, length, tokens, GIGBODA_MOST_BYTES - 1)), "3 32767 0 0 0");
}

/* 32,768 events are read and one more is refused 5, however many words are lent. */
static void more_than_most_events_words_do_not_help(void)
{
    size_t length = make_text("properties a=>1 s,1 s,1 s", ",1", 8186, ";");

    events[ENOUGH] = 7;
    CHECK_SAME(numbers(gigboda_read_section(text, length, tokens, GIGBODA_MOST_BYTES, events, ENOUGH)), "0 0 16388 16384 32768");
    CHECK_SAME(numbers(gigboda_read_section(text, length, tokens, GIGBODA_MOST_BYTES, events, ENOUGH + 1)), "0 0 16388 16384 32768");
    CHECK(gigboda_event_token(events, GIGBODA_MOST_EVENTS - 1) == 16388 && events[ENOUGH] == 7);
    CHECK(gigboda_read_section(text, length, tokens, GIGBODA_MOST_BYTES, events, ENOUGH - 1).number == 5);
    length = make_text("properties a=>1 s,1 s,1 s,1 s", ",1", 8185, ";");
    CHECK(gigboda_read_section(text, length, tokens, GIGBODA_MOST_BYTES, events, 2 * ENOUGH).number == 5);
    length = make_text("properties a=>", "1,", 16377, "");
    CHECK(length == GIGBODA_MOST_BYTES);
    CHECK(gigboda_read_section(text, length, tokens, GIGBODA_MOST_BYTES, events, ENOUGH).number == 5);
    CHECK(gigboda_read_section(text, length, tokens, GIGBODA_MOST_BYTES, events, 2 * ENOUGH).number == 5);
}

/* ---- The tokens of events ---- */

/* The token of each event in a row. */
static const char *event_tokens(const char *section)
{
    struct gigboda_answer answer = read_enough(section);
    char *at = shown;
    size_t i;

    *at = '\0';
    for (i = 0; i < answer.events; i++)
        at += sprintf(at, "%s%zu", i > 0 ? " " : "", gigboda_event_token(events, i));
    return shown;
}

/* A Token has its own, all others the next one's; at the end it is how many there are, spaces and comments too. */
static void events_have_their_tokens(void)
{
    CHECK_SAME(event_tokens("properties"), "0 0 1");
    CHECK_SAME(event_tokens(" properties none; -- end"), "1 1 3 4 7");
    CHECK_SAME(event_tokens("properties\n  A => 1 ms;\n"), "0 0 2 2 2 4 4 6 6 8 9 9 11 11");
    CHECK_SAME(event_tokens("properties A => ; }"), "0 0 2 2 2 4 4 6 6 8 8");
    CHECK_SAME(event_tokens("properties A 1 applies to "), "0 0 2 2 2 4 4 4 4 6 6 6 8 10 10 10 10 10 10");
    CHECK_SAME(event_tokens("none;"), "");
}

/* The Start that is put around `1` has the token behind it; completing that node and the one within leaves each Start its token. */
static void preceding_and_completing_leave_tokens(void)
{
    CHECK_SAME(event_tokens("properties A => 1 .. 2;"), "0 0 2 2 2 4 4 6 6 8 8 8 10 10 11 11 11 12 12");
    CHECK(gigboda_event_word(events, 7) == GIGBODA_KIND_INTEGER_VALUE * 65536 + 3 && gigboda_event_token(events, 7) == 6);
    CHECK(gigboda_event_word(events, 10) == GIGBODA_KIND_RANGE_VALUE * 65536 && gigboda_event_token(events, 10) == 8);
}

/* Fewer than two words have room for no event: an odd last word is like none, and stays as it was. */
static void an_odd_event_word_is_not_used(void)
{
    const char *section = "properties A => 1;";
    size_t lent;

    for (lent = 0; lent < 26; lent++) {
        memset(events, 255, 30 * sizeof events[0]);
        events[lent] = 7;
        CHECK(gigboda_read_section(section, 18, tokens, 8, events, lent).number == GIGBODA_REFUSAL_NO_EVENT_WORD);
        CHECK(is_zero_up_to(events, lent));
    }
    for (lent = 26; lent < 29; lent++) {
        memset(events, 255, 30 * sizeof events[0]);
        CHECK_SAME(numbers(gigboda_read_section(section, 18, tokens, 8, events, lent)), "0 0 8 5 13");
        CHECK(events[25] == 8 && events[26] == UINT32_MAX && events[27] == UINT32_MAX);
    }
    CHECK_SAME(numbers(gigboda_read_section(section, 18, tokens, 8, events, 1)), "5 0 0 0 0");
    CHECK_SAME(numbers(gigboda_read_section(section, 18, tokens, 8, events, 5)), "5 11 0 0 0");
    CHECK_SAME(numbers(gigboda_read_section(section, 18, tokens, 8, events, 25)), "5 18 0 0 0");
}

/* 01's printed listing. */
static void events_have_lines_and_columns(void)
{
    static const size_t wanted[][2] = {{1, 1}, {1, 1}, {2, 3}, {2, 3}, {2, 3},  {2, 5},  {2, 5},
                                       {2, 8}, {2, 8}, {2, 10}, {2, 12}, {2, 12}, {3, 1}, {3, 1}};
    const char *section = "properties\n  A => 1 ms;\n";
    struct gigboda_answer answer = read_enough(section);
    size_t i;

    CHECK(answer.events == COUNT(wanted));
    for (i = 0; i < COUNT(wanted); i++) {
        struct gigboda_position at = gigboda_event_position(section, strlen(section), &answer, tokens, events, i);

        sprintf(shown, "event %zu is at %zu:%zu", i, wanted[i][0], wanted[i][1]);
        check(at.line == wanted[i][0] && at.column == wanted[i][1], shown, __LINE__);
    }
}

/* Whether tokens start where they do in the text; the text's end for one that is not there. */
static void tokens_have_places(void)
{
    const char *section = " properties A";
    struct gigboda_answer answer = read_enough(section);

    CHECK(gigboda_token_place(&answer, tokens, 0) == 0 && gigboda_token_place(&answer, tokens, 1) == 1);
    CHECK(gigboda_token_place(&answer, tokens, 3) == 12 && gigboda_token_place(&answer, tokens, 4) == 13);
    CHECK(gigboda_token_place(&answer, tokens, SIZE_MAX) == 13);
}

/* ---- Places, clean answers ---- */

/* Holds places of a text to their lines and columns, so many rows of place, line and column. */
static void check_positions(const char *section, const size_t (*rows)[3], size_t count)
{
    size_t i;

    for (i = 0; i < count; i++) {
        struct gigboda_position at = gigboda_position_of(section, strlen(section), rows[i][0]);

        sprintf(shown, "%zu is %zu:%zu", rows[i][0], rows[i][1], rows[i][2]);
        check(at.line == rows[i][1] && at.column == rows[i][2], shown, __LINE__);
    }
}

static void places_have_lines_and_columns(void)
{
    static const size_t ascii[][3] = {{0, 1, 1}, {10, 1, 11}, {11, 2, 1}, {13, 2, 3}, {24, 3, 1}, {25, 4, 1}, {99, 4, 1}};
    static const size_t empty[][3] = {{0, 1, 1}};

    check_positions("properties\n  A => 1 ms;\n\n", ascii, COUNT(ascii));
    check_positions("", empty, COUNT(empty));
}

/* An umlaut, the euro sign, an emoji; CR LF; a combining mark and a byte order mark. A place within a character is where the next one is. */
static void columns_count_characters(void)
{
    static const size_t begins[][3] = {{2, 1, 2}, {5, 1, 3}, {9, 1, 4}, {10, 1, 5}, {12, 2, 1}, {13, 2, 2}, {15, 2, 3}, {18, 2, 4}};
    static const size_t within[][3] = {{1, 1, 2}, {3, 1, 3}, {4, 1, 3}, {6, 1, 4}, {7, 1, 4}, {8, 1, 4}};
    const char *section = "\xC3\xBC\xE2\x82\xAC\xF0\x9F\x98\x80!\r\ne\xCC\x81\xEF\xBB\xBF!";

    check_positions(section, begins, COUNT(begins));
    check_positions(section, within, COUNT(within));
}

static int is_clean(const char *section)
{
    struct gigboda_answer answer = read_enough(section);

    return gigboda_is_clean(&answer, tokens, events);
}

/* The exported function takes any words: an odd last event word is none, a class above an Error's counts as one, spaces are not counted. */
static void clean_by_any_words(void)
{
    static const uint32_t none[1] = {0}, odd[3] = {0, 0, 50331648}, error[2] = {50331648, 0}, above[2] = {4294967295u, 0};
    static const uint32_t space_and_name[2] = {196609, 2162689};

    CHECK(gigboda_clean(0, none, 0, none, 0) == 1);
    CHECK(gigboda_clean(0, none, 0, odd, 3) == 1);
    CHECK(gigboda_clean(0, none, 0, error, 2) == 0);
    CHECK(gigboda_clean(0, none, 0, above, 2) == 0);
    CHECK(gigboda_clean(1, space_and_name, 2, none, 0) == 1);
    CHECK(gigboda_clean(2, space_and_name, 2, none, 0) == 0);
}

static void what_is_clean(void)
{
    struct gigboda_answer only = gigboda_read_tokens("", 0, tokens, 0);

    CHECK(is_clean("properties -- nothing"));
    CHECK(is_clean("properties A => 1 applies to ;"));
    CHECK(!is_clean("properties A => ;"));
    CHECK(!is_clean("properties A => 1; }"));
    CHECK(!is_clean("A => 1;"));
    CHECK(!gigboda_is_clean(&only, tokens, events));
}

/* ---- The tree, step by step ---- */

/* The tree of a text: a bracket and the kind for a node, the text for a token, a message's number. */
static const char *shape(const char *section)
{
    struct gigboda_answer answer = read_enough(section);
    struct gigboda_walk walk = gigboda_walk_of(&answer, tokens, events);
    struct gigboda_step step;
    char *at = shown;

    *at = '\0';
    while (gigboda_walk_next(&walk, &step)) {
        if (step.sort == GIGBODA_STEP_ENTER)
            at += sprintf(at, "(%s ", gigboda_kind_name(step.kind));
        else if (step.sort == GIGBODA_STEP_TOKEN)
            at += sprintf(at, "%.*s ", (int)(step.end - step.place), section + step.place);
        else if (step.sort == GIGBODA_STEP_LEAVE)
            at += sprintf(at, ") ");
        else
            at += sprintf(at, "!%u ", step.message);
    }
    return shown;
}

static void trees_are_walked(void)
{
    CHECK_SAME(shape("properties none;"), "(PROPERTY_SECTION properties none ; ) ");
    CHECK_SAME(shape("properties A => 1 ms;"),
               "(PROPERTY_SECTION properties (PROPERTY_ASSOCIATION (PROPERTY_REF A ) => (INTEGER_VALUE 1 ms ) ; ) ) ");
    CHECK_SAME(shape("properties A 1"),
               "(PROPERTY_SECTION properties (PROPERTY_ASSOCIATION (PROPERTY_REF A ) !1 (INTEGER_VALUE 1 ) !261 ) ) ");
    CHECK_SAME(shape("A => 1;"), "");
}

static void forward_parents_are_followed(void)
{
    CHECK_SAME(shape("properties A => 1 + 2 * 3 - 4 .. 5;"),
               "(PROPERTY_SECTION properties (PROPERTY_ASSOCIATION (PROPERTY_REF A ) => (RANGE_VALUE (BINARY_EXPR (BINARY_EXPR "
               "(INTEGER_VALUE 1 ) + (BINARY_EXPR (INTEGER_VALUE 2 ) * (INTEGER_VALUE 3 ) ) ) - (INTEGER_VALUE 4 ) ) "
               ".. (INTEGER_VALUE 5 ) ) ; ) ) ");
    CHECK_SAME(shape("properties A => (1 + 2) * (3); B => a .. b;"),
               "(PROPERTY_SECTION properties (PROPERTY_ASSOCIATION (PROPERTY_REF A ) => (BINARY_EXPR (LIST_VALUE ( (BINARY_EXPR "
               "(INTEGER_VALUE 1 ) + (INTEGER_VALUE 2 ) ) ) ) * (LIST_VALUE ( (INTEGER_VALUE 3 ) ) ) ) ; ) "
               "(PROPERTY_ASSOCIATION (PROPERTY_REF B ) => (RANGE_VALUE (PROPERTY_EXPRESSION a ) .. (PROPERTY_EXPRESSION b ) ) ; ) ) ");
}

/* A step's sort and numbers in a row. */
static const char *in_a_row(const struct gigboda_step *step)
{
    sprintf(shown, "%c %u %u %zu %zu %zu %zu", "ETLX"[step->sort], step->kind, step->message, step->depth, step->token, step->place,
            step->end);
    return shown;
}

/* An association with an empty node, a missing semicolon, and spaces around all. */
static void steps_say_where_they_are(void)
{
    static const char *const wanted[] = {
        "E 169 0 0 1 1 0",    "T 60 0 1 1 1 11",   "E 170 0 1 3 12 11", "E 171 0 2 3 12 11",  "T 33 0 3 3 12 13",
        "L 0 0 2 5 14 13",    "T 18 0 2 5 14 16",  "E 183 0 2 6 16 16", "T 30 0 3 6 16 17",   "L 0 0 2 8 18 17",
        "E 172 0 2 8 18 17",  "T 84 0 3 8 18 25",  "T 85 0 3 10 26 28", "E 173 0 3 12 29 28", "L 0 0 3 12 29 28",
        "L 0 0 2 12 29 28",   "X 0 261 2 12 29 28", "L 0 0 1 12 29 28", "L 0 0 0 12 29 28",
    };
    struct gigboda_answer answer = read_enough(" properties A =>1 applies to ");
    struct gigboda_walk walk = gigboda_walk_of(&answer, tokens, events);
    struct gigboda_step step;
    size_t i;

    for (i = 0; i < COUNT(wanted) && gigboda_walk_next(&walk, &step); i++)
        CHECK_SAME(in_a_row(&step), wanted[i]);
    CHECK(i == COUNT(wanted) && !gigboda_walk_next(&walk, &step));
}

/* Holds the steps through the tree of what stands in `text`, which count tokens, against the events' tokens: a step's is its event's, an
 * ENTER's that of the Start with which its chain begins. While a chain is opened that is the walk's next event. */
static void check_step_tokens(size_t length)
{
    struct gigboda_answer answer = gigboda_read_section(text, length, tokens, GIGBODA_MOST_BYTES, events, ENOUGH);
    struct gigboda_walk walk = gigboda_walk_of(&answer, tokens, events);
    struct gigboda_step step;
    size_t steps;
    int same = 1;

    for (steps = 0; gigboda_walk_next(&walk, &step); steps++) {
        size_t token = gigboda_event_token(events, walk.opening < walk.events_len ? walk.event : walk.event - 1);

        same &= step.token == token && step.place == gigboda_token_place(&answer, tokens, token);
    }
    CHECK(answer.number == 0 && steps == answer.events && same);
}

static void steps_have_the_tokens_of_events(void)
{
    check_step_tokens(make_text("properties", " A => -1 + 2 * (3, [b => not x .. 4;]) .. 5 delta 6 applies to ;", 3, "-- end\n"));
    check_step_tokens(make_text("properties", " A => 1 + + 2 ( ] B ::; C => 0x1F applies to ,", 3, ""));
    check_step_tokens(make_text(" -- first\nproperties a=>1", "+  1  ", 200, ";"));
    check_step_tokens(make_text("properties a=>1", "* ", 200, ""));
}

/* Walks through the tree of what stands in `text`; the greatest depth. Every event gives one step, also a Start whose node opens early. */
static size_t walk_text(size_t length)
{
    struct gigboda_answer answer = gigboda_read_section(text, length, tokens, GIGBODA_MOST_BYTES, events, ENOUGH);
    struct gigboda_walk walk = gigboda_walk_of(&answer, tokens, events);
    struct gigboda_step step = {GIGBODA_STEP_ENTER, 0, 0, 0, 0, 0, 0};
    size_t steps = 0, most = 0;

    CHECK(answer.number == 0);
    for (; gigboda_walk_next(&walk, &step); steps++)
        most = step.depth > most ? step.depth : most;
    CHECK(steps == answer.events && step.sort == GIGBODA_STEP_LEAVE && step.depth == 0);
    return most;
}

/* Walks ten times; the milliseconds that one walk takes, the call included. */
static double time_walks(size_t length)
{
    clock_t begin = clock();
    int i;

    for (i = 0; i < 10; i++)
        walk_text(length);
    return (double)(clock() - begin) * 1000 / CLOCKS_PER_SEC / 10;
}

/* A chain must not take the time of its length squared: 5,458 sums, and 8,187 products without second operands. */
static void long_chains_take_little_time(void)
{
    size_t length = make_text("properties a=>1", "+  1  ", 5458, ";");
    double took = time_walks(length);

    CHECK(walk_text(length) == 5458 + 3);
    printf("a chain of 5,458 nodes in %zu bytes: %.2f ms\n", length, took);
    CHECK(took < 20);
    length = make_text("properties a=>1", "*", 8187, ";");
    took = time_walks(length);
    CHECK(walk_text(length) == 8187 + 3);
    printf("a chain of 8,187 nodes in %zu bytes: %.2f ms\n", length, took);
    CHECK(took < 20);
}

/* The longest ways back for the most nodes: 64 records in one another around a long sum, each with a second field and a factor. */
static void deep_nests_take_little_time(void)
{
    char begin[500], end[1000];
    double took;

    make_text("properties a=>", "[a=>", 64, "1");
    strcpy(begin, text);
    make_text("", ";b=>1;]*1", 64, ";");
    strcpy(end, text);
    took = time_walks(make_text(begin, "+1", 5000, end));
    printf("64 records in one another around 5,000 sums: %.2f ms\n", took);
    CHECK(took < 200);
}

/* The next of a row of numbers without a pattern. */
static uint32_t any_number(void)
{
    static uint32_t last = 1;

    last = last * 1664525 + 1013904223;
    return last >> 8;
}

/* Words of their own memory, just as many, each with a first field up to most_first and a last field up to 7. */
static uint32_t *any_words(size_t count, uint32_t most_first, uint32_t unit)
{
    uint32_t *words = malloc(count * sizeof *words);
    size_t i;

    for (i = 0; i < count; i++)
        words[i] = any_number() % (most_first + 1) * unit + any_number() % 8;
    return words;
}

/* Whatever the words are, a walk ends and reads nothing outside them (the sanitizer looks). */
static void any_words_are_walked_to_an_end(void)
{
    size_t round, steps, all = 0;

    for (round = 0; round < 5000; round++) {
        struct gigboda_answer answer = {0, 0, round % 7, 0, round % 40};
        uint32_t *some_tokens = any_words(answer.tokens, 6, 65536);
        uint32_t *some_events = any_words(GIGBODA_EVENT_WORDS * answer.events, 4, 16777216);
        struct gigboda_walk walk = gigboda_walk_of(&answer, some_tokens, some_events);
        struct gigboda_step step;

        for (steps = 0; steps <= 40 * 40 && gigboda_walk_next(&walk, &step); steps++)
            CHECK(step.depth <= steps);
        CHECK(steps <= 40 * 40);
        all += steps;
        free(some_tokens);
        free(some_events);
    }
    CHECK(all > 5000);
}

/* ---- The tree in records ---- */

/* Holds the records of what stands in `text` against the walk, which needs no memory: a node's parent is the last one open. */
static void check_records(size_t length)
{
    struct gigboda_tree_answer tree = gigboda_read_tree(text, length, tokens, GIGBODA_MOST_BYTES, events, ENOUGH, records,
                                                        GIGBODA_RECORD_WORDS * GIGBODA_MOST_NODES);
    struct gigboda_walk walk = gigboda_walk_of(&tree.answer, tokens, events);
    struct gigboda_step step;
    size_t entered = 0, open = 0, taken = 0;
    int same = 1;

    while (gigboda_walk_next(&walk, &step)) {
        if (step.sort == GIGBODA_STEP_ENTER) {
            struct gigboda_record r = gigboda_record_of(records, entered);

            same &= r.kind == step.kind && r.parent == open && r.first == taken;
            open = entered++;
        } else if (step.sort == GIGBODA_STEP_TOKEN) {
            taken++;
        } else if (step.sort == GIGBODA_STEP_LEAVE) {
            struct gigboda_record r = gigboda_record_of(records, open);

            same &= r.first + r.below == taken;
            open = r.parent;
        }
    }
    CHECK(tree.answer.number == 0 && entered == tree.records && same);
}

static void records_are_the_walks_nodes(void)
{
    check_records(make_text("properties", " A => -1 + 2 * (3, [b => not x .. 4;]) .. 5 delta 6 applies to ;", 3, ""));
    check_records(make_text("properties", " A => 1 + + 2 ( ] B ::; C => 0x1F applies to ,", 3, ""));
    check_records(make_text("properties a=>1", "+  1  ", 5458, ";"));
    check_records(make_text("properties a=>1", "*", 8187, ";"));
    check_records(make_text("properties a=>1 s,1 s,1 s", ",1", 8186, ";"));
}

/* The children of a node in a row, and whether those and no others stand below it. */
static const char *children(const struct gigboda_tree_answer *tree, size_t node)
{
    char row[100] = "";
    size_t n;

    for (n = gigboda_tree_child(tree, records, node, node); n < tree->records; n = gigboda_tree_child(tree, records, node, n)) {
        CHECK(gigboda_record_of(records, n).parent == node && gigboda_tree_is_within(records, n, node));
        sprintf(row + strlen(row), " %zu", n);
    }
    return strcpy(shown, row);
}

static void nodes_have_children_and_parents(void)
{
    /* 0 section, 1 association, 2 its name, 3 range, 4 sum, 5 and 6 its ends, 7 the range's end, 8 association, 9 its name, 10 value */
    struct gigboda_tree_answer tree = read_tree_of("properties A => 1 + 2 .. 3; B => 4;", 44);

    CHECK(tree.records == 11);
    CHECK_SAME(children(&tree, 0), " 1 8");
    CHECK_SAME(children(&tree, 1), " 2 3");
    CHECK_SAME(children(&tree, 3), " 4 7");
    CHECK_SAME(children(&tree, 4), " 5 6");
    CHECK_SAME(children(&tree, 7), "");
    CHECK_SAME(children(&tree, 8), " 9 10");
    CHECK_SAME(children(&tree, 10), "");
    CHECK(gigboda_tree_is_within(records, 6, 6) && gigboda_tree_is_within(records, 6, 1) && gigboda_tree_is_within(records, 6, 0));
    CHECK(!gigboda_tree_is_within(records, 6, 5) && !gigboda_tree_is_within(records, 1, 3) && !gigboda_tree_is_within(records, 9, 1));
}

/* The innermost node at a byte, and its text. */
static const char *clicked(const char *section, const struct gigboda_tree_answer *tree, size_t place)
{
    size_t node = gigboda_tree_innermost(tree, records, gigboda_tree_token_at(tree, tokens, place));
    struct gigboda_part part = {0, 0};

    if (node < tree->records)
        part = gigboda_tree_part(tree, tokens, records, node);
    sprintf(shown, "%zu %.*s", node, (int)part.length, section + part.start);
    return shown;
}

static void a_click_finds_its_node(void)
{
    const char *section = " properties\n  A => 1  ms ; -- all\n}";
    struct gigboda_tree_answer tree = read_tree_of(section, 16);

    CHECK_SAME(clicked(section, &tree, 0), "0 properties\n  A => 1  ms ;");
    CHECK_SAME(clicked(section, &tree, 10), "0 properties\n  A => 1  ms ;");
    CHECK_SAME(clicked(section, &tree, 11), "2 A");
    CHECK_SAME(clicked(section, &tree, 14), "2 A");
    CHECK_SAME(clicked(section, &tree, 16), "1 A => 1  ms ;");
    CHECK_SAME(clicked(section, &tree, 19), "3 1  ms");
    CHECK_SAME(clicked(section, &tree, 21), "3 1  ms");
    CHECK_SAME(clicked(section, &tree, 24), "1 A => 1  ms ;");
    CHECK_SAME(clicked(section, &tree, 26), "4 ");
    CHECK_SAME(clicked(section, &tree, 99), "4 ");
}

/* An empty node's text is where the next token starts, or at the end. */
static void empty_nodes_have_empty_text(void)
{
    struct gigboda_tree_answer tree = read_tree_of("properties A=>1 applies to  ; ", 24);
    struct gigboda_part part = gigboda_tree_part(&tree, tokens, records, 5);

    CHECK_SAME(record(5), "CONTAINMENT_PATH 4 6 0");
    CHECK(part.start == 28 && part.length == 0);
    tree = read_tree_of("properties A=>1 applies to", 24);
    part = gigboda_tree_part(&tree, tokens, records, 5);
    CHECK(part.start == 26 && part.length == 0);
}

/* Whatever the words are, the functions end and read nothing outside them (the sanitizer looks). */
static void any_records_are_gone_through_to_an_end(void)
{
    size_t round, node;

    for (round = 0; round < 5000; round++) {
        struct gigboda_tree_answer tree = {{0, 0, 0, 0, 0}, 0};
        uint32_t *some_tokens, *some_records;

        tree.answer.tokens = round % 7;
        tree.records = 1 + round % 13;
        some_tokens = any_words(tree.answer.tokens, 6, 65536);
        some_records = any_words(GIGBODA_RECORD_WORDS * tree.records, 1, 8);
        for (node = 0; node < tree.records; node++) {
            size_t child = gigboda_tree_child(&tree, some_records, node, node);

            CHECK(child > node && child <= tree.records);
            CHECK(!gigboda_tree_is_within(some_records, node, node + 1) && gigboda_tree_is_within(some_records, node, node));
            CHECK(gigboda_tree_innermost(&tree, some_records, node) <= tree.records);
            CHECK(gigboda_tree_part(&tree, some_tokens, some_records, node).length <= 7 * 7);
            gigboda_tree_is_within(some_records, node, 0);
        }
        free(some_tokens);
        free(some_records);
    }
}

/* ---- All of them ---- */

#define TEST(name) {#name, name}
static const struct {
    const char *name;
    void (*run)(void);
} tests[] = {
    TEST(the_version_is_its_numbers),
    TEST(kinds_have_their_numbers_and_names),
    TEST(refusals_have_words),
    TEST(messages_have_words),
    TEST(the_calls_answer),
    TEST(a_refusal_leaves_zeros),
    TEST(a_string_that_is_not_closed_is_refused_8),
    TEST(the_tree_call_answers),
    TEST(too_few_records_are_refused_7),
    TEST(what_is_refused_1_to_6_is_not_refused_7),
    TEST(the_librarys_functions_keep_to_what_is_lent),
    TEST(null_with_length_0_is_allowed),
    TEST(numbers_have_their_parts),
    TEST(numbers_with_a_base_have_their_parts),
    TEST(other_tokens_have_no_parts),
    TEST(a_walk_meets_numbers),
    TEST(wrong_words_tell_no_number),
    TEST(parts_keep_to_what_is_lent),
    TEST(constants_have_their_value),
    TEST(values_keep_to_the_range),
    TEST(what_is_no_constant_has_no_value),
    TEST(associations_count_from_0),
    TEST(values_leave_the_sections_words),
    TEST(what_is_refused_1_to_8_is_not_refused_9),
    TEST(long_sums_have_their_value),
    TEST(values_keep_to_what_is_lent),
    TEST(with_most_bytes_token_words_no_text_is_refused_3),
    TEST(more_than_most_events_words_do_not_help),
    TEST(events_have_their_tokens),
    TEST(preceding_and_completing_leave_tokens),
    TEST(an_odd_event_word_is_not_used),
    TEST(events_have_lines_and_columns),
    TEST(tokens_have_places),
    TEST(places_have_lines_and_columns),
    TEST(columns_count_characters),
    TEST(what_is_clean),
    TEST(clean_by_any_words),
    TEST(trees_are_walked),
    TEST(forward_parents_are_followed),
    TEST(steps_say_where_they_are),
    TEST(steps_have_the_tokens_of_events),
    TEST(long_chains_take_little_time),
    TEST(deep_nests_take_little_time),
    TEST(any_words_are_walked_to_an_end),
    TEST(records_are_the_walks_nodes),
    TEST(nodes_have_children_and_parents),
    TEST(a_click_finds_its_node),
    TEST(empty_nodes_have_empty_text),
    TEST(any_records_are_gone_through_to_an_end),
};

int main(void)
{
    size_t count = COUNT(tests), failed = 0, i;

    for (i = 0; i < count; i++) {
        failures = 0;
        tests[i].run();
        failed += failures > 0;
        printf("%s: %s\n", tests[i].name, failures > 0 ? "FAILED" : "ok");
    }
    printf("%zu passed, %zu failed\n", count - failed, failed);
    return failed > 0;
}
