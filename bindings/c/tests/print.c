/* Prints what bindings/rust prints too, so that a test there holds the one against the other (bindings/rust/tests/c.rs).
 *
 *     print tables          the version; each kind, refusal and message in words
 *     print walks           for each section record of standard input the call's answer, and the steps through its tree
 *     print events          for each the events: class, kind and last, and the token with its place, line and column
 *     print trees           for each the tree call's answer, with a fourth as many record words lent as event words where the record does
 *                           not say how many; and each node's record, text, children, and the innermost node of its first token
 *     print values          for each the value call's answer: for the association that the record names, or else for the first
 *     print places          for each the line and column of every place of its text
 *     print numbers         for each the tokens of its text that are numbers, with their parts
 *
 * tools/README.md says what a record is; those of the tokens-only call and of a number's parts are passed over. */
#include "gigboda.h"
#include <stdio.h>
#include <string.h>

enum { MOST = 40000 }; /* bytes and tokens of a record; event words twice and record words four times as many */
#define NONE 4294967295u /* the tokens-only call, the largest settings, or a record that says which call it asks for */

static char text[MOST];
static uint32_t tokens[MOST], events[GIGBODA_EVENT_WORDS * MOST], records[GIGBODA_RECORD_WORDS * MOST];
static uint32_t length, lent_tokens, lent_events, lent_records, association; /* of a record of standard input */

static void print_tables(void)
{
    unsigned n;

    printf("version %s\n", GIGBODA_VERSION);
    for (n = 0; n < GIGBODA_KIND_COUNT; n++)
        printf("kind %u %s\n", n, gigboda_kind_name(n));
    for (n = GIGBODA_REFUSAL_TOO_LONG; n <= GIGBODA_REFUSAL_OUT_OF_RANGE; n++)
        printf("refusal %u %s\n", n, gigboda_refusal_text(n));
    for (n = GIGBODA_MESSAGE_NO_ARROW; n <= GIGBODA_MESSAGE_VIRTUAL_ALONE; n++)
        printf("message %u %s\n", n, gigboda_message_text(n));
    for (n = GIGBODA_MESSAGE_MISSING; n < GIGBODA_MESSAGE_MISSING + GIGBODA_KIND_COUNT; n++)
        printf("message %u %s\n", n, gigboda_message_text(n));
}

static void print_steps(const struct gigboda_answer *answer)
{
    struct gigboda_walk walk = gigboda_walk_of(answer, tokens, events);
    struct gigboda_step step;

    while (gigboda_walk_next(&walk, &step)) {
        printf("%zu %zu %zu %zu ", step.depth, step.token, step.place, step.end);
        switch (step.sort) {
        case GIGBODA_STEP_ENTER: printf("enter %s\n", gigboda_kind_name(step.kind)); break;
        case GIGBODA_STEP_TOKEN: printf("token %s\n", gigboda_kind_name(step.kind)); break;
        case GIGBODA_STEP_LEAVE: printf("leave\n"); break;
        case GIGBODA_STEP_ERROR: printf("error %s\n", gigboda_message_text(step.message)); break;
        }
    }
}

static void print_walk(void)
{
    struct gigboda_answer answer = gigboda_read_section(text, length, tokens, lent_tokens, events, lent_events);
    struct gigboda_position end = gigboda_position_of(text, length, length), at = gigboda_position_of(text, length, answer.place);

    printf("%zu %zu %zu %zu %zu, ", answer.number, answer.place, answer.tokens, answer.taken, answer.events);
    printf("%zu:%zu of %zu:%zu, %s\n", at.line, at.column, end.line, end.column,
           answer.number ? gigboda_refusal_text(answer.number) : gigboda_is_clean(&answer, tokens, events) ? "clean" : "not clean");
    print_steps(&answer);
}

static void print_events(void)
{
    struct gigboda_answer answer = gigboda_read_section(text, length, tokens, lent_tokens, events, lent_events);
    size_t i;

    printf("%zu %zu %zu\n", answer.number, answer.place, answer.events);
    for (i = 0; i < answer.events; i++) {
        uint32_t word = gigboda_event_word(events, i);
        size_t token = gigboda_event_token(events, i);
        struct gigboda_position at = gigboda_event_position(text, length, &answer, tokens, events, i);

        printf("%u %u %u %zu %zu %zu:%zu\n", gigboda_event_class(word), gigboda_event_kind(word), gigboda_event_last(word), token,
               gigboda_token_place(&answer, tokens, token), at.line, at.column);
    }
}

static void print_node(const struct gigboda_tree_answer *tree, size_t node)
{
    struct gigboda_record record = gigboda_record_of(records, node);
    struct gigboda_part part = gigboda_tree_part(tree, tokens, records, node);
    size_t token = gigboda_tree_token_at(tree, tokens, part.start), child;

    printf("%s %zu %zu %zu at %zu %zu in %zu:", gigboda_kind_name(record.kind), record.parent, record.first, record.below, part.start,
           part.start + part.length, gigboda_tree_innermost(tree, records, token));
    for (child = gigboda_tree_child(tree, records, node, node); child < tree->records;
         child = gigboda_tree_child(tree, records, node, child))
        printf(" %zu", child);
    putchar('\n');
}

static void print_tree(void)
{
    struct gigboda_tree_answer tree =
        gigboda_read_tree(text, length, tokens, lent_tokens, events, lent_events, records, lent_records);
    size_t node;

    printf("%zu %zu %zu %zu %zu %zu\n", tree.answer.number, tree.answer.place, tree.answer.tokens, tree.answer.taken, tree.answer.events,
           tree.records);
    for (node = 0; node < tree.records; node++)
        print_node(&tree, node);
}

static void print_value(void)
{
    struct gigboda_value_answer read = gigboda_read_value(text, length, tokens, lent_tokens, events, lent_events, association);

    printf("%zu %zu %zu %zu %zu %lld\n", read.answer.number, read.answer.place, read.answer.tokens, read.answer.taken, read.answer.events,
           (long long)read.value);
}

static void print_places(void)
{
    size_t place;

    for (place = 0; place <= length; place++) {
        struct gigboda_position at = gigboda_position_of(text, length, place);

        printf("%zu:%zu\n", at.line, at.column);
    }
}

static void print_numbers(void)
{
    size_t count = gigboda_read_tokens(text, length, tokens, MOST).tokens, i;

    for (i = 0; i < count; i++) {
        struct gigboda_number n = gigboda_read_number(text, length, tokens, count, i);

        if (n.length > 0)
            printf("%zu: %u %zu %zu %zu %zu %zu %d %d\n", i, n.kind, n.length, n.base_begin, n.base_end, n.inner_begin, n.inner_end,
                   n.closed, n.exponent);
    }
}

/* The record's next number, lowest byte first; 0 at the end. */
static int read_number(uint32_t *number)
{
    unsigned char bytes[4];

    if (fread(bytes, 1, 4, stdin) != 4)
        return 0;
    *number = bytes[0] + bytes[1] * 256u + bytes[2] * 65536u + bytes[3] * 16777216u;
    return 1;
}

/* The record's other numbers and its text. */
static int read_rest(void)
{
    uint32_t call = 0, settings = NONE, own = 0;
    int good;

    if (length != NONE)
        good = read_number(&lent_tokens) && read_number(&lent_events);
    else
        good = read_number(&call) && read_number(&settings) && read_number(&length) && read_number(&lent_tokens)
               && read_number(&lent_events) && read_number(&own);
    lent_records = call == 1 ? own : lent_events / 4;
    association = call == 6 ? own : 0;
    lent_events = call == 5 ? NONE : lent_events; /* a number's parts: no section */
    return good && (call <= 1 || call == 5 || call == 6) && settings == NONE && length <= MOST && lent_tokens <= MOST
           && (lent_events == NONE || (lent_events <= GIGBODA_EVENT_WORDS * MOST && lent_records <= GIGBODA_RECORD_WORDS * MOST))
           && fread(text, 1, length, stdin) == length;
}

/* Prints each section record of standard input. */
static int print_all(void (*print_record)(void))
{
    while (read_number(&length)) {
        if (!read_rest()) {
            puts("bad record");
            return 1;
        }
        if (lent_events != NONE)
            print_record();
    }
    return ferror(stdin) || fflush(stdout) != 0;
}

int main(int count, char **arguments)
{
    if (count == 2 && strcmp(arguments[1], "walks") == 0)
        return print_all(print_walk);
    if (count == 2 && strcmp(arguments[1], "events") == 0)
        return print_all(print_events);
    if (count == 2 && strcmp(arguments[1], "trees") == 0)
        return print_all(print_tree);
    if (count == 2 && strcmp(arguments[1], "values") == 0)
        return print_all(print_value);
    if (count == 2 && strcmp(arguments[1], "places") == 0)
        return print_all(print_places);
    if (count == 2 && strcmp(arguments[1], "numbers") == 0)
        return print_all(print_numbers);
    print_tables();
    return fflush(stdout) != 0;
}
