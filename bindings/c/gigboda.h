/* Gigboda for C99 and C++: the tokens of an AADL text and the parts of its numbers, the events of its property section, the tree that they
 * spell, the whole numbers that its values are, all of it in words.
 *
 * Link with target/staticlib/libcapi.a, which `tools/build library` writes (x86-64):
 *
 *     cc -std=c99 -I bindings/c FILE.c target/staticlib/libcapi.a
 *
 * The library has six functions, and they are proved: crates/capi/src/lib.rt says what each leaves, for every text, every number of lent
 * words and whatever the words hold. All else is inline in this header, which needs gigboda_kinds.h beside it, and is tested, not proved
 * (bindings/c/test).
 *
 * What is lent is a pointer and a number of elements. Any number is allowed, 0 too, and then any pointer, NULL too. Buffers that are lent
 * to one call must not overlap. Nothing is kept after a call, nothing is allocated, and two threads may call at the same time with buffers
 * of their own. example.c shows a use.
 */
#ifndef GIGBODA_H
#define GIGBODA_H

#include <stddef.h>
#include <stdint.h>

#ifdef __cplusplus
extern "C" {
#endif

#define GIGBODA_VERSION_MAJOR 0
#define GIGBODA_VERSION_MINOR 8
#define GIGBODA_VERSION_PATCH 1
#define GIGBODA_QUOTED_NUMBERS(major, minor, patch) #major "." #minor "." #patch
#define GIGBODA_QUOTED(major, minor, patch) GIGBODA_QUOTED_NUMBERS(major, minor, patch)
#define GIGBODA_VERSION GIGBODA_QUOTED(GIGBODA_VERSION_MAJOR, GIGBODA_VERSION_MINOR, GIGBODA_VERSION_PATCH)

/* The limits. A text has at most GIGBODA_MOST_BYTES bytes, and a token at least one: with as many token words no text is refused 3. An event
 * has GIGBODA_EVENT_WORDS words: so many event words have room for half as many events, and an odd one at the end is never used. At most
 * GIGBODA_MOST_EVENTS events are read: with GIGBODA_EVENT_WORDS times as many event words a text is refused 5 only if its section has more
 * events than that, and more words do not help. `properties a=>` and 16,377 times `1,` is refused 5 whatever is lent. A node has two events,
 * a Start and a Finish, and a record of GIGBODA_RECORD_WORDS words: with GIGBODA_MOST_NODES times as many record words no text is refused
 * 7. */
#define GIGBODA_MOST_BYTES 32768
#define GIGBODA_MOST_EVENTS 32768
#define GIGBODA_EVENT_WORDS 2
#define GIGBODA_MOST_NODES (GIGBODA_MOST_EVENTS / 2)
#define GIGBODA_RECORD_WORDS 4

/* ---- Kinds ---- */

/* GIGBODA_KIND_TOMBSTONE = 0, GIGBODA_KIND_EOF = 1 and so on: a constant for each row of gigboda_kinds.h. */
enum gigboda_kind {
#define GIGBODA_SPELLED(name, text) GIGBODA_KIND_##name,
#define GIGBODA_NAMED(name) GIGBODA_KIND_##name,
#include "gigboda_kinds.h"
    GIGBODA_KIND_COUNT /* how many kinds there are */
};

/* A kind's name, such as `INTEGER_VALUE`. */
static inline const char *gigboda_kind_name(unsigned kind)
{
    static const char *const names[] = {
#define GIGBODA_SPELLED(name, text) #name,
#define GIGBODA_NAMED(name) #name,
#include "gigboda_kinds.h"
    };

    return kind < GIGBODA_KIND_COUNT ? names[kind] : "(no kind)";
}

/* ---- Answers ---- */

/* What a call answers. A refusal has a number and a place, and 0 in the other three; else number and place are 0. */
struct gigboda_answer {
    size_t number; /* 0, or the refusal's number */
    size_t place;  /* 0, or the byte of the text at which it is refused, from 0 */
    size_t tokens; /* how many token words are filled */
    size_t taken;  /* how many tokens, spaces and comments not counted, the section takes */
    size_t events; /* how many events there are: twice as many event words are filled */
};

/* What the tree call answers. */
struct gigboda_tree_answer {
    struct gigboda_answer answer; /* the section call's, or a refusal 7 */
    size_t records;               /* how many records are filled, one for each node; 0 in a refusal */
};

/* What the value call answers. */
struct gigboda_value_answer {
    struct gigboda_answer answer; /* the section call's, or a refusal 9 or 10 */
    int64_t value;                /* the association's value; 0 in a refusal */
};

/* Why a text is refused, and what the place is then. */
enum gigboda_refusal {
    GIGBODA_REFUSAL_NONE = 0,          /* not refused */
    GIGBODA_REFUSAL_TOO_LONG = 1,      /* over 32,768 bytes; 32,768 */
    GIGBODA_REFUSAL_NOT_UTF8 = 2,      /* start of the first ill-formed sequence */
    GIGBODA_REFUSAL_NO_TOKEN_WORD = 3, /* more tokens than lent words; start of the first without one */
    GIGBODA_REFUSAL_NO_PROPERTIES = 4, /* the first token but trivia is not `properties`; its start, or the text's length */
    GIGBODA_REFUSAL_NO_EVENT_WORD = 5, /* fewer than two event words left; start of the next token not taken, or the text's length */
    GIGBODA_REFUSAL_TOO_DEEP = 6,      /* a 65th open `(`, `[`, `not` or sign; its start */
    GIGBODA_REFUSAL_NO_RECORD = 7,     /* more nodes than lent records; start of the first token of the first without one, or of the token
                                        * that comes next if it has none, or the text's length */
    GIGBODA_REFUSAL_UNCLOSED_STRING = 8, /* a string that is not closed; its opening quote */
    GIGBODA_REFUSAL_NO_VALUE = 9, /* an association's first value is no constant; the association's start. Or the text is not clean, or has no
                                   * such association; the text's length */
    GIGBODA_REFUSAL_OUT_OF_RANGE = 10 /* a literal or a partial result does not fit in 64 bits with a sign; the literal or the operator */
};

/* A refusal's number in words, those of docs/REFUSALS.md. */
static inline const char *gigboda_refusal_text(size_t number)
{
    switch (number) {
    case GIGBODA_REFUSAL_NONE: return "not refused";
    case GIGBODA_REFUSAL_TOO_LONG: return "the text is too long";
    case GIGBODA_REFUSAL_NOT_UTF8: return "the text is not UTF-8";
    case GIGBODA_REFUSAL_NO_TOKEN_WORD: return "more tokens than the tool has room for";
    case GIGBODA_REFUSAL_NO_PROPERTIES: return "the text does not begin with `properties`";
    case GIGBODA_REFUSAL_NO_EVENT_WORD: return "more events than the tool has room for";
    case GIGBODA_REFUSAL_TOO_DEEP: return "nested more than 64 deep";
    case GIGBODA_REFUSAL_NO_RECORD: return "more nodes than the tool has room for";
    case GIGBODA_REFUSAL_UNCLOSED_STRING: return "a string is not closed";
    case GIGBODA_REFUSAL_NO_VALUE: return "no whole number to compute";
    case GIGBODA_REFUSAL_OUT_OF_RANGE: return "a number is out of range";
    default: return "(no refusal)";
    }
}

/* ---- The library's functions. They want pointers that are not NULL, also where 0 elements are lent; the calls below see to that. ---- */

/* The section call. Of the answer's five numbers, in the struct's order, as many are written as are lent. */
void gigboda_property_section(const char *text, size_t text_len, uint32_t *tokens, size_t tokens_len, uint32_t *events,
                              size_t events_len, size_t *answer, size_t answer_len);

/* The tree call. Its answer has a sixth number, how many records are filled. */
void gigboda_property_tree(const char *text, size_t text_len, uint32_t *tokens, size_t tokens_len, uint32_t *events, size_t events_len,
                           uint32_t *records, size_t records_len, size_t *answer, size_t answer_len);

/* The value call. It returns the value of the association with a number, 0 in a refusal; the answer is as the section call's. */
int64_t gigboda_association_value(const char *text, size_t text_len, uint32_t *tokens, size_t tokens_len, uint32_t *events,
                                  size_t events_len, size_t number, size_t *answer, size_t answer_len);

/* The tokens-only call. */
void gigboda_tokenize(const char *text, size_t text_len, uint32_t *tokens, size_t tokens_len, size_t *answer, size_t answer_len);

/* Whether a section that was read is clean, 1 or 0, by the tokens taken and the words that its answer counts. */
uint32_t gigboda_clean(size_t taken, const uint32_t *tokens, size_t tokens_len, const uint32_t *events, size_t events_len);

/* Start and length of a token's text, as far as they are lent. */
void gigboda_token_text(const char *text, size_t text_len, const uint32_t *words, size_t words_len, size_t number, size_t *part,
                        size_t part_len);

/* The parts of the number that a token is: eight numbers, in the struct's order, as far as they are lent. */
void gigboda_number_parts(const char *text, size_t text_len, const uint32_t *words, size_t words_len, size_t number, size_t *parts,
                          size_t parts_len);

/* ---- The calls ---- */

/* The answer that five numbers are. */
static inline struct gigboda_answer gigboda_answer_of(const size_t *numbers)
{
    struct gigboda_answer answer;

    answer.number = numbers[0];
    answer.place = numbers[1];
    answer.tokens = numbers[2];
    answer.taken = numbers[3];
    answer.events = numbers[4];
    return answer;
}

/* The section call. Writes the text's tokens into the first token words and the events of its property section into the first event
 * words, two words each (see Words, below). events_len counts words: half of it is the room for events. The words behind those that are
 * filled stay as they were, an odd last event word among them. A refusal (1 to 6, or 8) leaves every lent word 0. */
static inline struct gigboda_answer gigboda_read_section(const char *text, size_t text_len, uint32_t *tokens, size_t tokens_len,
                                                         uint32_t *events, size_t events_len)
{
    size_t numbers[5] = {0, 0, 0, 0, 0};
    uint32_t none[2];

    gigboda_property_section(text ? text : "", text_len, tokens ? tokens : &none[0], tokens_len, events ? events : &none[1],
                             events_len, numbers, 5);
    return gigboda_answer_of(numbers);
}

/* The tree call: what the section call does, and a record for each node of the tree into the first record words, four words each (see The
 * tree in records, below). records_len counts words: a fourth of it are the lent records. The words behind the records stay as they were.
 * A refusal (1 to 8) leaves every lent word 0. */
static inline struct gigboda_tree_answer gigboda_read_tree(const char *text, size_t text_len, uint32_t *tokens, size_t tokens_len,
                                                           uint32_t *events, size_t events_len, uint32_t *records, size_t records_len)
{
    size_t numbers[6] = {0, 0, 0, 0, 0, 0};
    uint32_t none[3];
    struct gigboda_tree_answer tree;

    gigboda_property_tree(text ? text : "", text_len, tokens ? tokens : &none[0], tokens_len, events ? events : &none[1], events_len,
                          records ? records : &none[2], records_len, numbers, 6);
    tree.answer = gigboda_answer_of(numbers);
    tree.records = numbers[5];
    return tree;
}

/* The value call: what the section call does, and the whole number that an association's first value is. Associations count from 0. The
 * value is computed where it is a constant: integers without a unit, with and without a base, signs, and `+`, `-` and `*`, of which `*` comes
 * before the others; `(1)` is a list. Every literal, read without its sign, and every partial result must lie within 64 bits with a sign. A
 * refusal (1 to 6, or 8 to 10) leaves every lent word 0; 9 and 10 come after the others. */
static inline struct gigboda_value_answer gigboda_read_value(const char *text, size_t text_len, uint32_t *tokens, size_t tokens_len,
                                                             uint32_t *events, size_t events_len, size_t association)
{
    size_t numbers[5] = {0, 0, 0, 0, 0};
    uint32_t none[2];
    struct gigboda_value_answer read;

    read.value = gigboda_association_value(text ? text : "", text_len, tokens ? tokens : &none[0], tokens_len,
                                           events ? events : &none[1], events_len, association, numbers, 5);
    read.answer = gigboda_answer_of(numbers);
    return read;
}

/* The tokens-only call: the same without a section. It has the refusals 1 to 3 and 8, and answers 0 taken and 0 events. */
static inline struct gigboda_answer gigboda_read_tokens(const char *text, size_t text_len, uint32_t *tokens, size_t tokens_len)
{
    size_t numbers[5] = {0, 0, 0, 0, 0};
    uint32_t none;

    gigboda_tokenize(text ? text : "", text_len, tokens ? tokens : &none, tokens_len, numbers, 5);
    return gigboda_answer_of(numbers);
}

/* A part of a text. */
struct gigboda_part {
    size_t start;
    size_t length;
};

/* The text of the token with a number, from 0. Any words are allowed. The length is 0 if there is no such word, or if the lengths up to
 * it pass the text's end; start and length always lie within the text. */
static inline struct gigboda_part gigboda_token_part(const char *text, size_t text_len, const uint32_t *tokens, size_t tokens_len,
                                                     size_t number)
{
    static const uint32_t none = 0;
    size_t numbers[2] = {0, 0};
    struct gigboda_part part;

    gigboda_token_text(text ? text : "", text_len, tokens ? tokens : &none, tokens_len, number, numbers, 2);
    part.start = numbers[0];
    part.length = numbers[1];
    return part;
}

/* The parts of a number. Their places count from the literal's start, which gigboda_token_part gives; an end is the first place behind a
 * part. A literal as in C, such as `0x1F`, has its kind and length, and 0 in all else. */
struct gigboda_number {
    unsigned kind;                 /* GIGBODA_KIND_INTEGER_LIT or _REAL_LIT; GIGBODA_KIND_ERROR for a literal as in C */
    size_t length;                 /* of the literal in bytes; 0 if the token is none, and then all else is 0 */
    size_t base_begin, base_end;   /* the digits before `#`; 0 and 0 without one */
    size_t inner_begin, inner_end; /* the digits behind `#`, with `.` and `_`; without a `#` all before the exponent */
    int closed;                    /* 1 if the closing `#` stands at inner_end, else 0 */
    int exponent;                  /* 1 if an exponent, perhaps without digits, stands from inner_end + closed to the end; else 0 */
};

/* The parts of the number that a token is. Tokens count from 0, spaces and comments too, as in the `token` of a step. Any words are allowed:
 * a literal is told only if it stands in the text where the words place the token, with the kind and the length that the token's word says.
 * It goes through the words up to that one. */
static inline struct gigboda_number gigboda_read_number(const char *text, size_t text_len, const uint32_t *tokens, size_t tokens_len,
                                                        size_t token)
{
    static const uint32_t none = 0;
    size_t numbers[8] = {0, 0, 0, 0, 0, 0, 0, 0};
    struct gigboda_number parts;

    gigboda_number_parts(text ? text : "", text_len, tokens ? tokens : &none, tokens_len, token, numbers, 8);
    parts.kind = (unsigned)numbers[0];
    parts.length = numbers[1];
    parts.base_begin = numbers[2];
    parts.base_end = numbers[3];
    parts.inner_begin = numbers[4];
    parts.inner_end = numbers[5];
    parts.closed = numbers[6] != 0;
    parts.exponent = numbers[7] != 0;
    return parts;
}

/* ---- Places ---- */

/* Line and column, both from 1. LF ends a line, and a column is 1 plus the characters (Unicode scalar values) since the last LF. */
struct gigboda_position {
    size_t line;
    size_t column;
};

/* Where a place is, a byte of the text from 0; the text's end for any place behind it. It goes through the text up to the place and counts,
 * as `list` does, bytes that continue no UTF-8 sequence: so a place within a character is that of the next one, and in bytes that are no
 * UTF-8 each such byte counts one. */
static inline struct gigboda_position gigboda_position_of(const char *text, size_t text_len, size_t place)
{
    struct gigboda_position at;
    size_t i;

    at.line = 1;
    at.column = 1;
    for (i = 0; i < place && i < text_len; i++) {
        if (text[i] == '\n') {
            at.line++;
            at.column = 1;
        } else if (((unsigned char)text[i] & 0xC0) != 0x80) {
            at.column++;
        }
    }
    return at;
}

/* ---- Words ---- */

/* A token word: kind and length in bytes. */
static inline unsigned gigboda_token_kind(uint32_t word) { return word / 65536; }
static inline unsigned gigboda_token_length(uint32_t word) { return word % 65536; }

/* Spaces and comments are trivia: tokens that a section's events do not mention. */
static inline int gigboda_is_trivia(uint32_t word)
{
    return gigboda_token_kind(word) == GIGBODA_KIND_WHITESPACE || gigboda_token_kind(word) == GIGBODA_KIND_COMMENT;
}

/* An event has two words. The first one: class, kind, and a last field that the class explains. */
enum gigboda_class {
    GIGBODA_CLASS_START = 0,  /* a node of that kind; last is its forward parent, 0 for none */
    GIGBODA_CLASS_TOKEN = 1,  /* the next token that is not trivia, of that kind; last is 1 */
    GIGBODA_CLASS_FINISH = 2, /* the innermost node ends; kind and last are 0 */
    GIGBODA_CLASS_ERROR = 3   /* last is the message, kind is 0 */
};
static inline unsigned gigboda_event_class(uint32_t word) { return word / 16777216; }
static inline unsigned gigboda_event_kind(uint32_t word) { return word / 65536 % 256; }
static inline unsigned gigboda_event_last(uint32_t word) { return word % 65536; }

/* The first word of the event with a number, from 0. It must be one of those that the answer counts. */
static inline uint32_t gigboda_event_word(const uint32_t *events, size_t event) { return events[GIGBODA_EVENT_WORDS * event]; }

/* The second one: an event's token by its number among all tokens, from 0, spaces and comments too. A Token has its own; any other event that
 * of the token, trivia left out, that came next when it was pushed, or how many tokens there are if none did. From event to event it never
 * falls. A node's first token, or the next one if it has none, is that of the Start at which the node opens: of the first Start of its chain.
 * The node of a range, a sum or a product is put around its first operand when that one is read, so that its own Start names the token
 * behind that operand. */
static inline size_t gigboda_event_token(const uint32_t *events, size_t event) { return events[GIGBODA_EVENT_WORDS * event + 1]; }

/* Where the token with a number starts, a byte of the text; the text's end for as many as there are. It adds up the lengths before it. */
static inline size_t gigboda_token_place(const struct gigboda_answer *answer, const uint32_t *tokens, size_t token)
{
    size_t place = 0, i;

    for (i = 0; i < token && i < answer->tokens; i++)
        place += gigboda_token_length(tokens[i]);
    return place;
}

/* Line and column of an event's token, those that `list` prints for the event. */
static inline struct gigboda_position gigboda_event_position(const char *text, size_t text_len, const struct gigboda_answer *answer,
                                                             const uint32_t *tokens, const uint32_t *events, size_t event)
{
    return gigboda_position_of(text, text_len, gigboda_token_place(answer, tokens, gigboda_event_token(events, event)));
}

/* Messages of Error events; 256 + kind: a token of that kind is missing. */
enum gigboda_message {
    GIGBODA_MESSAGE_NO_ARROW = 1,
    GIGBODA_MESSAGE_NO_NAME_IN_SET = 2,
    GIGBODA_MESSAGE_NO_NAME = 3, /* never met */
    GIGBODA_MESSAGE_C_STYLE = 4,
    GIGBODA_MESSAGE_NO_EXPRESSION = 5,
    GIGBODA_MESSAGE_NO_IDENTIFIER = 6,
    GIGBODA_MESSAGE_NO_IMPLEMENTATION = 7,
    GIGBODA_MESSAGE_VIRTUAL_ALONE = 8,
    GIGBODA_MESSAGE_MISSING = 256 /* added to the kind that is missing */
};

/* The message that a token of a kind is missing, in words: a mark or keyword as it is written, else the kind's name. */
static inline const char *gigboda_missing_text(unsigned kind)
{
    static const char *const texts[] = {
#define GIGBODA_SPELLED(name, text) "expected " text,
#define GIGBODA_NAMED(name) "expected " #name,
#include "gigboda_kinds.h"
    };

    return kind < GIGBODA_KIND_COUNT ? texts[kind] : "(no message)";
}

/* A message in words, those of docs/REFUSALS.md. */
static inline const char *gigboda_message_text(unsigned message)
{
    switch (message) {
    case GIGBODA_MESSAGE_NO_ARROW: return "no `=>` or `+=>` after a property's name";
    case GIGBODA_MESSAGE_NO_NAME_IN_SET: return "no property name after `::`";
    case GIGBODA_MESSAGE_NO_NAME: return "no property name";
    case GIGBODA_MESSAGE_C_STYLE: return "a number written as in C, with `0x`, `0o` or `0b`";
    case GIGBODA_MESSAGE_NO_EXPRESSION: return "no value where one must stand";
    case GIGBODA_MESSAGE_NO_IDENTIFIER: return "no name after `::` in a classifier";
    case GIGBODA_MESSAGE_NO_IMPLEMENTATION: return "no implementation name after `.` in a classifier";
    case GIGBODA_MESSAGE_VIRTUAL_ALONE: return "`virtual` without `bus` or `processor` after it";
    default: return message < GIGBODA_MESSAGE_MISSING ? "(no message)" : gigboda_missing_text(message - GIGBODA_MESSAGE_MISSING);
    }
}

/* Whether what the section call answered and left is clean: not refused, no Error event, and every token but trivia taken. That is so
 * exactly when the section grammar derives the text. A refusal and an answer of the tokens-only call have no events and are not clean. */
static inline int gigboda_is_clean(const struct gigboda_answer *answer, const uint32_t *tokens, const uint32_t *events)
{
    return answer->events > 0 && gigboda_clean(answer->taken, tokens, answer->tokens, events, 2 * answer->events) == 1;
}

/* ---- The tree, step by step ----
 *
 *     struct gigboda_walk walk = gigboda_walk_of(&answer, tokens, events);
 *     struct gigboda_step step;
 *
 *     while (gigboda_walk_next(&walk, &step))
 *         ..
 *
 * A Start with a forward parent opens inside the node of the Start that stands so many events further on; of a chain of them the outermost
 * opens first, and a Start that another points to opens nothing again. The walk follows them with no memory but its own few numbers: the
 * node whose Start points to another Start ends just before that one, so it is found by counting back over its events. That is done at most
 * twice for a node, as its chain opens and as the Start behind it is met; a node within it is counted along. So the time grows with the
 * events and with how deep values are nested, at most 64 openers, but not with a chain's length. A text of 32 KB with a sum of 5,459
 * numbers is walked through in 0.2 ms, about as long as the call takes; the longest time known, for 64 records in one another around a sum
 * of 5,001 numbers, is 6 ms. */

enum gigboda_step_sort {
    GIGBODA_STEP_ENTER, /* a node begins */
    GIGBODA_STEP_TOKEN, /* a token of the innermost node */
    GIGBODA_STEP_LEAVE, /* the innermost node ends */
    GIGBODA_STEP_ERROR  /* a message */
};

/* A step through the tree. A node's text goes from the place of its ENTER to the end of its LEAVE; a node without tokens has that end
 * before that place, or at it. */
struct gigboda_step {
    enum gigboda_step_sort sort;
    unsigned kind;    /* of the node that begins, or of the token; else 0 */
    unsigned message; /* of an ERROR; else 0 */
    size_t depth;     /* how many nodes are around the node, the token or the message */
    size_t token;     /* a TOKEN's number among all tokens, from 0; else the next one's that is not taken, or how many there are. So an
                       * ENTER has its node's first token */
    size_t place;     /* where that token starts, or the text's end */
    size_t end;       /* where the last token ends that was taken, a TOKEN's own end; 0 before the first */
};

/* Where a walk stands. Its fields are its own. */
struct gigboda_walk {
    const uint32_t *tokens, *events;
    size_t tokens_len, events_len; /* how many tokens and how many events */
    size_t event;   /* the next event */
    size_t opening; /* of a chain that is being opened, the Start of the node to enter next; else events_len */
    size_t depth;   /* how many nodes are open */
    size_t token, place, end;
};

/* Goes on to the next token that is not trivia. */
static inline void gigboda_walk_over_trivia(struct gigboda_walk *walk)
{
    for (; walk->token < walk->tokens_len && gigboda_is_trivia(walk->tokens[walk->token]); walk->token++)
        walk->place += gigboda_token_length(walk->tokens[walk->token]);
}

/* The walk through the tree that the section call answered and left. The words must stay as they are until it ends. */
static inline struct gigboda_walk gigboda_walk_of(const struct gigboda_answer *answer, const uint32_t *tokens, const uint32_t *events)
{
    struct gigboda_walk walk;

    walk.tokens = tokens;
    walk.events = events;
    walk.tokens_len = answer->tokens;
    walk.events_len = answer->events;
    walk.event = 0;
    walk.opening = walk.events_len;
    walk.depth = 0;
    walk.token = 0;
    walk.place = 0;
    walk.end = 0;
    gigboda_walk_over_trivia(&walk);
    return walk;
}

/* The Start at the outer end of a Start's chain. */
static inline size_t gigboda_walk_outermost(const struct gigboda_walk *walk, size_t start)
{
    size_t last = gigboda_event_last(gigboda_event_word(walk->events, start));

    while (last != 0 && last < walk->events_len - start
           && gigboda_event_class(gigboda_event_word(walk->events, start + last)) == GIGBODA_CLASS_START) {
        start += last;
        last = gigboda_event_last(gigboda_event_word(walk->events, start));
    }
    return start;
}

/* The Start that points to a Start, or that Start itself if none does. It is the Start of the node whose Finish stands before: going back,
 * the first at which there are as many Starts as Finishes. */
static inline size_t gigboda_walk_inner(const struct gigboda_walk *walk, size_t start)
{
    size_t finishes = 0, at = start;

    if (start == 0 || gigboda_event_class(gigboda_event_word(walk->events, start - 1)) != GIGBODA_CLASS_FINISH)
        return start;
    while (at > 0) {
        unsigned sort = gigboda_event_class(gigboda_event_word(walk->events, --at));

        finishes += sort == GIGBODA_CLASS_FINISH;
        if (sort == GIGBODA_CLASS_START && --finishes == 0)
            return gigboda_event_last(gigboda_event_word(walk->events, at)) == start - at ? at : start;
    }
    return start;
}

/* Enters the next node of the chain that begins at the next event, from its outer end on. */
static inline void gigboda_walk_enter(struct gigboda_walk *walk, struct gigboda_step *step)
{
    size_t entered = walk->opening < walk->events_len ? walk->opening : gigboda_walk_outermost(walk, walk->event);

    step->sort = GIGBODA_STEP_ENTER;
    step->kind = gigboda_event_kind(gigboda_event_word(walk->events, entered));
    walk->depth++;
    if (entered == walk->event) {
        walk->opening = walk->events_len;
        walk->event++;
    } else {
        walk->opening = gigboda_walk_inner(walk, entered);
        if (walk->opening == entered || walk->opening < walk->event)
            walk->opening = walk->event;
    }
}

/* Takes the next token, if there is one. */
static inline int gigboda_walk_take(struct gigboda_walk *walk, struct gigboda_step *step)
{
    if (walk->token >= walk->tokens_len)
        return 0;
    step->sort = GIGBODA_STEP_TOKEN;
    step->kind = gigboda_event_kind(gigboda_event_word(walk->events, walk->event++));
    walk->end = walk->place + gigboda_token_length(walk->tokens[walk->token++]);
    walk->place = walk->end;
    step->end = walk->end;
    gigboda_walk_over_trivia(walk);
    return 1;
}

/* Leaves the innermost node, if one is open. */
static inline int gigboda_walk_leave(struct gigboda_walk *walk, struct gigboda_step *step)
{
    if (walk->depth == 0)
        return 0;
    step->sort = GIGBODA_STEP_LEAVE;
    step->depth = --walk->depth;
    walk->event++;
    return 1;
}

/* Goes past a Start that another points to: its node is open already. */
static inline void gigboda_walk_over_used(struct gigboda_walk *walk)
{
    if (walk->event < walk->events_len
        && gigboda_event_class(gigboda_event_word(walk->events, walk->event)) == GIGBODA_CLASS_START
        && gigboda_walk_inner(walk, walk->event) != walk->event)
        walk->event++;
}

/* What a step says of where the walk stands. */
static inline void gigboda_walk_stands(const struct gigboda_walk *walk, struct gigboda_step *step)
{
    step->kind = 0;
    step->message = 0;
    step->depth = walk->depth;
    step->token = walk->token;
    step->place = walk->place;
    step->end = walk->end;
}

/* Makes the next step: 1, or 0 at the end. Words that no call left end the walk early, or give steps that mean nothing; nothing outside
 * them is read. */
static inline int gigboda_walk_next(struct gigboda_walk *walk, struct gigboda_step *step)
{
    gigboda_walk_over_used(walk);
    if (walk->event >= walk->events_len)
        return 0;
    gigboda_walk_stands(walk, step);
    switch (gigboda_event_class(gigboda_event_word(walk->events, walk->event))) {
    case GIGBODA_CLASS_START:
        gigboda_walk_enter(walk, step);
        return 1;
    case GIGBODA_CLASS_TOKEN:
        return gigboda_walk_take(walk, step);
    case GIGBODA_CLASS_FINISH:
        return gigboda_walk_leave(walk, step);
    case GIGBODA_CLASS_ERROR:
        step->sort = GIGBODA_STEP_ERROR;
        step->message = gigboda_event_last(gigboda_event_word(walk->events, walk->event++));
        return 1;
    default:
        return 0;
    }
}

/* ---- The tree in records ----
 *
 * The tree call leaves a record for each node, in the order in which the walk enters them: a node stands before those below it, and these
 * stand right behind it. Nodes count from 0, the root. Tokens count from 0 too, spaces and comments left out. No events are needed to go
 * from a node to its parent, to its children or to its text. A click on a byte of the text finds its node, and those around it, by
 *
 *     size_t node = gigboda_tree_innermost(&tree, records, gigboda_tree_token_at(&tree, tokens, place));
 *
 *     while (node < tree.records) {
 *         ..
 *         node = node == 0 ? tree.records : gigboda_record_of(records, node).parent;
 *     }
 *
 * and the children of a node are
 *
 *     for (n = gigboda_tree_child(&tree, records, node, node); n < tree.records; n = gigboda_tree_child(&tree, records, node, n))
 *         ..
 */

/* A node's record. */
struct gigboda_record {
    unsigned kind;
    size_t parent; /* the node around it; the root's is the root, 0 */
    size_t first;  /* its first token, or the next one that is not taken if it has none */
    size_t below;  /* how many tokens it has, those of the nodes below it too */
};

/* The record of a node. It must be one of those that are filled. */
static inline struct gigboda_record gigboda_record_of(const uint32_t *records, size_t node)
{
    struct gigboda_record record;

    record.kind = records[GIGBODA_RECORD_WORDS * node];
    record.parent = records[GIGBODA_RECORD_WORDS * node + 1];
    record.first = records[GIGBODA_RECORD_WORDS * node + 2];
    record.below = records[GIGBODA_RECORD_WORDS * node + 3];
    return record;
}

/* The child of a node that comes next after another one, or the first one after the node itself; as many as there are records if there is
 * none. It goes past what is below the child before, so all children together take the time of what is below the node. */
static inline size_t gigboda_tree_child(const struct gigboda_tree_answer *tree, const uint32_t *records, size_t node, size_t after)
{
    size_t next;

    for (next = after + 1; next < tree->records && gigboda_record_of(records, next).parent >= node; next++)
        if (gigboda_record_of(records, next).parent == node)
            return next;
    return tree->records;
}

/* Whether a node is another one or stands below it, however deep. */
static inline int gigboda_tree_is_within(const uint32_t *records, size_t node, size_t other)
{
    while (node > other) {
        size_t parent = gigboda_record_of(records, node).parent;

        if (parent >= node)
            return 0; /* words that no call left */
        node = parent;
    }
    return node == other;
}

/* The innermost node that has a token, or as many as there are records if none has it. It goes through the nodes up to the token. */
static inline size_t gigboda_tree_innermost(const struct gigboda_tree_answer *tree, const uint32_t *records, size_t token)
{
    size_t found = tree->records, node;

    for (node = 0; node < tree->records && gigboda_record_of(records, node).first <= token; node++)
        if (token - gigboda_record_of(records, node).first < gigboda_record_of(records, node).below)
            found = node;
    return found;
}

/* The token at a byte of the text, spaces and comments left out; the next one for a byte between two, and as many as there are behind the
 * last. */
static inline size_t gigboda_tree_token_at(const struct gigboda_tree_answer *tree, const uint32_t *tokens, size_t place)
{
    size_t token = 0, end = 0, i;

    for (i = 0; i < tree->answer.tokens; i++) {
        end += gigboda_token_length(tokens[i]);
        if (gigboda_is_trivia(tokens[i]))
            continue;
        if (place < end)
            break;
        token++;
    }
    return token;
}

/* The text of a node, from its first token to its last; that of a node without tokens is empty, where the next token starts or at the text's
 * end. */
static inline struct gigboda_part gigboda_tree_part(const struct gigboda_tree_answer *tree, const uint32_t *tokens,
                                                    const uint32_t *records, size_t node)
{
    struct gigboda_record record = gigboda_record_of(records, node);
    struct gigboda_part part = {0, 0};
    size_t token = 0, end, i;

    for (i = 0; i < tree->answer.tokens && (gigboda_is_trivia(tokens[i]) || token < record.first); i++) {
        token += !gigboda_is_trivia(tokens[i]);
        part.start += gigboda_token_length(tokens[i]);
    }
    end = part.start;
    for (token = 0; i < tree->answer.tokens && token < record.below; i++) {
        end += gigboda_token_length(tokens[i]);
        if (!gigboda_is_trivia(tokens[i])) {
            part.length = end - part.start;
            token++;
        }
    }
    return part;
}

#ifdef __cplusplus
}
#endif

#endif
