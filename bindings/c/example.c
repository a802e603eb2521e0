/* Shows a property section as a tree, with what is wrong in words:
 *
 *     example [FILE]
 *
 * reads FILE or standard input. It ends with 0 for a clean text, 1 for one that is refused or not clean, 2 if reading or writing
 * failed. */
#include "gigboda.h"
#include <stdio.h>

static char text[GIGBODA_MOST_BYTES + 1]; /* one byte more than may be read: a longer text is refused 1 without being held */
static uint32_t tokens[GIGBODA_MOST_BYTES];
static uint32_t events[GIGBODA_EVENT_WORDS * GIGBODA_MOST_EVENTS];

static void print_place(size_t length, size_t place, const char *what)
{
    struct gigboda_position at = gigboda_position_of(text, length, place);

    printf("line %zu, column %zu: %s\n", at.line, at.column, what);
}

static void print_step(size_t length, const struct gigboda_step *step)
{
    if (step->sort == GIGBODA_STEP_LEAVE)
        return;
    printf("%*s", (int)(2 * step->depth), "");
    if (step->sort == GIGBODA_STEP_ENTER) {
        printf("%s\n", gigboda_kind_name(step->kind));
    } else if (step->sort == GIGBODA_STEP_TOKEN) {
        printf("%s ", gigboda_kind_name(step->kind));
        fwrite(text + step->place, 1, step->end - step->place, stdout);
        putchar('\n');
    } else {
        printf("! ");
        print_place(length, step->place, gigboda_message_text(step->message));
    }
}

/* Prints the tree of a text that is not refused; 0 if it is clean. */
static int print_tree(size_t length, const struct gigboda_answer *answer)
{
    struct gigboda_walk walk = gigboda_walk_of(answer, tokens, events);
    struct gigboda_step step = {GIGBODA_STEP_ENTER, 0, 0, 0, 0, 0, 0};

    while (gigboda_walk_next(&walk, &step))
        print_step(length, &step);
    if (gigboda_is_clean(answer, tokens, events)) {
        puts("clean");
        return 0;
    }
    puts("not clean");
    if (step.place < length)
        print_place(length, step.place, "the section ends before this");
    return 1;
}

/* Reads all of a file, or as much as there is room for; 0 if that fails. */
static int read_text(const char *name, size_t *length)
{
    FILE *file = name ? fopen(name, "rb") : stdin;
    int good = file != NULL;

    if (good) {
        *length = fread(text, 1, sizeof text, file);
        good = !ferror(file);
    }
    if (!good)
        perror(name ? name : "standard input");
    return good;
}

/* Prints what the text is; 0 if it is clean. */
static int print_text(size_t length)
{
    struct gigboda_answer answer =
        gigboda_read_section(text, length, tokens, GIGBODA_MOST_BYTES, events, GIGBODA_EVENT_WORDS * GIGBODA_MOST_EVENTS);

    if (answer.number == GIGBODA_REFUSAL_NONE)
        return print_tree(length, &answer);
    printf("refused %zu; ", answer.number);
    print_place(length, answer.place, gigboda_refusal_text(answer.number));
    return 1;
}

int main(int count, char **arguments)
{
    size_t length = 0;
    int status;

    if (!read_text(count > 1 ? arguments[1] : NULL, &length))
        return 2;
    status = print_text(length);
    if (fflush(stdout) != 0) {
        perror("standard output");
        return 2;
    }
    return status;
}
