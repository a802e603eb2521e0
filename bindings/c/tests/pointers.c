/* What gigboda.h hands to the library where NULL and 0 are lent: the library's functions are replaced by ones that look at the pointers.
 * Ends with 0 if none is NULL and buffers that are written differ. */
#include "gigboda.h"
#include <stdio.h>

static int calls, bad;

static void look(int good)
{
    calls++;
    bad += !good;
}

void gigboda_property_section(const char *text, size_t text_len, uint32_t *tokens, size_t tokens_len, uint32_t *events,
                              size_t events_len, size_t *answer, size_t answer_len)
{
    look(text && tokens && events && tokens != events && answer && text_len + tokens_len + events_len == 0 && answer_len == 5);
}

void gigboda_property_tree(const char *text, size_t text_len, uint32_t *tokens, size_t tokens_len, uint32_t *events, size_t events_len,
                           uint32_t *records, size_t records_len, size_t *answer, size_t answer_len)
{
    look(text && tokens && events && records && tokens != events && tokens != records && events != records && answer
         && text_len + tokens_len + events_len + records_len == 0 && answer_len == 6);
}

int64_t gigboda_association_value(const char *text, size_t text_len, uint32_t *tokens, size_t tokens_len, uint32_t *events,
                                  size_t events_len, size_t number, size_t *answer, size_t answer_len)
{
    look(text && tokens && events && tokens != events && answer && text_len + tokens_len + events_len + number == 0 && answer_len == 5);
    return 0;
}

void gigboda_tokenize(const char *text, size_t text_len, uint32_t *tokens, size_t tokens_len, size_t *answer, size_t answer_len)
{
    look(text && tokens && answer && text_len + tokens_len == 0 && answer_len == 5);
}

void gigboda_token_text(const char *text, size_t text_len, const uint32_t *words, size_t words_len, size_t number, size_t *part,
                        size_t part_len)
{
    look(text && words && part && text_len + words_len + number == 0 && part_len == 2);
}

void gigboda_number_parts(const char *text, size_t text_len, const uint32_t *words, size_t words_len, size_t number, size_t *parts,
                          size_t parts_len)
{
    look(text && words && parts && text_len + words_len + number == 0 && parts_len == 8);
}

int main(void)
{
    gigboda_read_section(NULL, 0, NULL, 0, NULL, 0);
    gigboda_read_tree(NULL, 0, NULL, 0, NULL, 0, NULL, 0);
    gigboda_read_value(NULL, 0, NULL, 0, NULL, 0, 0);
    gigboda_read_tokens(NULL, 0, NULL, 0);
    gigboda_token_part(NULL, 0, NULL, 0, 0);
    gigboda_read_number(NULL, 0, NULL, 0, 0);
    printf("%d calls, %d with a pointer that must not be\n", calls, bad);
    return calls != 6 || bad != 0;
}
