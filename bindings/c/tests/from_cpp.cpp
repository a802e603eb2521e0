// gigboda.h from C++: the calls with strings and vectors, also empty ones, whose data() may be NULL. Ends with 0 if all is as it must be.
#include "gigboda.h"
#include <cstdio>
#include <string>
#include <vector>

static gigboda_answer read(const std::string &text, std::vector<uint32_t> &tokens, std::vector<uint32_t> &events)
{
    return gigboda_read_section(text.data(), text.size(), tokens.data(), tokens.size(), events.data(), events.size());
}

static gigboda_tree_answer read_tree(const std::string &text, std::vector<uint32_t> &tokens, std::vector<uint32_t> &events,
                                     std::vector<uint32_t> &records)
{
    return gigboda_read_tree(text.data(), text.size(), tokens.data(), tokens.size(), events.data(), events.size(), records.data(),
                             records.size());
}

static gigboda_value_answer read_value(const std::string &text, std::vector<uint32_t> &tokens, std::vector<uint32_t> &events,
                                       size_t association)
{
    return gigboda_read_value(text.data(), text.size(), tokens.data(), tokens.size(), events.data(), events.size(), association);
}

static gigboda_number read_number(const std::string &text, const std::vector<uint32_t> &tokens, size_t token)
{
    return gigboda_read_number(text.data(), text.size(), tokens.data(), tokens.size(), token);
}

int main()
{
    std::vector<uint32_t> tokens, events;
    const std::string text = "properties A => 1 .. 2;";

    if (read(text, tokens, events).number != GIGBODA_REFUSAL_NO_TOKEN_WORD || read_number(text, tokens, 0).length != 0)
        return 1;
    tokens.resize(GIGBODA_MOST_BYTES);
    if (read(text, tokens, events).number != GIGBODA_REFUSAL_NO_EVENT_WORD)
        return 2;
    events.resize(GIGBODA_EVENT_WORDS * GIGBODA_MOST_EVENTS);
    gigboda_answer answer = read(text, tokens, events);
    gigboda_walk walk = gigboda_walk_of(&answer, tokens.data(), events.data());
    gigboda_step step;
    std::string kinds;
    while (gigboda_walk_next(&walk, &step))
        if (step.sort == GIGBODA_STEP_ENTER)
            kinds += std::string(gigboda_kind_name(step.kind)) + ' ';
    std::puts(kinds.c_str());
    if (kinds != "PROPERTY_SECTION PROPERTY_ASSOCIATION PROPERTY_REF RANGE_VALUE INTEGER_VALUE INTEGER_VALUE ")
        return 3;
    if (read_number(text, tokens, 6).inner_end != 1 || read_number(text, tokens, 7).length != 0)
        return 4;
    std::vector<uint32_t> records;
    if (gigboda_event_token(events.data(), 10) != 8
        || gigboda_event_position(text.data(), text.size(), &answer, tokens.data(), events.data(), 10).column != 19)
        return 5;
    if (read_tree(text, tokens, events, records).answer.number != GIGBODA_REFUSAL_NO_RECORD)
        return 6;
    records.resize(GIGBODA_MOST_NODES * GIGBODA_RECORD_WORDS);
    gigboda_tree_answer tree = read_tree(text, tokens, events, records);
    std::string same;
    for (size_t node = 0; node < tree.records; node++)
        same += std::string(gigboda_kind_name(gigboda_record_of(records.data(), node).kind)) + ' ';
    if (same != kinds)
        return 7;
    if (read_value(text, tokens, events, 0).answer.number != GIGBODA_REFUSAL_NO_VALUE)
        return 8;
    return read_value("properties A => 1; B => 2 * -3;", tokens, events, 1).value == -6 ? 0 : 9;
}
