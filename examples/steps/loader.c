/* cc -O2 -o loader loader.c -ljansson && zcat write-mode-0-planar.json.gz | ./loader */
#include "toy.h"
#include <jansson.h>
#include <string.h>

static void copy(uint8_t *bytes, size_t count, const json_t *numbers, size_t from)
{
    for (size_t i = 0; i < count; i++)
        bytes[i] = (uint8_t)json_integer_value(json_array_get(numbers, from + i));
}

static void set_state(toy *card, const json_t *state)
{
    json_t *planes = json_object_get(state, "planes"), *place;
    size_t i;
    card->misc = (uint8_t)json_integer_value(json_object_get(state, "misc"));
    copy(card->seq, 5, json_object_get(state, "seq"), 0);
    copy(card->gfx, 9, json_object_get(state, "gfx"), 0);
    copy(card->latches, 4, json_object_get(state, "latches"), 0);
    json_array_foreach(planes, i, place)
        copy(card->planes[json_integer_value(json_array_get(place, 0)) & 0xFFFF], 4, place, 1);
}

static bool is_right(const json_t *element)
{
    static toy card, wanted;
    const json_t *put = json_object_get(element, "put"), *get = json_object_get(element, "get");
    uint32_t address = (uint32_t)json_integer_value(json_array_get(put ? put : get, 0));
    uint8_t written = (uint8_t)json_integer_value(json_array_get(put, 1)), read = 0;
    if (!put && !get)
        return false;
    set_state(&card, json_object_get(element, "initial"));
    wanted = card;
    set_state(&wanted, json_object_get(element, "final"));
    bool is_done = put ? toy_put(&card, address, written) : toy_get(&card, address, &read);
    return is_done == !json_object_get(element, "refused") &&
           read == json_integer_value(json_object_get(element, "answer")) &&
           memcmp(&card, &wanted, sizeof card) == 0;
}

int main(void)
{
    size_t i, right = 0;
    json_error_t error;
    json_t *elements = json_loadf(stdin, 0, &error), *element;
    if (!elements) {
        fprintf(stderr, "line %d: %s\n", error.line, error.text);
        return 2;
    }
    json_array_foreach(elements, i, element)
        if (is_right(element))
            right++;
        else if (right == i)
            printf("the first that differs: %s\n", json_string_value(json_object_get(element, "name")));
    printf("%zu right, %zu wrong\n", right, i - right);
    return right == 0 || right < i;
}
