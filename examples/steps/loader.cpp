// c++ -std=c++17 -O2 -o loader loader.cpp && zcat write-mode-0-planar.json.gz | ./loader
#include "toy.h"
#include <cstring>
#include <iostream>
#include <nlohmann/json.hpp>
using nlohmann::json;

static void set_state(toy &card, const json &state)
{
    state.at("misc").get_to(card.misc);
    state.at("seq").get_to(card.seq);
    state.at("gfx").get_to(card.gfx);
    state.at("latches").get_to(card.latches);
    for (const json &place : state.at("planes"))
        for (size_t plane = 0; plane < 4; plane++)
            place.at(plane + 1).get_to(card.planes[place.at(0).get<uint16_t>()][plane]);
}

static bool is_right(const json &element)
{
    static toy card, wanted;
    uint8_t read = 0;
    set_state(card, element.at("initial"));
    wanted = card;
    set_state(wanted, element.at("final"));
    bool is_done = element.contains("put") ? toy_put(&card, element["put"][0], element["put"][1])
                                           : toy_get(&card, element.at("get").at(0), &read);
    return is_done != element.contains("refused") && read == element.value("answer", 0) &&
           std::memcmp(&card, &wanted, sizeof card) == 0;
}

int main()
try {
    size_t right = 0, wrong = 0;
    for (const json &element : json::parse(std::cin))
        if (is_right(element))
            right++;
        else if (wrong++ == 0)
            std::cout << "the first that differs: " << element.at("name") << "\n";
    std::cout << right << " right, " << wrong << " wrong\n";
    return right == 0 || wrong > 0;
} catch (const json::exception &error) {
    std::cerr << error.what() << "\n";
    return 2;
}
