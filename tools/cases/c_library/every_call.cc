// Every call of the library from C++17, with no warning; what they answer is check_library.c's to compare.
#include <cstdint>
#include <cstdio>
#include <vector>

#include "pxplanes.h"

namespace {

const char scene[] = "pxscene 1\npicture 1 1\ndepth 4\nsolid a 200 100 50\nfront 0 0 5\nback 0 0 9\nshow a\nend\n";

struct Caller {
    const std::uint8_t *text = reinterpret_cast<const std::uint8_t *>(scene);
    std::size_t text_len = sizeof scene - 1;
    pxplanes_found found{};
    std::vector<std::uint32_t> statuses{};

    void note(std::uint32_t status) { statuses.push_back(status); }
};

}  // namespace

int main()
{
    Caller c;
    std::uint32_t depth = 0, face = 0;
    std::uint8_t rgb[3] = {}, name[16] = {};
    std::int32_t literals[2] = {};
    pxplanes_moment moment{};
    c.note(pxplanes_check(c.text, c.text_len, &c.found));
    c.note(pxplanes_render(c.text, c.text_len, &depth, 1, &face, 1, &c.found));
    c.note(pxplanes_window(c.text, c.text_len, 0, 0, 1, 1, &depth, 1, &face, 1, &c.found));
    pxplanes_numbered_face first{};
    std::uint8_t called[PXPLANES_MAX_NAME] = {};
    c.note(pxplanes_face(c.text, c.text_len, 1, called, sizeof called, &first, &c.found));
    c.note(pxplanes_colour(c.text, c.text_len, rgb, 3, &c.found));
    c.note(pxplanes_products(c.text, c.text_len, literals, 2, &c.found));
    c.note(pxplanes_state(c.text, c.text_len, 0, nullptr, 0, &moment, &c.found));
    std::vector<std::uint64_t> words(static_cast<std::size_t>(c.found.room)), micros(2);
    c.note(pxplanes_state(c.text, c.text_len, 0, words.data(), words.size(), &moment, &c.found));
    c.note(pxplanes_micros(c.text, c.text_len, 0, micros.data(), micros.size(), &c.found));
    std::vector<pxplanes_operation> course(2);
    c.note(pxplanes_course(c.text, c.text_len, 0, course.data(), course.size(), &c.found));
    c.note(pxplanes_clocks(words.data(), words.size(), moment.grid_width, moment.grid_height, micros.data(), micros.size(), &c.found));
    const unsigned made = static_cast<unsigned>(c.found.clocks);
    std::uint8_t cost[64];
    c.note(pxplanes_run(c.text, c.text_len, reinterpret_cast<const std::uint8_t *>("cost"), 4, cost, sizeof cost, &c.found));
    for (std::uint32_t status : c.statuses)
        std::printf("%u ", static_cast<unsigned>(status));
    std::printf("depth %u face %u rgb %u %u %u product %d face 1 of %s in line %u clocks %u names %zu %zu %zu\n", static_cast<unsigned>(depth),
                static_cast<unsigned>(face), rgb[0], rgb[1], rgb[2], static_cast<int>(literals[0]),
                reinterpret_cast<const char *>(called), static_cast<unsigned>(first.line), made,
                pxplanes_cause_name(1, name, sizeof name), pxplanes_kind_name(1, name, sizeof name), pxplanes_version(name, sizeof name));
}
