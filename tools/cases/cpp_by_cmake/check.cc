// Every call of pxplanes.hpp, on scenes of two or three planes whose pictures are worked out by hand (see stdout), and on a machine
// that is stepped and compared with what the library says of its later clocks.
#include <pxplanes.hpp>
#include <pxplanes_image.h>
#include <pxplanes_scene.h>

#include <cstdint>
#include <exception>
#include <iostream>
#include <string>
#include <type_traits>
#include <vector>
#if __cplusplus >= 202002L
#include <span>
#endif

std::string other_version();

namespace {

// From row 1 on, and from depth x up to 9. At x 0 the near face, 1, and the front, 2, have one value.
const std::string ramp =
    "pxscene 1\npicture 12 2\ndepth 4\nsolid ramp 200 100 50\nfront 1 0 0\nback 0 0 9\nside 0 1 -1\nshow ramp\nend\n";
// From depth 2 up to 9, and without what lies before 5: the back of b shows, the last of the faces 1 2 3 and 4 5.
const std::string cut = "pxscene 1\npicture 1 1\ndepth 4\nsolid a 1 2 3\nfront 0 0 2\nback 0 0 9\nsolid b 4 5 6\nback 0 0 5\n"
                        "show (a - b)\nend\n";

constexpr std::uint64_t enable_all = std::uint64_t{2} << 32;

std::string with(const std::string &text, const std::string &from, const std::string &to)
{
    std::string changed = text;
    return changed.replace(changed.find(from), from.size(), to);
}

template <typename Numbers>
void tell(const Numbers &numbers)
{
    for (const auto number : numbers)
        std::cout << ' ' << +number;
    std::cout << '\n';
}

// What a call is refused for.
template <typename Call>
void refusal(const char *name, Call call)
{
    try {
        call();
        std::cout << name << ": not refused\n";
    } catch (const pxplanes::refused &why) {
        std::cout << name << ": " << why.what() << "; status " << why.status() << " line " << why.line() << " cause '" << why.cause()
                  << "' kind '" << why.kind() << "' number " << why.number() << " room " << why.found().room << '\n';
    }
}

// Whether a call finds no such place.
template <typename Call>
bool is_out(Call call)
{
    try {
        call();
    } catch (const std::out_of_range &) {
        return true;
    }
    return false;
}

std::size_t ones(const std::vector<std::uint64_t> &words, std::size_t from, std::size_t to)
{
    std::size_t count = 0;
    for (; from < to; from++)
        for (std::uint64_t word = words[from]; word != 0; word &= word - 1)
            count++;
    return count;
}

// Pixels of a grid that have a bit of a plane.
std::size_t pixels(const pxplanes::state &at, std::size_t plane)
{
    std::size_t count = 0;
    for (std::size_t y = 0; y < at.moment().grid_height; y++)
        for (std::size_t x = 0; x < at.moment().grid_width; x++)
            count += at.bit(plane, x, y);
    return count;
}

// Whether the bits by their names are those of the words, plane by plane and for the nodes and their carries.
bool is_whole(const pxplanes::state &at)
{
    const std::size_t plane_words = std::size_t{at.moment().grid_height} * at.moment().words_per_row;
    std::size_t from = 0;
    for (std::size_t plane = 0; plane <= pxplanes::leaf; plane++, from += plane_words)
        if (pixels(at, plane) != ones(at.words(), from, from + plane_words))
            return false;
    std::size_t nodes = 0, carries = 0, last = 0;
    for (std::size_t level = 1; level <= at.moment().levels; level++) {
        last = 0;
        for (std::size_t index = 0; index >> level == 0; index++) {
            last += at.node(level, index);
            carries += at.node_carry(level, index);
        }
        nodes += last;
    }
    const std::size_t half = (at.words().size() - from) / 2;
    return nodes == ones(at.words(), from, from + half) && carries == ones(at.words(), from + half, at.words().size())
        && last == pixels(at, pxplanes::leaf);
}

void draw()
{
    const pxplanes::cost cost = pxplanes::check(ramp);
    std::cout << cost.width << " by " << cost.height << ", faces " << cost.faces << '\n';
    const pxplanes::picture drawn = pxplanes::render(ramp);
    std::cout << "depths:";
    tell(drawn.depths);
    std::cout << "faces:";
    tell(drawn.faces);
    std::cout << "pixel 3 1: depth " << drawn.depth(3, 1) << " face " << drawn.face(3, 1) << ", none at 12 0 and 0 2: "
              << is_out([&] { drawn.depth(12, 0); }) << is_out([&] { drawn.face(0, 2); }) << '\n';
    const pxplanes::colours colours = pxplanes::colour(ramp);
    std::cout << "colours of 3 0 and of 3 1:";
    tell(std::vector<std::uint8_t>(colours.rgb.begin() + 9, colours.rgb.begin() + 12));
    tell(std::vector<std::uint8_t>(colours.rgb.begin() + 45, colours.rgb.begin() + 48));
    const pxplanes::picture cut_picture = pxplanes::render(cut);
    std::cout << "cut: depth " << cut_picture.depth(0, 0) << " face " << cut_picture.face(0, 0) << ", products "
              << pxplanes::products(cut).size() << ":";
    tell(pxplanes::products(cut).at(0));
    std::vector<std::int32_t> literals(4, 7);
    pxplanes::products(cut, literals.data(), 4);
    std::cout << "as numbers:";
    tell(literals);
}

// The back of b is its one back, in the eighth line; and there is no face 6.
void name_face()
{
    const pxplanes::face_found back = pxplanes::face(cut, 5);
    std::cout << "face 5: " << (back.kind == pxplanes::face_kind::back ? "back " : "another ") << back.plane << " of " << back.name << ", solid "
              << back.solid << ", line " << back.line << ", colour " << int{back.colour[0]} << ' ' << int{back.colour[2]} << '\n';
    refusal("no face", [] { pxplanes::face(cut, 6); });
}

// The second row from column 3 on, and what lies right of the picture and below it: the ramp goes on there.
void draw_windows()
{
    const pxplanes::picture part = pxplanes::window(ramp, 3, 1, 11, 2);
    std::cout << "window: " << part.width << " by " << part.height << ':';
    tell(part.depths);
    tell(part.faces);
    std::vector<std::uint32_t> depths(4, 77), faces(3, 77);
    refusal("no window", [] { pxplanes::window(ramp, 0, 0, 513, 1); });
    refusal("no row", [] { pxplanes::window(ramp, 0, 0, 1, 0); });
    refusal("past the widest", [] { pxplanes::window(ramp, 4095, 0, 2, 1); });
    refusal("a small window", [&] { pxplanes::window(ramp, 0, 0, 2, 2, depths.data(), 4, faces.data(), 3); });
#ifdef __cpp_lib_span
    pxplanes::window(ramp, 3, 1, 3, 1, std::span(depths), std::span(faces));
#else
    pxplanes::window(ramp, 3, 1, 3, 1, depths, faces);
#endif
    tell(depths);
}

// A picture of 2 by 2 pixels in rows of another length: from the top and from the bottom, with one byte, or number, between the rows.
void place()
{
    const std::vector<std::uint8_t> rgb{1, 2, 3, 4, 5, 6, 7, 8, 9, 10, 11, 12};
    const std::vector<std::uint32_t> numbers{1, 2, 3, (1u << 24) - 1};
    std::vector<std::uint8_t> bytes(13, 99), more(17, 99);
    std::vector<std::uint32_t> copied(5, 99);
    std::vector<float> floats(5, 99);
    pxplanes_place_rgb(bytes.data(), 7, rgb.data(), 2, 2);
    pxplanes_place_rgba(more.data() + 9, -9, rgb.data(), 2, 2);
    pxplanes_place_numbers(copied.data() + 3, -12, numbers.data(), 2, 2);
    pxplanes_place_floats(floats.data(), 12, numbers.data(), 2, 2);
    tell(bytes);
    tell(more);
    tell(copied);
    std::cout << (floats == std::vector<float>{1, 2, 99, 3, 16777215}) << '\n';
}

void refuse()
{
    std::vector<std::uint32_t> depths(24, 77), faces(23, 77);
    std::vector<std::uint64_t> words(3, 77);
    refusal("a name", [] { pxplanes::render(with(ramp, "show ramp", "show ramps")); });
    refusal("a side", [] { pxplanes::check(with(ramp, "12 2", "513 2")); });
    refusal("no end", [] { pxplanes::colour(with(ramp, "end\n", "")); });
    refusal("empty", [] { pxplanes::products({}); });
    refusal("no command", [] { pxplanes::run(ramp, "tidy up"); });
    refusal("a side of a run", [] { pxplanes::run(with(ramp, "12 2", "513 2"), "tidy"); });
    refusal("a small buffer", [&] { pxplanes::render(ramp, depths.data(), 24, faces.data(), 23); });
    refusal("a grid", [&] { pxplanes::clocks(words.data(), 3, 3, 2, nullptr, 0); });
    std::cout << "as they were: " << (depths == std::vector<std::uint32_t>(24, 77)) << (faces == std::vector<std::uint32_t>(23, 77))
              << (words == std::vector<std::uint64_t>(3, 77)) << '\n';
    static_assert(std::is_nothrow_copy_constructible_v<pxplanes::refused> && std::is_base_of_v<std::exception, pxplanes::refused>);
}

void step()
{
    const std::uint64_t clocks = pxplanes::count_clocks(ramp);
    pxplanes::state at(ramp, 0);
    const pxplanes::state start = at;
    std::cout << "grid " << at.moment().grid_width << " by " << at.moment().grid_height << ", ones at the start "
              << ones(at.words(), 0, at.words().size()) << ", clocks as check says " << (clocks == pxplanes::check(ramp).clocks) << '\n';
    bool is_like = clocks > 100, are_whole = true, has_leaves = false;
    for (std::uint64_t clock = 0; clock < clocks; clock++) {
        at.advance(pxplanes::micros(ramp, clock, 1));
        const pxplanes::state later(ramp, clock + 1);
        is_like = is_like && at == later && at.moment().clock == clock + 1 && later.moment().clock == clock + 1;
        are_whole = are_whole && is_whole(at);
        has_leaves = has_leaves || pixels(at, pxplanes::leaf) > 0;
    }
    std::cout << "clock by clock: " << is_like << are_whole << has_leaves << '\n';
    pxplanes::state leap = start;
    leap.advance(pxplanes::micros(ramp, 0, 60));
    std::cout << "60 at once: " << (leap == pxplanes::state(ramp, 60)) << ", as the end or the start: "
              << (leap == pxplanes::state(ramp, clocks))
              << (leap == start) << ", unlike: " << (leap != start) << '\n';
    pxplanes::state mine = start;
    mine.advance({enable_all});
    std::cout << "enabled " << pixels(start, pxplanes::enable) << " and then " << pixels(mine, pxplanes::enable) << '\n';
    const pxplanes::state before = mine;
    refusal("no micro", [&] { mine.advance({enable_all, enable_all, 0}); });
    std::cout << "as it was: " << (mine == before) << ", words " << (pxplanes::count_words(16, 2) == mine.words().size())
              << ", none at bit 76, column 16, row 2, level 6, node 2: " << is_out([&] { mine.bit(76, 0, 0); })
              << is_out([&] { mine.bit(0, 16, 0); }) << is_out([&] { mine.bit(0, 0, 2); }) << is_out([&] { mine.node(6, 0); })
              << is_out([&] { mine.node_carry(1, 2); }) << '\n';
    std::uint32_t past = 0;
    for (const std::uint64_t count : {clocks + 1, ~std::uint64_t{0}}) {
        try {
            pxplanes::micros(ramp, 0, count);
        } catch (const pxplanes::refused &why) {
            past += why.status() == PXPLANES_NO_CLOCK && why.found().clocks == clocks;
        }
        try {
            pxplanes::state(ramp, count);
        } catch (const pxplanes::refused &why) {
            past += why.status() == PXPLANES_NO_CLOCK && why.found().clocks == clocks;
        }
    }
    std::cout << "past the last clock: " << past << " refused\n";
}

// What the passes of the cut are for, step by step: the role, the face and its solid, and which other literal is asked (docs/PASSES.md).
void course()
{
    const std::vector<pxplanes_operation> all = pxplanes::course(cut);
    std::cout << "the cut:";
    for (const pxplanes_operation &each : all)
        if (each.kind == 1) {
            std::cout << ' ' << each.role;
            if (each.solid != 0)
                std::cout << ':' << each.face << " of " << each.solid;
            if (each.other != 0)
                std::cout << '/' << each.other;
        }
    const std::vector<pxplanes_operation> last = pxplanes::course(cut, all.size() - 1, 1);
    std::cout << "\nthe last of " << (pxplanes::count_operations(cut) == all.size()) << ": kind " << last[0].kind << " literal "
              << last[0].literal << " pass " << last[0].pass << '\n';
    refusal("no operation", [&] { pxplanes::course(cut, all.size(), 1); });
}

// What `cost` writes.
std::string cost_text(const pxplanes::cost &cost)
{
    return "macros " + std::to_string(cost.operations) + "\nclocks " + std::to_string(cost.clocks) + "\n";
}

// Whether a buffer with a byte too few is refused, with how many are due, and left as it was.
bool is_short(const std::string &tidied)
{
    std::vector<std::uint8_t> out(tidied.size() - 1, 77);
    try {
        pxplanes::run(ramp, "tidy", out.data(), out.size());
    } catch (const pxplanes::refused &why) {
        return why.status() == PXPLANES_NO_ROOM && why.found().room == tidied.size()
            && out == std::vector<std::uint8_t>(out.size(), 77);
    }
    return false;
}

// The same by pointers, and by what has data and a size.
void by_buffers(bool is_plain)
{
    std::vector<std::uint32_t> depths(24), faces(24);
    std::vector<std::uint8_t> rgb(72);
    std::vector<std::int32_t> literals(3);
    const std::size_t size = pxplanes::count_words(16, 2);
    std::vector<std::uint64_t> words(size), later(size), micros(10);
    const std::string tidied = pxplanes::run(ramp, "tidy");
    std::vector<std::uint8_t> out(tidied.size() + 1, 77);
    if (is_plain) {
        pxplanes::render(ramp, depths.data(), 24, faces.data(), 24);
        pxplanes::colour(ramp, rgb.data(), 72);
        pxplanes::products(cut, literals.data(), 3);
        pxplanes::read_state(ramp, 50, words.data(), size);
        pxplanes::read_state(ramp, 60, later.data(), size);
        pxplanes::micros(ramp, 50, micros.data(), 10);
        pxplanes::clocks(words.data(), size, 16, 2, micros.data(), 10);
    } else {
        pxplanes::render(ramp, depths, faces);
        pxplanes::colour(ramp, rgb);
        pxplanes::products(cut, literals);
        pxplanes::read_state(ramp, 50, words);
        pxplanes::read_state(ramp, 60, later);
        pxplanes::micros(ramp, 50, micros);
        pxplanes::clocks(words, 16, 2, micros);
    }
    const std::size_t written = is_plain ? pxplanes::run(ramp, "tidy", out.data(), out.size()) : pxplanes::run(ramp, "tidy", out);
    const pxplanes::picture drawn = pxplanes::render(ramp);
    std::cout << "by buffers: " << (depths == drawn.depths) << (faces == drawn.faces) << (rgb == pxplanes::colour(ramp).rgb)
              << (literals == std::vector<std::int32_t>{1, -2, 0}) << (words == later)
              << (later == pxplanes::state(ramp, 60).words()) << (written == tidied.size() && out.back() == 77)
              << std::equal(tidied.begin(), tidied.end(), out.begin()) << (pxplanes::run(tidied, " tidy ") == tidied) << '\n'
              << "as check says " << (pxplanes::run(ramp, "cost") == cost_text(pxplanes::check(ramp))) << ", short of room "
              << is_short(tidied) << ", wide " << pxplanes::run(with(ramp, "12 2", "512 512"), "tile 600 600").size() << '\n';
}

}  // namespace

int main()
{
    std::cout << "version " << PXPLANES_VERSION_MAJOR << '.' << PXPLANES_VERSION_MINOR << '.' << PXPLANES_VERSION_PATCH << ' '
              << pxplanes::version() << ' ' << other_version() << '\n'
              << "names " << pxplanes::cause_name(1) << ' ' << pxplanes::kind_name(1) << " '" << pxplanes::cause_name(99) << "'\n";
    draw();
    name_face();
    draw_windows();
    place();
    refuse();
    step();
    course();
    by_buffers(true);
    by_buffers(false);
}
