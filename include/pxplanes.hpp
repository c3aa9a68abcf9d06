/*
 * pxplanes.hpp: the calls of pxplanes.h from C++17 on. pxplanes.h says what each of them does.
 *
 *     #include <iostream>
 *     #include <pxplanes.hpp>
 *
 *     int main()
 *     {
 *         try {
 *             const pxplanes::picture drawn = pxplanes::render(
 *                 "pxscene 1\npicture 8 4\ndepth 4\nsolid ramp 200 100 50\nfront 1 0 0\nback 0 0 9\nshow ramp\nend\n");
 *             std::cout << drawn.depth(7, 0) << ' ' << drawn.face(7, 0) << '\n';    // 7 2
 *         } catch (const pxplanes::refused &why) {
 *             std::cerr << why.what() << '\n';
 *             return 1;
 *         }
 *     }
 *
 * Most calls have two forms: one gives a value that owns its memory, and one writes to a buffer of the caller's, given by
 * pointer and size, or as what has both, as std::vector or std::span. A call that is refused throws `refused`, and std::bad_alloc where memory
 * was wanted and not given; then no buffer, and no value that was there before, has changed.
 *
 * There is nothing to link but the library itself. What pxplanes.h says of buffers and of threads holds here too.
 */
#ifndef PXPLANES_HPP
#define PXPLANES_HPP

#include <algorithm>
#include <array>
#include <cstddef>
#include <cstdint>
#include <iterator>
#include <memory>
#include <new>
#include <stdexcept>
#include <string>
#include <string_view>
#include <vector>

#include "pxplanes.h"

namespace pxplanes {

/* The word of a cause, of a kind of limit, and the library's version; a number that names nothing has an empty word. */
inline std::string cause_name(std::uint32_t cause);
inline std::string kind_name(std::uint32_t kind);
inline std::string version();

namespace detail {

/* No word is longer. */
constexpr std::size_t longest = 16;

/* The word that a call writes to the buffer that it is given. */
template <typename Call>
std::string word_of(Call call)
{
    std::uint8_t room[longest] = {};
    const std::size_t length = call(room, longest);
    return std::string(room, room + (length < longest ? length : longest));
}

/* Why a call was refused, for scenes and listings as the program's note says it. */
inline std::string note_of(std::uint32_t status, const pxplanes_found &found)
{
    switch (status) {
    case PXPLANES_MALFORMED:
        return "malformed line " + std::to_string(found.line) + ": " + cause_name(found.cause);
    case PXPLANES_LIMIT:
        return "limit line " + std::to_string(found.line) + ": " + kind_name(found.kind) + " " + std::to_string(found.number);
    case PXPLANES_USAGE:
        return "the words name no command";
    case PXPLANES_NO_ROOM:
        return "a buffer is too small: it needs " + std::to_string(found.room) + " elements";
    case PXPLANES_NO_CLOCK:
        return "there are " + std::to_string(found.clocks) + " clocks";
    case PXPLANES_NO_OPERATION:
        return "there are " + std::to_string(found.operations) + " operations";
    case PXPLANES_NO_GRID:
        return "a grid has not so many columns or rows";
    case PXPLANES_NO_FACE:
        return "faces are numbered from 1 to " + std::to_string(found.faces);
    case PXPLANES_NO_WINDOW:
        return "a window has not so many columns or rows";
    case PXPLANES_NO_MICRO:
        return "no microinstruction at " + std::to_string(found.number);
    default:
        return "status " + std::to_string(status);
    }
}

inline const std::uint8_t *bytes_of(std::string_view text)
{
    return reinterpret_cast<const std::uint8_t *>(text.data());
}

inline std::size_t size_of(std::uint64_t count)
{
    return static_cast<std::size_t>(count);
}

}  // namespace detail

/* Why a call was refused. */
class refused : public std::runtime_error {
public:
    refused(std::uint32_t status, const pxplanes_found &found)
        : std::runtime_error(detail::note_of(status, found)), status_(status), found_(found)
    {
    }

    /* PXPLANES_MALFORMED, PXPLANES_LIMIT, or another of pxplanes.h. */
    std::uint32_t status() const noexcept { return status_; }
    /* The first bad line, or the one where a limit is passed; otherwise 0. */
    std::uint32_t line() const noexcept { return found_.line; }
    /* Why the line is bad, as "unexpected"; otherwise empty. */
    std::string cause() const { return cause_name(found_.cause); }
    /* Which limit is passed, as "solids"; otherwise empty. */
    std::string kind() const { return kind_name(found_.kind); }
    /* What was found where the limit is passed, or the index of what is no microinstruction; otherwise 0. */
    std::int64_t number() const noexcept { return found_.number; }
    /* All that the call found, as pxplanes.h lists it for each status. */
    const pxplanes_found &found() const noexcept { return found_; }

private:
    std::uint32_t status_;
    pxplanes_found found_;
};

namespace detail {

/* Throws for what is not OK. */
inline void need(std::uint32_t status, const pxplanes_found &found)
{
    if (status == PXPLANES_MEMORY)
        throw std::bad_alloc();
    if (status != PXPLANES_OK)
        throw refused(status, found);
}

}  // namespace detail

inline std::string cause_name(std::uint32_t cause)
{
    return detail::word_of([cause](std::uint8_t *room, std::size_t size) { return pxplanes_cause_name(cause, room, size); });
}

inline std::string kind_name(std::uint32_t kind)
{
    return detail::word_of([kind](std::uint8_t *room, std::size_t size) { return pxplanes_kind_name(kind, room, size); });
}

inline std::string version()
{
    return detail::word_of([](std::uint8_t *room, std::size_t size) { return pxplanes_version(room, size); });
}

/* What a picture takes. */
struct cost {
    std::uint32_t width = 0;      /* columns */
    std::uint32_t height = 0;     /* rows */
    std::uint32_t faces = 0;      /* the greatest face number */
    std::uint64_t operations = 0; /* broadcast operations */
    std::uint64_t clocks = 0;     /* clocks that they take the machine */
};

namespace detail {

inline cost cost_of(const pxplanes_found &found)
{
    return cost{found.width, found.height, found.faces, found.operations, found.clocks};
}

}  // namespace detail

/* Judges a text and draws nothing: pxplanes_check. */
inline cost check(std::string_view text)
{
    pxplanes_found found{};
    detail::need(pxplanes_check(detail::bytes_of(text), text.size(), &found), found);
    return detail::cost_of(found);
}

/* A picture: the element of pixel (x, y) is y * width + x, with rows from the top. */
struct picture {
    std::uint32_t width = 0;
    std::uint32_t height = 0;
    std::vector<std::uint32_t> depths{};
    std::vector<std::uint32_t> faces{};

    std::uint32_t depth(std::size_t x, std::size_t y) const { return depths.at(at(x, y)); }
    std::uint32_t face(std::size_t x, std::size_t y) const { return faces.at(at(x, y)); }

private:
    std::size_t at(std::size_t x, std::size_t y) const
    {
        if (x >= width)
            throw std::out_of_range("pxplanes::picture: no such column");
        return y * width + x;
    }
};

/* Draws a picture to buffers of the caller's: pxplanes_render. */
inline cost render(std::string_view text, std::uint32_t *depths, std::size_t depths_size, std::uint32_t *faces,
                   std::size_t faces_size)
{
    pxplanes_found found{};
    detail::need(pxplanes_render(detail::bytes_of(text), text.size(), depths, depths_size, faces, faces_size, &found), found);
    return detail::cost_of(found);
}

inline picture render(std::string_view text)
{
    const cost due = check(text);
    const std::size_t pixels = std::size_t{due.width} * due.height;
    picture drawn;
    drawn.width = due.width;
    drawn.height = due.height;
    drawn.depths.resize(pixels);
    drawn.faces.resize(pixels);
    render(text, drawn.depths.data(), pixels, drawn.faces.data(), pixels);
    return drawn;
}

/* Draws a part of a picture to buffers of the caller's: pxplanes_window. */
inline cost window(std::string_view text, std::uint32_t x, std::uint32_t y, std::uint32_t width, std::uint32_t height,
                   std::uint32_t *depths, std::size_t depths_size, std::uint32_t *faces, std::size_t faces_size)
{
    pxplanes_found found{};
    detail::need(pxplanes_window(detail::bytes_of(text), text.size(), x, y, width, height, depths, depths_size, faces, faces_size,
                                 &found), found);
    return detail::cost_of(found);
}

inline picture window(std::string_view text, std::uint32_t x, std::uint32_t y, std::uint32_t width, std::uint32_t height)
{
    const bool is_one = width <= PXPLANES_MAX_SIDE && height <= PXPLANES_MAX_SIDE;
    picture drawn;
    drawn.width = width;
    drawn.height = height;
    drawn.depths.resize(is_one ? std::size_t{width} * height : 0);
    drawn.faces.resize(drawn.depths.size());
    window(text, x, y, width, height, drawn.depths.data(), drawn.depths.size(), drawn.faces.data(), drawn.faces.size());
    return drawn;
}

enum class face_kind : std::uint32_t { near = PXPLANES_FACE_NEAR, front = PXPLANES_FACE_FRONT, back = PXPLANES_FACE_BACK };

/* What a face number means: pxplanes_face. */
struct face_found {
    std::uint32_t solid = 0;
    std::string name{};
    face_kind kind = face_kind::near;
    std::uint32_t plane = 0;
    std::uint32_t line = 0;
    std::array<std::uint8_t, 3> colour{};
};

inline face_found face(std::string_view text, std::uint32_t number)
{
    pxplanes_found found{};
    pxplanes_numbered_face face{};
    std::array<std::uint8_t, PXPLANES_MAX_NAME> name{};
    detail::need(pxplanes_face(detail::bytes_of(text), text.size(), number, name.data(), name.size(), &face, &found), found);
    const auto end = std::find(name.begin(), name.end(), std::uint8_t{0});
    return {face.solid, std::string(name.begin(), end), static_cast<face_kind>(face.kind), face.plane, face.line,
            {static_cast<std::uint8_t>(face.red), static_cast<std::uint8_t>(face.green), static_cast<std::uint8_t>(face.blue)}};
}

/* Colours: red, green and blue of pixel (x, y) are the bytes from 3 * (y * width + x) on. */
struct colours {
    std::uint32_t width = 0;
    std::uint32_t height = 0;
    std::vector<std::uint8_t> rgb{};
};

/* Draws a picture in colour to a buffer of the caller's: pxplanes_colour. */
inline cost colour(std::string_view text, std::uint8_t *rgb, std::size_t rgb_size)
{
    pxplanes_found found{};
    detail::need(pxplanes_colour(detail::bytes_of(text), text.size(), rgb, rgb_size, &found), found);
    return detail::cost_of(found);
}

inline colours colour(std::string_view text)
{
    const cost due = check(text);
    colours drawn;
    drawn.width = due.width;
    drawn.height = due.height;
    drawn.rgb.resize(std::size_t{3} * due.width * due.height);
    colour(text, drawn.rgb.data(), drawn.rgb.size());
    return drawn;
}

/* Writes the products that are drawn to a buffer of the caller's, a 0 after each: pxplanes_products. */
inline void products(std::string_view text, std::int32_t *literals, std::size_t literals_size)
{
    pxplanes_found found{};
    detail::need(pxplanes_products(detail::bytes_of(text), text.size(), literals, literals_size, &found), found);
}

/* The products that are drawn, each a row of solid numbers from 1 on, below 0 where the solid is taken away. */
inline std::vector<std::vector<std::int32_t>> products(std::string_view text)
{
    pxplanes_found found{};
    std::uint32_t status = pxplanes_products(detail::bytes_of(text), text.size(), nullptr, 0, &found);
    std::vector<std::int32_t> literals;
    if (status == PXPLANES_NO_ROOM) {
        literals.resize(detail::size_of(found.room));
        status = pxplanes_products(detail::bytes_of(text), text.size(), literals.data(), literals.size(), &found);
    }
    detail::need(status, found);
    std::vector<std::vector<std::int32_t>> rows;
    for (auto from = literals.cbegin(); from != literals.cend();) {
        const auto end = std::find(from, literals.cend(), 0);
        rows.emplace_back(from, end);
        from = end == literals.cend() ? end : end + 1;
    }
    return rows;
}

/* Writes what the program writes for a command's words, as "tidy", to a buffer of the caller's, and gives how many bytes: pxplanes_run. */
inline std::size_t run(std::string_view text, std::string_view words, std::uint8_t *out, std::size_t out_size)
{
    pxplanes_found found{};
    detail::need(pxplanes_run(detail::bytes_of(text), text.size(), detail::bytes_of(words), words.size(), out, out_size, &found), found);
    return detail::size_of(found.room);
}

/* The same as a value. Each thread keeps a buffer that grows. An image longer than it is drawn once, since too little room is answered before
   the drawing; a text longer than two MiB, and than all before it, is made twice. */
inline std::string run(std::string_view text, std::string_view words)
{
    thread_local std::size_t size = std::size_t{1} << 21;
    thread_local std::unique_ptr<std::uint8_t[]> room;
    for (;;) {
        if (!room)
            room.reset(new std::uint8_t[size]);
        pxplanes_found found{};
        const std::uint32_t status = pxplanes_run(detail::bytes_of(text), text.size(), detail::bytes_of(words), words.size(),
                                                  room.get(), size, &found);
        const std::size_t length = detail::size_of(found.room);
        if (status != PXPLANES_NO_ROOM) {
            detail::need(status, found);
            return std::string(room.get(), room.get() + length);
        }
        room.reset();
        size = length;
    }
}

/* Writes a state of the machine to words of the caller's: pxplanes_state. */
inline pxplanes_moment read_state(std::string_view text, std::uint64_t clock, std::uint64_t *words, std::size_t words_size)
{
    pxplanes_moment moment{};
    pxplanes_found found{};
    detail::need(pxplanes_state(detail::bytes_of(text), text.size(), clock, words, words_size, &moment, &found), found);
    return moment;
}

/* How many clocks a scene or a listing has. */
inline std::uint64_t count_clocks(std::string_view text)
{
    pxplanes_found found{};
    detail::need(pxplanes_micros(detail::bytes_of(text), text.size(), 0, nullptr, 0, &found), found);
    return found.clocks;
}

/* Writes the microinstructions of a stretch of clocks to a buffer of the caller's: pxplanes_micros. */
inline void micros(std::string_view text, std::uint64_t first, std::uint64_t *packed, std::size_t packed_size)
{
    pxplanes_found found{};
    detail::need(pxplanes_micros(detail::bytes_of(text), text.size(), first, packed, packed_size, &found), found);
}

/* The microinstructions of `count` clocks from clock `first` on. No memory is taken for clocks that are not there. */
inline std::vector<std::uint64_t> micros(std::string_view text, std::uint64_t first, std::uint64_t count)
{
    pxplanes_found found{};
    found.clocks = count_clocks(text);
    if (first > found.clocks || count > found.clocks - first)
        throw refused(PXPLANES_NO_CLOCK, found);
    std::vector<std::uint64_t> packed(detail::size_of(count));
    micros(text, first, packed.data(), packed.size());
    return packed;
}

/* How many operations a scene or a listing has. */
inline std::uint64_t count_operations(std::string_view text)
{
    pxplanes_found found{};
    detail::need(pxplanes_course(detail::bytes_of(text), text.size(), 0, nullptr, 0, &found), found);
    return found.operations;
}

/* Writes operations, each with what it is for, to a buffer of the caller's: pxplanes_course. */
inline void course(std::string_view text, std::uint64_t first, pxplanes_operation *operations, std::size_t operations_size)
{
    pxplanes_found found{};
    detail::need(pxplanes_course(detail::bytes_of(text), text.size(), first, operations, operations_size, &found), found);
}

/* `count` operations from operation `first` on. No memory is taken for operations that are not there. */
inline std::vector<pxplanes_operation> course(std::string_view text, std::uint64_t first, std::uint64_t count)
{
    pxplanes_found found{};
    found.operations = count_operations(text);
    if (first > found.operations || count > found.operations - first)
        throw refused(PXPLANES_NO_OPERATION, found);
    std::vector<pxplanes_operation> operations(detail::size_of(count));
    course(text, first, operations.data(), operations.size());
    return operations;
}

inline std::vector<pxplanes_operation> course(std::string_view text) { return course(text, 0, count_operations(text)); }

/* How many words the state of a grid has. */
inline std::size_t count_words(std::uint32_t grid_width, std::uint32_t grid_height)
{
    pxplanes_found found{};
    const std::uint32_t status = pxplanes_clocks(nullptr, 0, grid_width, grid_height, nullptr, 0, &found);
    if (status != PXPLANES_NO_ROOM)
        detail::need(status, found);
    return detail::size_of(found.room);
}

/* Makes a clock for each microinstruction on words of the caller's: pxplanes_clocks. */
inline void clocks(std::uint64_t *words, std::size_t words_size, std::uint32_t grid_width, std::uint32_t grid_height,
                   const std::uint64_t *packed, std::size_t packed_size)
{
    pxplanes_found found{};
    detail::need(pxplanes_clocks(words, words_size, grid_width, grid_height, packed, packed_size, &found), found);
}

/* The planes of a state that come after its memory bits. */
constexpr std::size_t enable = PXPLANES_BITS;
constexpr std::size_t carry = PXPLANES_BITS + 1;
constexpr std::size_t latch = PXPLANES_BITS + 2;
constexpr std::size_t leaf = PXPLANES_BITS + 3;

/* A state of the machine of your own: a value, to copy and to keep. */
class state {
public:
    /* The machine after the first clocks of a scene or of a listing. */
    state(std::string_view text, std::uint64_t clock)
    {
        pxplanes_found found{};
        std::uint32_t status = pxplanes_state(detail::bytes_of(text), text.size(), clock, nullptr, 0, &moment_, &found);
        if (status != PXPLANES_NO_ROOM)
            detail::need(status, found);
        words_.resize(detail::size_of(found.room));
        moment_ = read_state(text, clock, words_.data(), words_.size());
    }

    /* Where it is. After a clock of your own, `operation`, `operation_clock` and `next_micro` are not known, and 0. */
    const pxplanes_moment &moment() const noexcept { return moment_; }
    /* Its words, as pxplanes_state lays them out. */
    const std::vector<std::uint64_t> &words() const noexcept { return words_; }

    /* A bit of pixel (x, y): of its memory, or `enable`, `carry`, `latch` or `leaf`. */
    bool bit(std::size_t plane, std::size_t x, std::size_t y) const
    {
        if (plane > leaf || x >= moment_.grid_width || y >= moment_.grid_height)
            throw std::out_of_range("pxplanes::state: no such bit");
        const std::size_t row = plane * moment_.grid_height + y;
        return (words_[row * moment_.words_per_row + x / 64] >> x % 64 & 1) != 0;
    }

    /* The output of a node of the tree, of levels from 1 on, and its carry. */
    bool node(std::size_t level, std::size_t index) const { return tree_bit(0, level, index); }
    bool node_carry(std::size_t level, std::size_t index) const { return tree_bit(1, level, index); }

    /* Makes a clock for each microinstruction. Where one is refused, the state stays as it was. */
    void advance(const std::uint64_t *packed, std::size_t packed_size)
    {
        clocks(words_.data(), words_.size(), moment_.grid_width, moment_.grid_height, packed, packed_size);
        if (packed_size == 0)
            return;
        moment_.clock += packed_size;
        moment_.operation = moment_.operation_clock = moment_.next_micro = 0;
    }

    void advance(const std::vector<std::uint64_t> &packed) { advance(packed.data(), packed.size()); }

    /* Whether two grids are alike in size and in every bit. */
    friend bool operator==(const state &one, const state &other)
    {
        return one.moment_.grid_width == other.moment_.grid_width && one.moment_.grid_height == other.moment_.grid_height
            && one.words_ == other.words_;
    }

    friend bool operator!=(const state &one, const state &other) { return !(one == other); }

private:
    /* A bit of the nodes' outputs (0) or of their carries (1). */
    bool tree_bit(std::size_t which, std::size_t level, std::size_t index) const
    {
        if (level < 1 || level > moment_.levels || index >> level != 0)
            throw std::out_of_range("pxplanes::state: no such node");
        const std::size_t planes = (leaf + 1) * moment_.grid_height * moment_.words_per_row;
        const std::size_t nodes = ((std::size_t{2} << moment_.levels) + 63) / 64;
        const std::size_t place = (std::size_t{1} << level) + index;
        return (words_[planes + which * nodes + place / 64] >> place % 64 & 1) != 0;
    }

    pxplanes_moment moment_{};
    std::vector<std::uint64_t> words_{};
};

/* The same for whatever has a size and data that can be written, as std::vector, std::array and std::span. */
#define PXPLANES_RETURN_(call) -> decltype(call) { return call; }

template <class D, class F> auto render(std::string_view text, D &&depths, F &&faces)
    PXPLANES_RETURN_(render(text, std::data(depths), std::size(depths), std::data(faces), std::size(faces)))
template <class D, class F> auto window(std::string_view text, std::uint32_t x, std::uint32_t y, std::uint32_t width, std::uint32_t height,
                                        D &&depths, F &&faces)
    PXPLANES_RETURN_(window(text, x, y, width, height, std::data(depths), std::size(depths), std::data(faces), std::size(faces)))
template <class R> auto colour(std::string_view text, R &&rgb)
    PXPLANES_RETURN_(colour(text, std::data(rgb), std::size(rgb)))
template <class L> auto products(std::string_view text, L &&literals)
    PXPLANES_RETURN_(products(text, std::data(literals), std::size(literals)))
template <class O> auto run(std::string_view text, std::string_view words, O &&out)
    PXPLANES_RETURN_(run(text, words, std::data(out), std::size(out)))
template <class W> auto read_state(std::string_view text, std::uint64_t clock, W &&words)
    PXPLANES_RETURN_(read_state(text, clock, std::data(words), std::size(words)))
template <class P> auto micros(std::string_view text, std::uint64_t first, P &&packed)
    PXPLANES_RETURN_(micros(text, first, std::data(packed), std::size(packed)))
template <class O> auto course(std::string_view text, std::uint64_t first, O &&operations)
    PXPLANES_RETURN_(course(text, first, std::data(operations), std::size(operations)))
template <class W, class P> auto clocks(W &&words, std::uint32_t grid_width, std::uint32_t grid_height, const P &packed)
    PXPLANES_RETURN_(clocks(std::data(words), std::size(words), grid_width, grid_height, std::data(packed), std::size(packed)))
#undef PXPLANES_RETURN_

}  // namespace pxplanes

#endif
