// 10,000 calls of pxplanes.hpp by a seed, with wrong texts, words and numbers: each is answered, or thrown as what its header names.
#include <pxplanes.hpp>

#include <functional>
#include <iostream>
#include <new>
#include <random>
#include <stdexcept>

int main()
{
    const std::string scene = "pxscene 1\npicture 8 4\ndepth 4\nsolid ramp 200 100 50\nfront 1 0 0\nback 0 0 9\nshow ramp\nend\n";
    const std::uint64_t ends[] = {0, 1, 7, 300, 4095, 1u << 31, ~std::uint64_t{0}, std::uint64_t{1} << 63};
    std::mt19937_64 lot(83);
    const auto number = [&] { return lot() % 3 == 0 ? ends[lot() % 8] : lot() % 12; };
    const auto small = [&] { return static_cast<std::uint32_t>(number()); };
    const pxplanes::state start(scene, 0);
    std::string text, words;
    std::vector<std::uint32_t> map(32);
    std::vector<std::uint64_t> packed;
    const std::function<void()> calls[] = {
        [&] { pxplanes::check(text); }, [&] { pxplanes::render(text); }, [&] { pxplanes::colour(text); }, [&] { pxplanes::products(text); },
        [&] { pxplanes::window(text, small(), small(), small(), small()); }, [&] { pxplanes::run(text, words); },
        [&] { pxplanes::micros(text, number(), number()); }, [&] { pxplanes::course(text, number(), number()); },
        [&] { pxplanes::state(text, number()).bit(number(), number(), number()); },
        [&] { pxplanes::state(text, 3).node(number(), number()); },
        [&] { pxplanes::render(text, map.data(), lot() % 33, map.data() + 32, 0); },
        [&] { pxplanes::count_words(small(), small()); }, [&] { pxplanes::state(start).advance(packed); }};
    unsigned answered = 0, refused = 0, wrong = 0;
    for (unsigned round = 0; round < 10000; round++) {
        text = scene.substr(0, lot() % 4 ? scene.size() : lot() % scene.size());
        for (auto count = lot() % 3; count > 0 && !text.empty(); count--)
            text[lot() % text.size()] = "0 9-\n(#\xff"[lot() % 8];
        words = std::string("tidy tile 9 9 refine 2").substr(lot() % 20, lot() % 9);
        packed.assign(lot() % 4, lot() % 2 ? lot() : std::uint64_t{2} << 32);
        try {
            if (pxplanes::check(text).clocks < 100000)
                calls[round % std::size(calls)]();
            answered++;
        } catch (const pxplanes::refused &why) {
            wrong += why.what()[0] == 0 || why.status() == PXPLANES_OK;
            refused++;
        } catch (const std::out_of_range &) {
            refused++;
        } catch (const std::bad_alloc &) {
            wrong++;
        }
    }
    const bool is_same = pxplanes::state(scene, 0) == start && pxplanes::render(scene).depth(3, 0) == 3;
    std::cout << answered + refused << " calls, each answered or refused by name; " << (wrong + !is_same) << " wrong\n";
    return wrong != 0 || answered < 1000 || refused < 1000;
}
