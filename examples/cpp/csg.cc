// What OpenSCAD writes as difference() { cube([32, 24, 20]); translate([8, 8, 4]) cube([10, 8, 16]); }, seen from above in one pixel a
// unit: csg > picture.ppm. On standard error it writes the height at some pixels.
#include <cstdint>
#include <iostream>
#include <string>
#include <vector>

#include <pxplanes.hpp>
#include <pxplanes_scene.h>

namespace {

constexpr std::int64_t eye = 60;  // the height from which depths are counted

// A convex solid: the planes that turn up and down are its fronts and backs, and the upright ones its sides.
struct cube {
    std::string name;
    std::vector<struct pxplanes_face> faces;
    std::vector<pxplanes_plane> sides;

    cube(std::string name_, std::int64_t x, std::int64_t y, std::int64_t z, std::int64_t wide, std::int64_t deep, std::int64_t high)
        : name(std::move(name_)), faces{{PXPLANES_FRONT, {0, 0, eye - z - high}, 0, {}}, {PXPLANES_BACK, {0, 0, eye - z}, 0, {}}},
          sides{{1, 0, -x}, {-1, 0, x + wide - 1}, {0, 1, -y}, {0, -1, y + deep - 1}}
    {
    }

    pxplanes_solid solid(std::uint8_t red) const
    {
        return {name.c_str(), {red, 180, 160}, faces.data(), faces.size(), sides.data(), sides.size()};
    }
};

std::string joined(const std::string &left, char sign, const std::string &right)
{
    std::string text(left.size() + right.size() + 6, ' ');
    text.resize(pxplanes_join(text.data(), text.size(), left.c_str(), sign, right.c_str()));
    return text;
}

}  // namespace

int main()
{
    const cube plate("plate", 0, 0, 0, 32, 24, 20), pocket("pocket", 8, 8, 4, 10, 8, 16);
    const pxplanes_solid solids[] = {plate.solid(200), pocket.solid(90)};
    const std::string show = joined(plate.name, '-', pocket.name);
    const pxplanes_scene scene = {40, 30, 6, 0, solids, 2, show.c_str()};
    std::string text(pxplanes_write(nullptr, 0, &scene) + 1, ' ');
    text.resize(pxplanes_write(text.data(), text.size(), &scene));

    const pxplanes::picture drawn = pxplanes::render(text);
    for (const std::size_t x : {2, 10, 36})
        if (drawn.face(x, 10) != 0)
            std::cerr << "height at " << x << " 10: " << eye - std::int64_t{drawn.depth(x, 10)} << '\n';
    const pxplanes::colours colours = pxplanes::colour(text);
    std::cout << "P6\n" << colours.width << ' ' << colours.height << "\n255\n" << std::string(colours.rgb.begin(), colours.rgb.end());
}
