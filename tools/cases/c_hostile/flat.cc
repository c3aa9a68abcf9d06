// Whether 100,000 renders by C, and by C++, leave the process as large as it was after the first hundred.
#include <pxplanes.hpp>

#include <iostream>
#include <sys/resource.h>

namespace {

const std::string scene = "pxscene 1\npicture 8 4\ndepth 4\nsolid ramp 200 100 50\nfront 1 0 0\nback 0 0 9\nshow ramp\nend\n";

long size()
{
    rusage used{};
    getrusage(RUSAGE_SELF, &used);
    return used.ru_maxrss;
}

template <typename Call>
const char *outcome(Call call)
{
    for (int at = 0; at < 100; at++)
        call();
    const long before = size();
    for (int at = 0; at < 100000; at++)
        call();
    return size() - before < 1024 ? "flat" : "growing";
}

void by_c()
{
    static std::uint32_t depths[32], faces[32];
    pxplanes_found found;
    pxplanes_render(reinterpret_cast<const std::uint8_t *>(scene.data()), scene.size(), depths, 32, faces, 32, &found);
}

void by_cpp()
{
    pxplanes::render(scene);
    pxplanes::run(scene, "tidy");
}

}  // namespace

int main()
{
    std::cout << "C " << outcome(by_c) << ", C++ " << outcome(by_cpp) << '\n';
}
