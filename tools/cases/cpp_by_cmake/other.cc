// Another file of the same program, so that two of them have the header.
#include <pxplanes.hpp>

std::string other_version();

std::string other_version()
{
    return pxplanes::version();
}
