# find_package(pxplanes CONFIG): pxplanes::pxplanes, the shared library, and pxplanes::static. Both stand, with their
# headers, where this file was unpacked, wherever that is.
get_filename_component(_pxplanes_place "${CMAKE_CURRENT_LIST_FILE}" REALPATH)
get_filename_component(_pxplanes_libraries "${_pxplanes_place}/../../.." ABSOLUTE)
get_filename_component(_pxplanes_headers "${_pxplanes_libraries}/@INCLUDE@" ABSOLUTE)

foreach(_pxplanes_path "${_pxplanes_headers}/pxplanes.h" "${_pxplanes_headers}/pxplanes.hpp" "${_pxplanes_headers}/pxplanes_image.h"
    "${_pxplanes_headers}/pxplanes_scene.h" "${_pxplanes_libraries}/libpxplanes.so.0" "${_pxplanes_libraries}/libpxplanes.a")
  if(NOT EXISTS "${_pxplanes_path}")
    set(pxplanes_FOUND FALSE)
    set(pxplanes_NOT_FOUND_MESSAGE "there is no ${_pxplanes_path}")
    return()
  endif()
endforeach()

if(NOT TARGET pxplanes::pxplanes)
  add_library(pxplanes::pxplanes SHARED IMPORTED)
  set_target_properties(pxplanes::pxplanes PROPERTIES
    IMPORTED_LOCATION "${_pxplanes_libraries}/libpxplanes.so.0"
    IMPORTED_SONAME libpxplanes.so.0
    INTERFACE_INCLUDE_DIRECTORIES "${_pxplanes_headers}")
  add_library(pxplanes::static STATIC IMPORTED)
  set_target_properties(pxplanes::static PROPERTIES
    IMPORTED_LOCATION "${_pxplanes_libraries}/libpxplanes.a"
    IMPORTED_LINK_INTERFACE_LANGUAGES C
    INTERFACE_INCLUDE_DIRECTORIES "${_pxplanes_headers}")
endif()

unset(_pxplanes_place)
unset(_pxplanes_libraries)
unset(_pxplanes_headers)
unset(_pxplanes_path)
