# find_package(agefile) makes two targets: agefile::agefile is the shared library, agefile::static the other.
# (REALPATH: it may have been found through a link, as /lib is one to /usr/lib)
get_filename_component(_agefile_here "${CMAKE_CURRENT_LIST_DIR}" REALPATH)
get_filename_component(_agefile_lib "${_agefile_here}/../.." ABSOLUTE)
get_filename_component(_agefile_include "${_agefile_here}/@TOP@/include" ABSOLUTE)
if(NOT TARGET agefile::agefile)
    add_library(agefile::agefile SHARED IMPORTED)
    set_target_properties(agefile::agefile PROPERTIES
        IMPORTED_LOCATION "${_agefile_lib}/libagefile.so.2"
        IMPORTED_SONAME libagefile.so.2
        INTERFACE_INCLUDE_DIRECTORIES "${_agefile_include}")
    add_library(agefile::static STATIC IMPORTED)
    set_target_properties(agefile::static PROPERTIES
        IMPORTED_LOCATION "${_agefile_lib}/libagefile.a"
        INTERFACE_INCLUDE_DIRECTORIES "${_agefile_include}")
endif()
unset(_agefile_here)
unset(_agefile_lib)
unset(_agefile_include)
