set(PACKAGE_VERSION "@VERSION@")
# A version is compatible with earlier ones of the same first number.
string(REGEX MATCH "^[0-9]+" _agefile_has "${PACKAGE_VERSION}")
string(REGEX MATCH "^[0-9]+" _agefile_wants "${PACKAGE_FIND_VERSION}")
if(PACKAGE_VERSION VERSION_LESS PACKAGE_FIND_VERSION
    OR NOT (_agefile_wants STREQUAL "" OR _agefile_wants STREQUAL _agefile_has))
    set(PACKAGE_VERSION_COMPATIBLE FALSE)
else()
    set(PACKAGE_VERSION_COMPATIBLE TRUE)
    if(PACKAGE_VERSION VERSION_EQUAL PACKAGE_FIND_VERSION)
        set(PACKAGE_VERSION_EXACT TRUE)
    endif()
endif()
