# hikebox::hikebox is the library that is loaded, hikebox::static the one that is linked.
get_filename_component(_hikebox_prefix "${CMAKE_CURRENT_LIST_DIR}/../../.." ABSOLUTE)

if(NOT TARGET hikebox::hikebox)
  add_library(hikebox::hikebox SHARED IMPORTED)
  set_target_properties(hikebox::hikebox PROPERTIES
    IMPORTED_LOCATION "${_hikebox_prefix}/@PLACE@"
    @TOLD@
    INTERFACE_INCLUDE_DIRECTORIES "${_hikebox_prefix}/include")
  add_library(hikebox::static STATIC IMPORTED)
  set_target_properties(hikebox::static PROPERTIES
    IMPORTED_LOCATION "${_hikebox_prefix}/lib/libhikebox.a"
    INTERFACE_INCLUDE_DIRECTORIES "${_hikebox_prefix}/include")
endif()
unset(_hikebox_prefix)
