# Written by tools/c/build. Defines the targets range_set::range_set, which is the shared library if it was built, and
# range_set::static. It finds them from its own folder, so you may move PREFIX.
get_filename_component(_range_set_prefix "${CMAKE_CURRENT_LIST_DIR}/../../.." ABSOLUTE)

if(NOT TARGET range_set::static)
  add_library(range_set::static STATIC IMPORTED)
  set_target_properties(range_set::static PROPERTIES
    IMPORTED_LOCATION "${_range_set_prefix}/lib/librange_set.a"
    INTERFACE_INCLUDE_DIRECTORIES "${_range_set_prefix}/include")
endif()

if(NOT TARGET range_set::range_set)
  if(EXISTS "${_range_set_prefix}/lib/librange_set.so")
    add_library(range_set::range_set SHARED IMPORTED)
    set_target_properties(range_set::range_set PROPERTIES
      IMPORTED_LOCATION "${_range_set_prefix}/lib/librange_set.so"
      INTERFACE_INCLUDE_DIRECTORIES "${_range_set_prefix}/include")
  else()
    add_library(range_set::range_set INTERFACE IMPORTED)
    set_target_properties(range_set::range_set PROPERTIES INTERFACE_LINK_LIBRARIES range_set::static)
  endif()
endif()

unset(_range_set_prefix)
