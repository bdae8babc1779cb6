# The libraries of this installation, which may be moved as a whole:
#
#   find_package(fifobench REQUIRED)
#   target_link_libraries(mine PRIVATE fifobench::fifobench)    # the shared library
#   target_link_libraries(mine PRIVATE fifobench::static)       # the static one
#
# An installation that was made without a C compiler has no shared library: find_package(fifobench REQUIRED COMPONENTS shared)
# asks for it.
get_filename_component(_fifobench_prefix "${CMAKE_CURRENT_LIST_DIR}/../../.." ABSOLUTE)

if(NOT TARGET fifobench::static)
  add_library(fifobench::static STATIC IMPORTED)
  set_target_properties(fifobench::static PROPERTIES
    IMPORTED_LOCATION "${_fifobench_prefix}/lib/libfifobench.a"
    IMPORTED_LINK_INTERFACE_LANGUAGES "C"
    INTERFACE_INCLUDE_DIRECTORIES "${_fifobench_prefix}/include")
endif()
set(fifobench_static_FOUND TRUE)

set(_fifobench_shared "${_fifobench_prefix}/lib/libfifobench.so.@INTERFACE@")
if(EXISTS "${_fifobench_shared}")
  if(NOT TARGET fifobench::fifobench)
    add_library(fifobench::fifobench SHARED IMPORTED)
    set_target_properties(fifobench::fifobench PROPERTIES
      IMPORTED_LOCATION "${_fifobench_shared}"
      IMPORTED_SONAME "libfifobench.so.@INTERFACE@"
      INTERFACE_INCLUDE_DIRECTORIES "${_fifobench_prefix}/include")
  endif()
  set(fifobench_shared_FOUND TRUE)
endif()

foreach(_fifobench_component IN LISTS fifobench_FIND_COMPONENTS)
  if(fifobench_FIND_REQUIRED_${_fifobench_component} AND NOT fifobench_${_fifobench_component}_FOUND)
    set(fifobench_FOUND FALSE)
    set(fifobench_NOT_FOUND_MESSAGE "this installation of fifobench has no component ${_fifobench_component}")
  endif()
endforeach()
unset(_fifobench_component)
unset(_fifobench_shared)
unset(_fifobench_prefix)
