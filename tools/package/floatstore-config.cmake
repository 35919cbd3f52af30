# find_package(floatstore) gives the target floatstore::floatstore: the library (code for x86-64) and its headers, wherever this folder stands.
get_filename_component(_floatstore "${CMAKE_CURRENT_LIST_DIR}/../../.." ABSOLUTE)
if(NOT TARGET floatstore::floatstore)
  add_library(floatstore::floatstore STATIC IMPORTED)
  set_target_properties(floatstore::floatstore PROPERTIES
    IMPORTED_LOCATION "${_floatstore}/lib/libfloatstore.a"
    INTERFACE_INCLUDE_DIRECTORIES "${_floatstore}/include")
endif()
unset(_floatstore)
