# find_package(ventorupo): the target ventorupo::ventorupo, the archive for the processor that is compiled for, and its header.
get_filename_component(_ventorupo_top "${CMAKE_CURRENT_LIST_DIR}/../../.." ABSOLUTE)
if(CMAKE_SYSTEM_PROCESSOR MATCHES "^([xX]86_64|[aA][mM][dD]64)$")
  set(_ventorupo_folder x86_64-linux-gnu)
elseif(CMAKE_SYSTEM_PROCESSOR MATCHES "^(aarch64|[aA][rR][mM]64)$")
  set(_ventorupo_folder aarch64-linux-gnu)
else()
  set(ventorupo_FOUND FALSE)
  set(ventorupo_NOT_FOUND_MESSAGE "there is no archive for the processor \"${CMAKE_SYSTEM_PROCESSOR}\": x86_64 and aarch64 have one")
  return()
endif()
if(NOT TARGET ventorupo::ventorupo)
  add_library(ventorupo::ventorupo STATIC IMPORTED)
  set_target_properties(ventorupo::ventorupo PROPERTIES
    IMPORTED_LOCATION "${_ventorupo_top}/lib/${_ventorupo_folder}/libventorupo.a"
    INTERFACE_INCLUDE_DIRECTORIES "${_ventorupo_top}/include")
endif()
