# find_package(power_policy) gives the target power_policy::power_policy, the archive with its header. Paths are found from where this file is, so that
# what is installed can be moved.
if(NOT CMAKE_SYSTEM_NAME STREQUAL "Linux" OR NOT CMAKE_SYSTEM_PROCESSOR MATCHES "^(x86_64|AMD64)$" OR NOT CMAKE_SIZEOF_VOID_P EQUAL 8)
  set(power_policy_FOUND FALSE)
  set(power_policy_NOT_FOUND_MESSAGE
      "libpower_policy.a is for x86-64 Linux, and this is built for ${CMAKE_SYSTEM_PROCESSOR} ${CMAKE_SYSTEM_NAME}")
  return()
endif()

if(NOT TARGET power_policy::power_policy)
  get_filename_component(_power_policy_prefix "${CMAKE_CURRENT_LIST_DIR}/../../.." ABSOLUTE)
  add_library(power_policy::power_policy STATIC IMPORTED)
  set_target_properties(
    power_policy::power_policy
    PROPERTIES IMPORTED_LOCATION "${_power_policy_prefix}/lib/libpower_policy.a"
               IMPORTED_LINK_INTERFACE_LANGUAGES "C"
               INTERFACE_INCLUDE_DIRECTORIES "${_power_policy_prefix}/include")
  unset(_power_policy_prefix)
endif()
