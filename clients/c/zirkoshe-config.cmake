# find_package(zirkoshe CONFIG) finds this file with CLIENTS/c in CMAKE_PREFIX_PATH, or with
# zirkoshe_DIR. It defines the target zirkoshe::client.
include(CMakeFindDependencyMacro)
find_dependency(Threads)

if(NOT TARGET zirkoshe::client)
  add_library(zirkoshe::client INTERFACE IMPORTED)
  set_target_properties(zirkoshe::client PROPERTIES
    INTERFACE_SYSTEM_INCLUDE_DIRECTORIES "${CMAKE_CURRENT_LIST_DIR}"
    INTERFACE_INCLUDE_DIRECTORIES "${CMAKE_CURRENT_LIST_DIR}"
    INTERFACE_LINK_LIBRARIES Threads::Threads)
endif()
