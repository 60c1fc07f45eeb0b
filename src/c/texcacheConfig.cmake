# For CMake: find_package(texcache) gives the target texcache::texcache. The paths follow from the place of this file.
include(CMakeFindDependencyMacro)
set(THREADS_PREFER_PTHREAD_FLAG ON)
find_dependency(Threads)
if(NOT TARGET texcache::texcache)
  get_filename_component(texcache_PREFIX "${CMAKE_CURRENT_LIST_DIR}/../../.." ABSOLUTE)
  add_library(texcache::texcache STATIC IMPORTED)
  set_target_properties(texcache::texcache PROPERTIES
    IMPORTED_LOCATION "${texcache_PREFIX}/lib/libtexcache.a"
    INTERFACE_INCLUDE_DIRECTORIES "${texcache_PREFIX}/include"
    INTERFACE_LINK_LIBRARIES "m;Threads::Threads")
endif()
