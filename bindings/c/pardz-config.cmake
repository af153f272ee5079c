# find_package(pardz): targets for programs in C and C++.
#
#     find_package(pardz 0.2 REQUIRED)
#     target_link_libraries(program pardz::pardz)
#
# pardz::pardz has the shared libraries, and pardz::static the archives, each with the heap over malloc. A program with a heap of its own links
# pardz::library or pardz::archive, which have none.
include(CMakeFindDependencyMacro)
find_dependency(Threads)
get_filename_component(_pardz_prefix "${CMAKE_CURRENT_LIST_DIR}/../../.." ABSOLUTE)

# _pardz_import(NAME KIND FILE LIBRARY..): the target pardz::NAME, of a file in the folder of libraries, which links the others.
function(_pardz_import name kind file)
    if(NOT TARGET pardz::${name})
        add_library(pardz::${name} ${kind} IMPORTED)
        set_target_properties(pardz::${name} PROPERTIES
            IMPORTED_LOCATION "${_pardz_prefix}/lib/${file}"
            INTERFACE_INCLUDE_DIRECTORIES "${_pardz_prefix}/include"
            INTERFACE_LINK_LIBRARIES "${ARGN}")
    endif()
endfunction()

_pardz_import(heap SHARED libpardz-heap.so)
_pardz_import(library SHARED libpardz.so)
_pardz_import(pardz SHARED libpardz.so pardz::heap)
_pardz_import(heap_archive STATIC libpardz-heap.a)
_pardz_import(archive STATIC libpardz.a Threads::Threads dl m)
_pardz_import(static STATIC libpardz.a pardz::heap_archive Threads::Threads dl m)
