# The CMake package: find_package(witness) gives
#   witness::witness     the library, for target_link_libraries
#   witness_RECORD       the command record
#   witness_add_test(NAME [EXITCODE N] [OPTIONS WORD ..] COMMAND PROGRAM|TARGET [WORD ..])
#                        a test of ctest that runs the program under record. It fails by the program's own status, and by N
#                        (99) where there is a report
get_filename_component(_witness_prefix "${CMAKE_CURRENT_LIST_DIR}/../../.." ABSOLUTE)
set(witness_RECORD "${_witness_prefix}/bin/record")
if(NOT TARGET witness::witness)
    add_library(witness::witness SHARED IMPORTED)
    set_target_properties(witness::witness PROPERTIES
        IMPORTED_LOCATION "${_witness_prefix}/lib/libwitness.so.1"
        IMPORTED_SONAME libwitness.so.1
        INTERFACE_INCLUDE_DIRECTORIES "${_witness_prefix}/include")
endif()

function(witness_add_test name)
    cmake_parse_arguments(test "" "EXITCODE" "OPTIONS;COMMAND" ${ARGN})
    if(NOT test_COMMAND OR test_UNPARSED_ARGUMENTS)
        message(FATAL_ERROR "witness_add_test takes a name, EXITCODE, OPTIONS and COMMAND, not ${test_UNPARSED_ARGUMENTS}")
    endif()
    if(NOT test_EXITCODE)
        set(test_EXITCODE 99)
    endif()
    list(GET test_COMMAND 0 program)
    if(TARGET "${program}")
        list(REMOVE_AT test_COMMAND 0)
        list(INSERT test_COMMAND 0 "$<TARGET_FILE:${program}>")
    endif()
    add_test(NAME "${name}" COMMAND "${witness_RECORD}" --error-exitcode "${test_EXITCODE}" ${test_OPTIONS} -- ${test_COMMAND})
endfunction()
unset(_witness_prefix)
