# UseLozgirpa.cmake: a function for CMake 3.20 or later that tangles a web.
#
#   list(APPEND CMAKE_MODULE_PATH /path/to/lozgirpa)
#   include(UseLozgirpa)
#
#   lozgirpa_web(roman WEB roman.w OUTPUTS roman.c numeral.h numeral.c TARGET roman)
#   add_executable(roman ${roman_TANGLED})
#
# lozgirpa_web(NAME WEB web OUTPUTS file.. [TARGET target] [CHANGE file] [INPUTS folder] [OPTIONS word])
#
#   WEB      the web
#   OUTPUTS  the files that it makes, by the names that the web gives them, the main file first
#   TARGET   the target that uses them, of this folder: it then depends on the web. The target may be added later.
#   CHANGE   the change file
#   INPUTS   the folder in which included files are looked up, if not that of the web
#   OPTIONS  one option word for ctangle, if not -bph
#
# Names are relative to the source folder, and outputs go to the binary folder. NAME_TANGLED lists their full paths. With
# make, a target that uses them and does not depend on the web is built from old text. Let each further target depend on
# it, too: add_dependencies(other roman_web). CTANGLE and WDEP name the programs.
cmake_minimum_required(VERSION 3.20)
find_program(CTANGLE ctangle REQUIRED)
find_program(WDEP wdep REQUIRED)
set(LOZGIRPA_SCRIPT ${CMAKE_CURRENT_LIST_DIR}/tangle-web)

function(lozgirpa_web name)
    cmake_parse_arguments(PARSE_ARGV 1 arg "" "WEB;TARGET;CHANGE;INPUTS;OPTIONS" "OUTPUTS")
    if(NOT arg_WEB OR NOT arg_OUTPUTS OR arg_UNPARSED_ARGUMENTS)
        message(FATAL_ERROR "lozgirpa_web: give a name, WEB and OUTPUTS; not known: ${arg_UNPARSED_ARGUMENTS}")
    endif()
    get_filename_component(web "${arg_WEB}" ABSOLUTE)
    set(read "${web}")
    set(change -)
    if(arg_CHANGE)
        get_filename_component(change "${arg_CHANGE}" ABSOLUTE)
        list(APPEND read "${change}")
    endif()
    get_filename_component(inputs "${web}" DIRECTORY)
    if(arg_INPUTS)
        get_filename_component(inputs "${arg_INPUTS}" ABSOLUTE)
    endif()
    if(NOT arg_OPTIONS)
        set(arg_OPTIONS -bph)
    endif()
    list(TRANSFORM arg_OUTPUTS PREPEND "${CMAKE_CURRENT_BINARY_DIR}/" OUTPUT_VARIABLE paths)
    set(stamp webs/${name}.stamp)

    set(tool cmake)
    if(CMAKE_GENERATOR MATCHES Ninja)
        set(tool cmake-ninja)
    endif()
    set(run ${CMAKE_COMMAND} -E env "CTANGLE=${CTANGLE}" "WDEP=${WDEP}" sh "${LOZGIRPA_SCRIPT}" ${tool} ${stamp} .
        "${inputs}" ${arg_OPTIONS} "${web}" "${change}" ${arg_OUTPUTS})

    # An output whose text is the same stays older than the stamp. So no rule of make may compare their dates: its rules
    # only make an output that is gone. Ninja compares them with what the last run has left.
    #
    # With make, CMake adds the files of a depfile to those that it has read from earlier ones, and keeps them in the file
    # that is removed here. Otherwise the web would be tangled in each build after an included file was removed.
    if(CMAKE_GENERATOR MATCHES Makefiles)
        set(byproducts "")
        foreach(path IN LISTS paths)
            add_custom_command(OUTPUT "${path}" COMMAND ${run} COMMENT "tangling ${arg_WEB} again" VERBATIM)
        endforeach()
    else()
        set(byproducts BYPRODUCTS ${paths})
    endif()
    add_custom_command(
        OUTPUT "${CMAKE_CURRENT_BINARY_DIR}/${stamp}"
        ${byproducts}
        DEPENDS ${read}
        DEPFILE ${stamp}.d
        COMMAND ${run}
        COMMAND ${CMAKE_COMMAND} -E rm -f CMakeFiles/${name}_web.dir/compiler_depend.internal
        COMMENT "tangling ${arg_WEB}"
        VERBATIM)
    add_custom_target(${name}_web DEPENDS "${CMAKE_CURRENT_BINARY_DIR}/${stamp}")
    if(arg_TARGET)
        # at the end of the folder, when the target is there; the names are those of this call
        cmake_language(EVAL CODE "cmake_language(DEFER CALL add_dependencies [[${arg_TARGET}]] [[${name}_web]])")
    endif()
    set(${name}_TANGLED ${paths} PARENT_SCOPE)
endfunction()
