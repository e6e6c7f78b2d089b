# lift_kernel(TARGET NAME PROGRAM SCRIPT): the kernels of a program along a script, for a target in
# C or C++. NAME.cl has their text, as `lift stages` writes it for a script that cuts its term by
# `then`, and as `lift compile` writes it for others; NAME.h has it as the string NAME. Both stand
# in the folder of the build, which the target includes, and are made anew where PROGRAM or SCRIPT
# changed.
#
#     list(APPEND CMAKE_MODULE_PATH "LIFT'S REPOSITORY/tools/cmake")
#     include(Lift)
#     add_executable(app main.c)
#     lift_kernel(app smooth smooth.lift smooth.txt)
#
# LIFT_PROGRAM is the program `lift`: that of the repository where it is built, else that on PATH.
find_program(
  LIFT_PROGRAM lift_cli lift
  HINTS "${CMAKE_CURRENT_LIST_DIR}/../../crates/lift_cli/out"
  DOC "the program lift"
)
set(LIFT_CMAKE_DIRECTORY "${CMAKE_CURRENT_LIST_DIR}")

function(lift_kernel target name program script)
  if(NOT LIFT_PROGRAM)
    message(FATAL_ERROR "there is no program lift: set LIFT_PROGRAM to it")
  endif()
  set(folder "${CMAKE_CURRENT_BINARY_DIR}")
  get_filename_component(program "${program}" ABSOLUTE)
  get_filename_component(script "${script}" ABSOLUTE)
  add_custom_command(
    OUTPUT "${folder}/${name}.cl" "${folder}/${name}.h"
    COMMAND
      "${CMAKE_COMMAND}" "-DLIFT=${LIFT_PROGRAM}" "-DPROGRAM=${program}" "-DSCRIPT=${script}"
      "-DNAME=${name}" "-DFOLDER=${folder}" -P "${LIFT_CMAKE_DIRECTORY}/WriteKernel.cmake"
    DEPENDS "${program}" "${script}" "${LIFT_PROGRAM}" "${LIFT_CMAKE_DIRECTORY}/WriteKernel.cmake"
    COMMENT "lift: ${name}.cl"
    VERBATIM
  )
  target_sources(${target} PRIVATE "${folder}/${name}.h")
  target_include_directories(${target} PRIVATE "${folder}")
endfunction()
