# Writes FOLDER/NAME.cl, and FOLDER/NAME.h with its text as the string NAME: of PROGRAM along
# SCRIPT, by LIFT.
file(STRINGS "${SCRIPT}" cuts REGEX "^[ \t]*at[ \t]+[0-9.]+[ \t]+then[ \t\r]*$")
if(cuts)
  set(command stages)
else()
  set(command compile)
endif()
execute_process(
  COMMAND "${LIFT}" ${command} "${PROGRAM}" "${SCRIPT}"
  RESULT_VARIABLE status
  OUTPUT_VARIABLE text
  ERROR_VARIABLE line
)
if(NOT status EQUAL 0)
  string(STRIP "${line}" line)
  message(FATAL_ERROR "${line}\n(lift ${command} ${PROGRAM} ${SCRIPT}; tools/why.py explains it)")
endif()
file(WRITE "${FOLDER}/${NAME}.cl" "${text}")
# a line of the kernels is a line of the string; a kernel's text has neither quotes nor backslashes
string(REPLACE "\n" "\\n\"\n  \"" quoted "${text}")
file(WRITE "${FOLDER}/${NAME}.h" "static const char ${NAME}[] =\n  \"${quoted}\";\n")
