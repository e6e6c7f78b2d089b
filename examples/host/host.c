/* Runs a program's kernel on an OpenCL device, or its kernels in order, and compares with the
 * program's value.
 *
 *     host PROGRAM SCRIPT LAUNCH
 *
 * A launch file with the key `launches` is for the kernels of `lift stages`. Prints the value. Exit
 * status 0: the device gave the value that `lift eval` gives; 1: another; 2: it didn't come so far.
 * The environment's LIFT names the program `lift` (./lift where it isn't set); the device is the
 * first one there. docs/HOST.md explains each step. POSIX and OpenCL 1.2. */
#include <CL/cl.h>
#include <ctype.h>
#include <stdarg.h>
#include <stdio.h>
#include <stdlib.h>
#include <string.h>
#include <sys/wait.h>
#include <unistd.h>

/* A program has at most 8 sizes, 8 inputs, 32 bytes a name, and 4 components a type; a script at
 * most 16 kernels. */
enum { NAMES = 8, NAME_BYTES = 33, KERNELS = 16, BUFFERS = (NAMES + KERNELS) * 4 };
static const cl_uint UNWRITTEN = 0xDEADBEEF;

static _Noreturn void fail(const char *format, ...) {
  va_list list;
  va_start(list, format);
  fputs("host: ", stderr);
  vfprintf(stderr, format, list);
  fputc('\n', stderr);
  va_end(list);
  exit(2);
}

static void check(cl_int status, const char *call) {
  if (status != CL_SUCCESS) fail("%s: OpenCL error %d", call, (int)status);
}

static void *memory(size_t count, size_t bytes) {
  void *made = calloc(count ? count : 1, bytes);
  if (!made) fail("memory");
  return made;
}

/* ---- files, and what `lift` writes ---- */

static char *read_all(FILE *file) {
  size_t room = 4096, length = 0, taken;
  char *text = memory(room, 1);
  while ((taken = fread(text + length, 1, room - 1 - length, file)) > 0) {
    length += taken;
    if (length == room - 1) {
      text = realloc(text, room *= 2);
      if (!text) fail("memory");
    }
  }
  text[length] = 0;
  return text;
}

static char *text_of(const char *path) {
  FILE *file = fopen(path, "rb");
  if (!file) fail("can't read %s", path);
  char *text = read_all(file);
  fclose(file);
  return text;
}

/* Runs `lift COMMAND FIRST SECOND`; where it refuses, its line stands on standard error. */
static char *lift(const char *command, const char *first, const char *second) {
  const char *program = getenv("LIFT") ? getenv("LIFT") : "./lift";
  int ends[2], status;
  if (pipe(ends) != 0) fail("pipe");
  pid_t child = fork();
  if (child < 0) fail("fork");
  if (child == 0) {
    dup2(ends[1], STDOUT_FILENO);
    close(ends[0]);
    close(ends[1]);
    execlp(program, program, command, first, second, (char *)NULL);
    fprintf(stderr, "host: can't run %s\n", program);
    _exit(127);
  }
  close(ends[1]);
  FILE *out = fdopen(ends[0], "rb");
  if (!out) fail("pipe");
  char *text = read_all(out);
  fclose(out);
  if (waitpid(child, &status, 0) != child || !WIFEXITED(status)) fail("lift %s was ended", command);
  if (WEXITSTATUS(status) != 0) fail("lift %s ended with status %d", command, WEXITSTATUS(status));
  return text;
}

static int count_of(const char *text, const char *part) {
  int count = 0;
  for (; (text = strstr(text, part)) != NULL; text += strlen(part)) count++;
  return count;
}

/* ---- the program's declarations ---- */

typedef struct {
  int sizes, inputs;
  char size[NAMES][NAME_BYTES], input[NAMES][NAME_BYTES];
  int components[NAMES]; /* of each input: as many as its type names u32 */
  size_t length;         /* of their text */
} Declarations;

/* The next name or number behind `at`, past comments; false at the end. */
static int next_word(const char **at, char word[NAME_BYTES]) {
  int length = 0;
  while (**at && !isalnum((unsigned char)**at)) *at += **at == '#' ? strcspn(*at, "\n") : 1;
  for (; isalnum((unsigned char)**at) || **at == '_'; (*at)++)
    if (length < NAME_BYTES - 1) word[length++] = **at;
  word[length] = 0;
  return length > 0;
}

/* `size`, `input`, `output` and `u32` are reserved words, so they stand for nothing else. */
static Declarations declarations(const char *program) {
  Declarations made = {0};
  char word[NAME_BYTES];
  const char *begin = program;
  while (next_word(&program, word) && strcmp(word, "output") != 0) {
    if (strcmp(word, "size") == 0) next_word(&program, made.size[made.sizes++]);
    if (strcmp(word, "input") == 0) next_word(&program, made.input[made.inputs++]);
    if (strcmp(word, "u32") == 0) made.components[made.inputs - 1]++;
  }
  if (strcmp(word, "output") != 0) fail("a zero byte stands in the program's text");
  made.length = (size_t)(program - begin) - strlen("output");
  return made;
}

/* ---- JSON that `lift` has read, so that it is well formed ---- */

static const char *past(const char *at, const char *bytes) { return at + strspn(at, bytes); }

static const char *string_end(const char *at) {
  for (at++; *at != '"'; at++)
    if (*at == '\\') at++;
  return at + 1;
}

static const char *value_end(const char *at) {
  int depth = 0;
  do {
    at = past(at, " \t\r\n,:");
    if (*at == '"')
      at = string_end(at);
    else if (*at == '[' || *at == '{')
      depth++, at++;
    else if (*at == ']' || *at == '}')
      depth--, at++;
    else
      at += strcspn(at, "[]{},: \t\r\n\"");
  } while (depth > 0);
  return at;
}

/* The value at a key, the last one where there are several; NULL where there is none without an
 * escape in its key. */
static const char *member(const char *object, const char *key) {
  const char *found = NULL;
  const char *at = past(past(object, " \t\r\n") + 1, " \t\r\n");
  while (*at == '"') {
    const char *name = at + 1;
    at = string_end(at);
    size_t length = (size_t)(at - 1 - name);
    at = past(at, " \t\r\n:");
    if (length == strlen(key) && memcmp(name, key, length) == 0) found = at;
    at = past(value_end(at), " \t\r\n,");
  }
  return found;
}

/* The value at a key that `lift` has found. */
static const char *told(const char *object, const char *key) {
  const char *found = member(object, key);
  if (!found) fail("the key %s of the launch file is written with an escape", key);
  return found;
}

/* Work-items along a row, and rows of them. */
typedef struct {
  size_t of[2];
} Size;

/* The numbers of a value, from left to right: row-major, the parts of a pair together. */
static cl_uint *numbers(const char *value, size_t *count) {
  const char *end = value_end(value);
  cl_uint *made = memory((size_t)(end - value), sizeof *made);
  for (*count = 0; value < end; value = past(value, "0123456789")) {
    while (value < end && !isdigit((unsigned char)*value)) value++;
    if (value < end) made[(*count)++] = (cl_uint)strtoul(value, NULL, 10);
  }
  return made;
}

static Size work_items(const char *launch, const char *key) {
  const char *at = member(launch, key);
  int listed = at && *at == '[';
  if (listed) at = past(at + 1, " \t\r\n");
  const char *end = at ? past(at, "0123456789") : NULL;
  if (!at || end == at || !strchr(" \t\r\n,}", *end))
    fail("the launch file has no number of work-items at the key %s: "
         "`lift eval` needs none, a kernel does", key);
  Size made = {{(size_t)strtoull(at, NULL, 10), 1}};
  if (listed) {
    at = past(end, " \t\r\n,");
    end = past(at, "0123456789");
    if (end == at || *past(end, " \t\r\n") != ']') fail("no list of two numbers at the key %s", key);
    made.of[1] = (size_t)strtoull(at, NULL, 10);
  }
  return made;
}

/* The members of a list, at most KERNELS; how many there are. */
static int members(const char *list, const char *found[KERNELS]) {
  int count = 0;
  const char *at = past(past(list, " \t\r\n") + 1, " \t\r\n");
  while (*at != ']') {
    if (count == KERNELS) fail("more than %d launches", KERNELS);
    found[count++] = at;
    at = past(value_end(at), " \t\r\n,");
  }
  return count;
}

/* ---- kernels ---- */

typedef struct {
  char name[NAME_BYTES];
  cl_uint outputs;
  Size global, local;
  size_t length; /* of each output */
} Stage;

/* The local size that the kernel's first line asks for, twice 0 where it asks for none. */
static Size fixed_size(const char *kernel) {
  const char *word = "reqd_work_group_size(", *at = strstr(kernel, word);
  if (!at) return (Size){{0, 0}};
  char *end;
  size_t across = (size_t)strtoull(at + strlen(word), &end, 10);
  return (Size){{across, (size_t)strtoull(end + 1, NULL, 10)}};
}

/* Whether the numbers of work-items are few enough, in all and in a group. */
static int is_admissible(Size global, Size local) {
  for (int d = 0; d < 2; d++)
    if (local.of[d] < 1 || local.of[d] > 256 || global.of[d] < 1 || global.of[d] > 65536 ||
        global.of[d] % local.of[d] != 0)
      return 0;
  return local.of[0] * local.of[1] <= 256 && global.of[0] * global.of[1] <= 65536;
}

/* What is told of a kernel by its own text and its launch. */
static Stage stage_of(const char *kernel, const char *launch) {
  Stage made = {0};
  const char *name = strstr(kernel, " lift") + 1;
  memcpy(made.name, name, strcspn(name, "("));
  made.outputs = (cl_uint)count_of(kernel, "__global uint *");
  made.global = work_items(launch, "global");
  made.local = work_items(launch, "local");
  const size_t *global = made.global.of, *local = made.local.of;
  if (!is_admissible(made.global, made.local))
    fail("global %zu by %zu, local %zu by %zu: local is 1 to 256, global 1 to 65536, and local "
         "divides global", global[0], global[1], local[0], local[1]);
  Size fixed = fixed_size(kernel);
  if (fixed.of[0] && (fixed.of[0] != local[0] || fixed.of[1] != local[1]))
    fail("local %zu by %zu: this kernel is for groups of %zu by %zu", local[0], local[1],
         fixed.of[0], fixed.of[1]);
  if (global[0] * global[1] != 1 && !strstr(kernel, "get_"))
    fail("global %zu by %zu: this kernel is for one work-item", global[0], global[1]);
  if (global[1] != 1 && !strstr(kernel, "(1)"))
    fail("global %zu by %zu: this kernel is for one row of work-items", global[0], global[1]);
  return made;
}

/* The kernels of a text in order. How long their outputs are isn't told there. */
static int stages(char *text, const char *launch, Stage made[KERNELS]) {
  const char *list = member(launch, "launches"), *launches[KERNELS] = {launch};
  if (list && *list != '[') fail("the launch file has no list at the key launches");
  int count = list ? members(list, launches) : 1, found = 0;
  if (count != count_of(text, "__kernel "))
    fail("%d launches for %d kernels", count, count_of(text, "__kernel "));
  for (char *at = text, *next; found < count; at = next) {
    next = strstr(at + 1, "__kernel ");
    if (next) next[-1] = 0;
    made[found] = stage_of(at, launches[found]);
    if (next) next[-1] = '\n';
    found++;
  }
  return count;
}

/* ---- the lengths of what kernels make ----
 *
 * Each kernel but the last makes the array that stands under a `then` of the script's last term.
 * With plain forms in place of lowered ones that array is a program of its own, and `lift eval`
 * prints its value: as many numbers as the kernel's outputs have in all. */

static int is_name(char byte) { return isalnum((unsigned char)byte) || byte == '_'; }

/* How far a name reaches, 0 where none begins here. */
static size_t name_length(const char *at) {
  size_t length = 0;
  while (is_name(at[length])) length++;
  return length;
}

static int is_form(const char *name, size_t length, const char *form) {
  return length == strlen(form) && memcmp(name, form, length) == 0;
}

/* What stands in a program for a form of a script's terms: NULL where it stands there too. */
static const char *plain_form(const char *name, size_t length) {
  static const char *const pairs[][2] = {
      {"mapGlb", "map"},  {"mapWrg", "map"},  {"mapLcl", "map"},   {"mapGlb1", "map"},
      {"mapWrg1", "map"}, {"mapLcl1", "map"}, {"mapSeq", "map"},   {"foldSeq", "fold"},
      {"toLocal", ""},    {"toPrivate", ""},  {"then", ""},        {"asVector", ""},
      {"asScalar", ""}};
  for (size_t k = 0; k < sizeof pairs / sizeof *pairs; k++)
    if (is_form(name, length, pairs[k][0])) return pairs[k][1];
  return NULL;
}

/* A letter that no input's name begins with: binders are named _K, which no program may, and get it
 * in front. */
static char free_letter(const Declarations *declared) {
  char letter = 'a';
  for (int k = 0; k < declared->inputs;)
    if (declared->input[k++][0] == letter) letter++, k = 0;
  return letter;
}

/* Writes a term of a script as a program has it: plain forms for lowered ones, no copies, and numbers
 * one by one where there are vectors. */
static void write_plain(FILE *file, const char *term, size_t length, char letter) {
  char *copy = memory(length + 1, 1); /* of each parenthesis around: whether it is left out */
  size_t depth = 0;
  for (const char *end = term + length; term < end;) {
    size_t name = name_length(term);
    const char *plain = name && term[name] == '(' ? plain_form(term, name) : NULL;
    if (plain && !*plain) {
      copy[depth++] = 1;
      term += name + 1 + (is_form(term, name, "asVector") ? strlen("4, ") : 0);
    } else if (name) {
      if (*term == '_') fputc(letter, file);
      if (plain)
        fputs(plain, file);
      else
        fwrite(term, 1, name, file);
      term += name;
    } else {
      if (*term == '(') copy[depth++] = 0;
      if (*term != ')' || !copy[--depth]) fputc(*term, file);
      term++;
    }
  }
  free(copy);
}

/* How many numbers the value of a term has, with the program's declarations and the launch file's
 * inputs. */
static size_t numbers_of(const char *term, size_t length, const char *program,
                         const Declarations *declared, const char *launch) {
  char path[] = "/tmp/lift-host-XXXXXX";
  int descriptor = mkstemp(path);
  FILE *file = descriptor < 0 ? NULL : fdopen(descriptor, "wb");
  if (!file) fail("can't write %s", path);
  fwrite(program, 1, declared->length, file);
  fputs("output ", file);
  write_plain(file, term, length, free_letter(declared));
  if (fclose(file) != 0) fail("can't write %s", path);
  size_t count;
  char *line = lift("eval", path, launch);
  remove(path);
  free(numbers(told(line, "value"), &count));
  free(line);
  return count;
}

/* Works out the lengths of what all kernels but the last make. A kernel's `then` stands before
 * another's in postorder where it is closed before. */
static void work_out_lengths(const char *steps, const char *program, const Declarations *declared,
                             const char *launch, Stage stage[], int kernels) {
  const char *term = steps, *line;
  while ((line = strchr(term, '\n')) && line[1]) term = line + 1;
  /* of each parenthesis around what stands in it, if it is a `then`'s */
  const char **open = memory(strlen(term) + 1, sizeof *open);
  size_t depth = 0;
  int found = 0;
  for (const char *at = term; *at; at++) {
    if (*at == '(') {
      int is_then =
          at - term >= 4 && is_form(at - 4, 4, "then") && (at - term == 4 || !is_name(at[-5]));
      open[depth++] = is_then ? at + 1 : NULL;
    }
    if (*at == ')' && depth > 0 && open[--depth] && found < kernels - 1) {
      size_t count = numbers_of(open[depth], (size_t)(at - open[depth]), program, declared, launch);
      stage[found].length = count / stage[found].outputs;
      found++;
    }
  }
  free(open);
  if (found != kernels - 1) fail("%d arrays between %d kernels", found, kernels);
}

/* ---- buffers ---- */

typedef struct {
  cl_context context;
  cl_command_queue queue;
  cl_uint buffers;
  cl_mem buffer[BUFFERS]; /* the first parameters of the next kernel, in order */
} Host;

static void add_buffer(Host *host, cl_uint *cells, size_t length) {
  cl_int status;
  cl_mem_flags access = CL_MEM_READ_WRITE | CL_MEM_COPY_HOST_PTR;
  host->buffer[host->buffers++] =
      clCreateBuffer(host->context, access, length * sizeof *cells, cells, &status);
  check(status, "clCreateBuffer");
}

/* A kernel's outputs. What stands there at the start doesn't matter. */
static void add_outputs(Host *host, const Stage *stage) {
  cl_uint *cells = memory(stage->length, sizeof *cells);
  for (size_t cell = 0; cell < stage->length; cell++) cells[cell] = UNWRITTEN;
  for (cl_uint k = 0; k < stage->outputs; k++) add_buffer(host, cells, stage->length);
  free(cells);
}

/* One buffer for each component: number k of the value is cell k / components of
 * buffer k % components. */
static void add_input(Host *host, const char *value, int components) {
  size_t count;
  cl_uint *flat = numbers(value, &count), *cells = memory(count, sizeof *cells);
  size_t length = count / (size_t)components;
  for (int k = 0; k < components; k++) {
    for (size_t cell = 0; cell < length; cell++)
      cells[cell] = flat[cell * (size_t)components + (size_t)k];
    add_buffer(host, cells, length);
  }
  free(flat);
  free(cells);
}

/* Prints a result line with other numbers in it. */
static void print_line(const char *line, const cl_uint *flat) {
  while (*line) {
    if (isdigit((unsigned char)*line)) {
      printf("%lu", (unsigned long)*flat++);
      line = past(line, "0123456789");
    } else {
      putchar(*line++);
    }
  }
}

/* ---- OpenCL ---- */

static cl_device_id first_device(void) {
  cl_platform_id platforms[16];
  cl_uint count = 0;
  cl_device_id device;
  char name[256] = "";
  if (clGetPlatformIDs(16, platforms, &count) != CL_SUCCESS) count = 0;
  for (cl_uint k = 0; k < count && k < 16; k++)
    if (clGetDeviceIDs(platforms[k], CL_DEVICE_TYPE_ALL, 1, &device, NULL) == CL_SUCCESS) {
      check(clGetDeviceInfo(device, CL_DEVICE_NAME, sizeof name - 1, name, NULL),
            "clGetDeviceInfo");
      fprintf(stderr, "host: %s\n", name);
      return device;
    }
  fail("no OpenCL device");
}

static cl_program built(cl_context context, cl_device_id device, const char *text) {
  cl_int status;
  cl_program program = clCreateProgramWithSource(context, 1, &text, NULL, &status);
  check(status, "clCreateProgramWithSource");
  status = clBuildProgram(program, 1, &device, "", NULL, NULL);
  if (status == CL_BUILD_PROGRAM_FAILURE) {
    char log[16384] = "";
    clGetProgramBuildInfo(program, device, CL_PROGRAM_BUILD_LOG, sizeof log - 1, log, NULL);
    fail("the device's compiler refuses the kernel:\n%s", log);
  }
  check(status, "clBuildProgram");
  return program;
}

/* Runs a kernel: its parameters are the buffers so far, its own outputs the last, and then the
 * sizes. */
static void run(Host *host, cl_program program, const Stage *stage, const cl_uint *sizes,
                int size_count) {
  cl_int status;
  cl_uint parameter = 0;
  cl_kernel kernel = clCreateKernel(program, stage->name, &status);
  check(status, "clCreateKernel");
  add_outputs(host, stage);
  for (; parameter < host->buffers; parameter++)
    check(clSetKernelArg(kernel, parameter, sizeof(cl_mem), &host->buffer[parameter]),
          "clSetKernelArg");
  for (int k = 0; k < size_count; k++)
    check(clSetKernelArg(kernel, parameter++, sizeof sizes[k], &sizes[k]), "clSetKernelArg");
  cl_uint dimensions = stage->global.of[1] == 1 ? 1 : 2;
  const size_t *global = stage->global.of, *local = stage->local.of;
  check(clEnqueueNDRangeKernel(host->queue, kernel, dimensions, NULL, global, local, 0, NULL,
                               NULL),
        "clEnqueueNDRangeKernel");
  clReleaseKernel(kernel);
}

int main(int count, char **words) {
  if (count != 4) fail("the words are PROGRAM SCRIPT LAUNCH");
  /* `eval` refuses a program or a launch file that is none, so both are well formed below. */
  char *expected_line = lift("eval", words[1], words[3]);
  char *program_text = text_of(words[1]), *launch = text_of(words[3]);
  char *text = lift(member(launch, "launches") ? "stages" : "compile", words[1], words[2]);
  Declarations declared = declarations(program_text);
  size_t cells_in_all;
  cl_uint *expected = numbers(told(expected_line, "value"), &cells_in_all);
  Stage stage[KERNELS];
  int kernels = stages(text, launch, stage);
  char *steps = lift("steps", words[1], words[2]);
  work_out_lengths(steps, program_text, &declared, words[3], stage, kernels);
  stage[kernels - 1].length = cells_in_all / stage[kernels - 1].outputs;

  cl_int status;
  Host host = {0};
  cl_device_id device = first_device();
  host.context = clCreateContext(NULL, 1, &device, NULL, NULL, &status);
  check(status, "clCreateContext");
  host.queue = clCreateCommandQueue(host.context, device, 0, &status);
  check(status, "clCreateCommandQueue");
  cl_program program = built(host.context, device, text);

  /* Inputs, then what the kernels before made, then a kernel's own outputs, then sizes. */
  cl_uint sizes[NAMES];
  for (int k = 0; k < declared.sizes; k++)
    sizes[k] = (cl_uint)strtoul(told(told(launch, "sizes"), declared.size[k]), NULL, 10);
  for (int k = 0; k < declared.inputs; k++)
    add_input(&host, told(told(launch, "inputs"), declared.input[k]), declared.components[k]);
  for (int k = 0; k < kernels; k++) run(&host, program, &stage[k], sizes, declared.sizes);

  cl_uint components = stage[kernels - 1].outputs, first = host.buffers - components;
  size_t length = stage[kernels - 1].length;
  cl_uint *found = memory(cells_in_all, sizeof *found), *cells = memory(length, sizeof *cells);
  for (cl_uint k = 0; k < components; k++) {
    check(clEnqueueReadBuffer(host.queue, host.buffer[first + k], CL_TRUE, 0,
                              length * sizeof *cells, cells, 0, NULL, NULL),
          "clEnqueueReadBuffer");
    for (size_t cell = 0; cell < length; cell++) found[cell * components + k] = cells[cell];
  }

  print_line(expected_line, found);
  fflush(stdout);
  int equal = memcmp(found, expected, cells_in_all * sizeof *found) == 0;
  if (!equal) fprintf(stderr, "host: lift eval gives %s", expected_line);

  for (cl_uint k = 0; k < host.buffers; k++) clReleaseMemObject(host.buffer[k]);
  clReleaseProgram(program);
  clReleaseCommandQueue(host.queue);
  clReleaseContext(host.context);
  free(cells);
  free(found);
  free(expected);
  free(launch);
  free(program_text);
  free(text);
  free(steps);
  free(expected_line);
  return equal ? 0 : 1;
}
