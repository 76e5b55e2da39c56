// Refuses memory to a program that it is loaded into by LD_PRELOAD, or prints the sizes that the program asks for.
//
// A call of malloc, calloc, realloc or aligned_alloc counts where it comes from the program's own code: from the code of the first
// object that is loaded, by the address that the call returns to. The loader's and the C library's own calls always go through.
//
//   REFUSED_CALL=N     the Nth such call answers NULL, and a line is written to file descriptor 9
//   PRINT_SIZES=1      each such call is let through, and its size is written there, one line each
//   REFUSED_FROM=N     each such call for N bytes or more answers NULL while there is a file of the name REFUSED_WHILE
//   WALK_STEP=N        the program runs again and again, WALK_JOBS runs side by side: in the first its call of number WALK_FROM answers NULL, in
//                      the next the Nth behind that one, and so on, until one makes no such call. A run has 60 seconds. For each a line is written
//                      there: the number of the call, whether it was made, and how the run ended, as a shell tells it
#define _GNU_SOURCE
#include <errno.h>
#include <link.h>
#include <stdint.h>
#include <stdio.h>
#include <stdlib.h>
#include <sys/mman.h>
#include <sys/wait.h>
#include <unistd.h>

enum { MAX_JOBS = 64, SECONDS = 60 };

extern void *__libc_malloc(size_t size);
extern void *__libc_calloc(size_t count, size_t size);
extern void *__libc_realloc(void *old, size_t size);
extern void *__libc_memalign(size_t alignment, size_t size);

static uintptr_t code_begin, code_end;
static long refused_call, refused_from, prints_sizes, calls;
static const char *refused_while;
// Of a run in a walk: set once its call was refused.
static int *was_refused;

// Notes where the code of the first object is, and ends the walk over the objects.
static int note_code(struct dl_phdr_info *object, size_t size, void *unused) {
  (void)size;
  (void)unused;
  for (int i = 0; i < object->dlpi_phnum; i++) {
    const ElfW(Phdr) *part = &object->dlpi_phdr[i];
    if (part->p_type != PT_LOAD || !(part->p_flags & PF_X)) continue;
    code_begin = object->dlpi_addr + part->p_vaddr;
    code_end = code_begin + part->p_memsz;
  }
  return 1;
}

static long number_of(const char *name) {
  const char *text = getenv(name);
  return text ? atol(text) : 0;
}

// Begins a run of a walk, which refuses this call; in that run it answers 0.
static pid_t start_run(long call, int *slot) {
  *slot = 0;
  pid_t run = fork();
  if (run < 0) _exit(125);
  if (run == 0) {
    refused_call = call;
    was_refused = slot;
    alarm(SECONDS);
  }
  return run;
}

// Walks over the calls of the program. It comes back in each run, and ends the process that walks.
static void walk(long from, long step, long jobs) {
  if (jobs < 1) jobs = 1;
  if (jobs > MAX_JOBS) jobs = MAX_JOBS;
  int *refused = mmap(NULL, sizeof(int) * MAX_JOBS, PROT_READ | PROT_WRITE, MAP_SHARED | MAP_ANONYMOUS, -1, 0);
  if (refused == MAP_FAILED) _exit(125);
  pid_t runs[MAX_JOBS] = {0};
  long numbers[MAX_JOBS], next = from, is_over = 0, running = 0;
  for (;;) {
    for (int slot = 0; slot < jobs && !is_over; slot++) {
      if (runs[slot] != 0) continue;
      numbers[slot] = next;
      runs[slot] = start_run(next, &refused[slot]);
      if (runs[slot] == 0) return;
      next += step;
      running++;
    }
    if (running == 0) _exit(0);
    int status, slot = 0;
    pid_t ended = wait(&status);
    while (runs[slot] != ended) slot++;
    dprintf(9, "%ld %d %d\n", numbers[slot], refused[slot], WIFEXITED(status) ? WEXITSTATUS(status) : 128 + WTERMSIG(status));
    if (!refused[slot]) is_over = 1;
    runs[slot] = 0;
    running--;
  }
}

__attribute__((constructor)) static void begin(void) {
  refused_call = number_of("REFUSED_CALL");
  refused_from = number_of("REFUSED_FROM");
  refused_while = getenv("REFUSED_WHILE");
  prints_sizes = number_of("PRINT_SIZES");
  dl_iterate_phdr(note_code, NULL);
  long step = number_of("WALK_STEP");
  if (step > 0) walk(number_of("WALK_FROM"), step, number_of("WALK_JOBS"));
}

// Whether a call for so many bytes, which returns to this address, is the one that is refused.
static int refuses(void *caller, size_t size) {
  uintptr_t at = (uintptr_t)caller;
  if (at < code_begin || at >= code_end) return 0;
  long call = __atomic_add_fetch(&calls, 1, __ATOMIC_SEQ_CST);
  int is_refused = call == refused_call;
  if (is_refused && was_refused) {
    *was_refused = 1;
  } else if (is_refused || prints_sizes) {
    dprintf(9, "%zu\n", size);
  }
  if (refused_from && size >= (size_t)refused_from && access(refused_while, F_OK) == 0) is_refused = 1;
  if (is_refused) errno = ENOMEM;
  return is_refused;
}

#define CALLER __builtin_return_address(0)

void *malloc(size_t size) { return refuses(CALLER, size) ? NULL : __libc_malloc(size); }

void *calloc(size_t count, size_t size) {
  return refuses(CALLER, count * size) ? NULL : __libc_calloc(count, size);
}

void *realloc(void *old, size_t size) { return refuses(CALLER, size) ? NULL : __libc_realloc(old, size); }

void *aligned_alloc(size_t alignment, size_t size) {
  return refuses(CALLER, size) ? NULL : __libc_memalign(alignment, size);
}
