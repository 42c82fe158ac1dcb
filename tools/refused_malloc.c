/* A library to be loaded before a program: of the allocations that the program itself makes, the one of the number
   REFUSED, from 1, is refused, and with REFUSED_ON in the environment each later one too. What the C library takes for
   itself is neither counted nor refused. At the program's end the file that COUNTED names gets the number of allocations. */
#define _GNU_SOURCE
#include <link.h>
#include <stdatomic.h>
#include <stddef.h>
#include <stdio.h>
#include <stdlib.h>
#include <sys/syscall.h>
#include <unistd.h>

extern void *__libc_malloc(size_t size);
extern void *__libc_realloc(void *old, size_t size);

static unsigned long refused, on, low, high;
static atomic_ulong count;

/* The first object is the program. */
static int program(struct dl_phdr_info *info, size_t size, void *unused) {
  (void)size;
  (void)unused;
  for (int i = 0; i < info->dlpi_phnum; i++) {
    const ElfW(Phdr) *part = &info->dlpi_phdr[i];
    if (part->p_type == PT_LOAD && (part->p_flags & PF_X)) {
      low = info->dlpi_addr + part->p_vaddr;
      high = low + part->p_memsz;
    }
  }
  return 1;
}

__attribute__((constructor)) static void begin(void) {
  const char *number = getenv("REFUSED");
  refused = number ? strtoul(number, NULL, 10) : 0;
  on = getenv("REFUSED_ON") != NULL;
  dl_iterate_phdr(program, NULL);
}

__attribute__((destructor)) static void end(void) {
  const char *path = getenv("COUNTED");
  FILE *file = path ? fopen(path, "w") : NULL;
  if (file) {
    fprintf(file, "%lu\n", atomic_load(&count));
    fclose(file);
  }
}

/* A program with threads ends so, and no destructor is called. */
void _exit(int status) {
  end();
  syscall(SYS_exit_group, status);
  __builtin_unreachable();
}

static int is_refused(void *from) {
  unsigned long at = (unsigned long)from;
  if (at < low || at >= high) return 0;
  unsigned long number = atomic_fetch_add(&count, 1) + 1;
  return refused && (number == refused || (on && number > refused));
}

void *malloc(size_t size) { return is_refused(__builtin_return_address(0)) ? NULL : __libc_malloc(size); }

void *realloc(void *old, size_t size) {
  return is_refused(__builtin_return_address(0)) ? NULL : __libc_realloc(old, size);
}
