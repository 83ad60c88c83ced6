/* Loaded before a program's own library: refuses the allocation with the number that REFUSED has, from 1, and at the end
   writes to the file COUNTED how many there were. */
#include <dlfcn.h>
#include <fcntl.h>
#include <stdio.h>
#include <stdlib.h>
#include <unistd.h>

extern void *__libc_malloc(size_t), *__libc_calloc(size_t, size_t), *__libc_realloc(void *, size_t);
static unsigned long count, refused;

__attribute__((constructor)) static void begin(void) {
  const char *number = getenv("REFUSED");
  count = 0;
  refused = number ? strtoul(number, 0, 10) : 0;
}
__attribute__((destructor)) static void end(void) {
  char digits[24];
  const char *name = getenv("COUNTED");
  int file = name ? open(name, O_WRONLY | O_CREAT | O_TRUNC, 0644) : -1;
  if (file >= 0 && write(file, digits, snprintf(digits, sizeof digits, "%lu\n", count)) > 0) close(file);
}
static int given(void) { return ++count != refused; }
void *malloc(size_t size) { return given() ? __libc_malloc(size) : 0; }
void *calloc(size_t items, size_t size) { return given() ? __libc_calloc(items, size) : 0; }
void *realloc(void *old, size_t size) { return given() ? __libc_realloc(old, size) : 0; }
