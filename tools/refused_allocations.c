/* Stands before the C library's allocator: refuses the request of the number in REFUSED, or that and all that follow where the number begins with '+'. At the
   end the number of requests is written to the file in REQUESTS. */
#define _GNU_SOURCE
#include <dlfcn.h>
#include <fcntl.h>
#include <stddef.h>
#include <stdlib.h>
#include <unistd.h>

static unsigned long requests, refused;
static int and_later;
static void *(*real_malloc)(size_t), *(*real_realloc)(void *, size_t);

__attribute__((constructor)) static void begin(void) {
  const char *text = getenv("REFUSED");
  real_malloc = dlsym(RTLD_NEXT, "malloc");
  real_realloc = dlsym(RTLD_NEXT, "realloc");
  if (text) {
    and_later = text[0] == '+';
    refused = strtoul(text + and_later, NULL, 10);
  }
  requests = 0;
}

static int refuses(void) {
  requests++;
  return refused != 0 && (requests == refused || (and_later && requests > refused));
}

void *malloc(size_t size) {
  if (!real_malloc) real_malloc = dlsym(RTLD_NEXT, "malloc");
  return refuses() ? NULL : real_malloc(size);
}

void *realloc(void *old, size_t size) {
  if (!real_realloc) real_realloc = dlsym(RTLD_NEXT, "realloc");
  return refuses() ? NULL : real_realloc(old, size);
}

__attribute__((destructor)) static void end(void) {
  const char *path = getenv("REQUESTS");
  char digits[24], *at = digits + sizeof digits;
  unsigned long n = requests;
  int file = path ? open(path, O_WRONLY | O_CREAT | O_TRUNC, 0644) : -1;
  if (file < 0) return;
  do {
    *--at = '0' + n % 10;
    n /= 10;
  } while (n);
  if (write(file, at, digits + sizeof digits - at) < 0) _exit(99);
  close(file);
}
