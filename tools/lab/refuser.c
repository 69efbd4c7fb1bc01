/* Loaded before other libraries, this refuses one allocation, which it counts among the calls of malloc and realloc.

   REFUSED in the environment is the number of that call, or 0 for none. REFUSALS names an open descriptor, to which a byte is
   written if the call comes. */
#include <stdlib.h>
#include <unistd.h>
void *__libc_malloc(size_t size);
void *__libc_realloc(void *old, size_t size);
static long left = -1;
__attribute__((constructor)) static void begin(void) { left = atol(getenv("REFUSED")); }
static int is_refused(void) { return left > 0 && --left == 0 && write(atoi(getenv("REFUSALS")), "r", 1) == 1; }
void *malloc(size_t size) { return is_refused() ? NULL : __libc_malloc(size); }
void *realloc(void *old, size_t size) { return is_refused() ? NULL : __libc_realloc(old, size); }
