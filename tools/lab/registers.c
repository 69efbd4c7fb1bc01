/* User-mode Linux 6.1 keeps 2,696 bytes of a process's registers and gives them back alone. A kernel whose processor
   has AMX takes no less than all of them. So these calls go on with all. */
struct part { void *base; unsigned long length; };
long syscall(long number, ...);
void *memcpy(void *, const void *, unsigned long);
enum { SYS_ptrace = 101, GET_SET = 0x4204, SET_SET = 0x4205, XSTATE = 0x202 };

long ptrace(long request, long process, long address, long data) {
  static char all[1 << 16];
  struct part whole = {all, sizeof all}, *wanted = (struct part *)data;
  if (request >= 1 && request <= 3) { /* a peek: the C library gives the word as the result */
    long word = 0, said = syscall(SYS_ptrace, request, process, address, &word);
    return said < 0 ? said : word;
  }
  if ((request != GET_SET && request != SET_SET) || address != XSTATE)
    return syscall(SYS_ptrace, request, process, address, data);
  long said = syscall(SYS_ptrace, GET_SET, process, address, &whole);
  if (said < 0) return said;
  unsigned long length = wanted->length < whole.length ? wanted->length : whole.length;
  if (request == GET_SET) {
    memcpy(wanted->base, all, length);
    wanted->length = length;
    return said;
  }
  memcpy(all, wanted->base, length);
  return syscall(SYS_ptrace, SET_SET, process, address, &whole);
}
