/* Two runs of a program that take turns, or one that is killed behind a reply. It prints the number of the first one's calls, the last of
   these, and the statuses; one that is missing is -1. Or it makes rows of runs, one after the other. */
#define _GNU_SOURCE
#include <fcntl.h>
#include <sched.h>
#include <signal.h>
#include <stdio.h>
#include <stdlib.h>
#include <string.h>
#include <sys/ptrace.h>
#include <sys/syscall.h>
#include <sys/user.h>
#include <sys/wait.h>
#include <time.h>
#include <unistd.h>

/* words: the folder to start in, the standard input, the file for all output, the program and its words */
static pid_t start(char **words, int traced) {
  pid_t child = fork();
  if (child) return child;
  int input = open(words[1], O_RDONLY | O_CLOEXEC), output = open(words[2], O_WRONLY | O_APPEND | O_CLOEXEC);
  if (input < 0 || output < 0 || chdir(words[0])) _exit(126);
  dup2(input, 0), dup2(output, 1), dup2(output, 2);
  if (traced) ptrace(PTRACE_TRACEME, 0, 0, 0);
  execv(words[3], words + 3);
  _exit(127);
}

static int status_of(pid_t child) {
  int state;
  return waitpid(child, &state, 0) == child && WIFEXITED(state) ? WEXITSTATUS(state) : -1;
}

/* whether a call has a path that isn't absolute: the loader's have none */
static int has_own_path(pid_t child, struct user_regs_struct *call) {
  unsigned long at;
  switch (call->orig_rax) {
    case SYS_openat: case SYS_newfstatat: case SYS_statx: case SYS_mkdirat: case SYS_unlinkat: case SYS_renameat:
    case SYS_renameat2: case SYS_readlinkat:
      at = call->rsi; break;
    case SYS_open: case SYS_stat: case SYS_lstat: case SYS_access: case SYS_mkdir: case SYS_unlink: case SYS_rename:
    case SYS_readlink:
      at = call->rdi; break;
    default: return 0;
  }
  char first = ptrace(PTRACE_PEEKDATA, child, at, 0);
  return first != '/' && first != 0;
}

static int is_of_memory(unsigned long call) {
  switch (call) {
    case SYS_brk: case SYS_mmap: case SYS_munmap: case SYS_mremap: case SYS_mprotect: case SYS_madvise: return 1;
    default: return 0;
  }
}

static double now(void) {
  struct timespec time;
  clock_gettime(CLOCK_MONOTONIC, &time);
  return time.tv_sec + time.tv_nsec / 1e9;
}

/* stopper row RUN.. -- RUN.. --: makes the runs one after the other; it prints the start, end and status of each */
static int make_row(int count, char **words) {
  for (int at = 2; at < count; at++) {
    int cut = at;
    while (cut < count && strcmp(words[cut], "--")) cut++;
    words[cut] = 0;
    double began = now();
    int status = status_of(start(words + at, 0));
    printf("%.6f %.6f %d\n", began, now(), status);
    at = cut;
  }
  return 0;
}

/* A run that is followed: its calls so far, the last one, and its writes of replies. */
struct run {
  pid_t child;
  long calls, last, replies;
  int is_begun, is_entered, given, status;
};

static struct run follow(char **words) {
  struct run it = {.child = start(words, 1), .last = -1, .status = -1};
  int state;
  waitpid(it.child, &state, 0);
  ptrace(PTRACE_SETOPTIONS, it.child, 0, PTRACE_O_TRACESYSGOOD | PTRACE_O_EXITKILL);
  return it;
}

/* It goes on to the call or the reply of that number, or to its end: whether it has come there. */
static int goes_to(struct run *it, int by_call, long wanted) {
  for (;;) {
    int state;
    ptrace(PTRACE_SYSCALL, it->child, 0, it->given);
    waitpid(it->child, &state, 0);
    it->given = 0;
    if (!WIFSTOPPED(state)) {
      it->status = WIFEXITED(state) ? WEXITSTATUS(state) : -1;
      it->child = 0;
      return 0;
    }
    if (WSTOPSIG(state) != (SIGTRAP | 0x80)) { it->given = WSTOPSIG(state); continue; }
    it->is_entered = !it->is_entered;
    struct user_regs_struct call;
    ptrace(PTRACE_GETREGS, it->child, 0, &call);
    it->is_begun = it->is_begun || has_own_path(it->child, &call);
    if (it->is_entered && it->is_begun && !is_of_memory(call.orig_rax)) {
      it->calls++, it->last = call.orig_rax;
      if (by_call && it->calls == wanted) return 1;
    }
    it->replies += !it->is_entered && call.orig_rax == SYS_write && (call.rdi == 1 || call.rdi == 2);
    if (!by_call && it->replies == wanted) return 1;
  }
}

static void goes_to_its_end(struct run *it) {
  if (!it->child) return;
  ptrace(PTRACE_DETACH, it->child, 0, 0);
  it->status = status_of(it->child);
  it->child = 0;
}

/* The two take turns: each goes to the next call of a list `CALL[,CALL]..`, the first one at first. Behind the list the one whose turn it
   is goes to its end, and then the other one. */
static void take_turns(char *list, struct run *first, char **words) {
  struct run second = {.status = -1}, *turn = first;
  int is_there = 1;
  for (char *number = strtok(list, ","); number && is_there; number = strtok(0, ",")) {
    if (turn == &second && !second.child) second = follow(words);
    is_there = goes_to(turn, 1, atol(number));
    turn = turn == first ? &second : first;
  }
  if (turn == &second && is_there) {
    if (second.child) goes_to_its_end(&second);
    else second.status = status_of(start(words, 0));
  }
  goes_to_its_end(first);
  goes_to_its_end(&second);
  printf("%ld %ld %d %d\n", first->calls, first->last, first->status, second.status);
}

/* stopper turns CALLS FIRST.. -- SECOND.., or stopper reply NUMBER RUN.. -- */
int main(int count, char **words) {
  if (!strcmp(words[1], "row")) return make_row(count, words);
  int cut = 3;
  while (cut < count && strcmp(words[cut], "--")) cut++;
  words[cut] = 0;
  cpu_set_t here; /* the two processes take turns, which is fastest on one processor */
  CPU_ZERO(&here);
  CPU_SET(sched_getcpu(), &here);
  sched_setaffinity(0, sizeof here, &here);
  struct run run = follow(words + 3);
  if (!strcmp(words[1], "turns")) {
    take_turns(words[2], &run, words + cut + 1);
    return 0;
  }
  if (goes_to(&run, 0, atol(words[2]))) { kill(run.child, SIGKILL); status_of(run.child); }
  printf("%ld %ld %d -1\n", run.calls, run.last, run.status);
}
