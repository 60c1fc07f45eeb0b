/* Runs a program on a list and prints what it took, in one line: its processor time and its wall time
   in microseconds, its peak memory in KiB, its status.

       measure LIST LINES PROGRAM WORD..

   The list is its standard input; its lines are written to the file LINES, which may be /dev/null. It
   is ended after 60 seconds of processor time.
   A script's own memory would be counted as that of the program it starts, so this one is small. */

#include <fcntl.h>
#include <stdio.h>
#include <stdlib.h>
#include <sys/resource.h>
#include <sys/time.h>
#include <sys/wait.h>
#include <time.h>
#include <unistd.h>

static long long microseconds(struct timeval t) { return t.tv_sec * 1000000LL + t.tv_usec; }

static long long now(void) {
  struct timespec t;
  clock_gettime(CLOCK_MONOTONIC, &t);
  return t.tv_sec * 1000000LL + t.tv_nsec / 1000;
}

static void become(const char *file, int flags, int place) {
  int opened = open(file, flags, 0644);
  if (opened < 0 || dup2(opened, place) < 0) {
    perror(file);
    _exit(127);
  }
  close(opened);
}

int main(int count, char **words) {
  if (count < 4) {
    fprintf(stderr, "measure LIST LINES PROGRAM WORD..\n");
    return 2;
  }
  long long since = now();
  pid_t child = fork();
  if (child == 0) {
    struct rlimit most = {60, 60};
    setrlimit(RLIMIT_CPU, &most);
    become(words[1], O_RDONLY, 0);
    become(words[2], O_WRONLY | O_CREAT | O_TRUNC, 1);
    execv(words[3], words + 3);
    perror(words[3]);
    _exit(127);
  }
  int status = 0;
  struct rusage took;
  if (child < 0 || wait4(child, &status, 0, &took) < 0) {
    perror("measure");
    return 1;
  }
  long long processor = microseconds(took.ru_utime) + microseconds(took.ru_stime);
  int ended = WIFEXITED(status) ? WEXITSTATUS(status) : 128 + WTERMSIG(status);
  printf("%lld %lld %ld %d\n", processor, now() - since, took.ru_maxrss, ended);
  return 0;
}
