#define _GNU_SOURCE
/* Gives a program the same request many times, so many in flight, and reads the answers. It never blocks: it asks again and
 * again whether it may read or write, so that the program is charged no wake-up of its client. It prints the program's
 * processor time in seconds and its peak memory in KiB.
 *   drive COUNT FLIGHT socket|pipe METHOD TARGET KIND PROGRAM WORDS..
 * KIND: get, part (4 KiB of 256 MiB), same (with the entity tag that the first answer gave), or page (it ends with the last
 * chunk). An answer is a head, and to GET as many bytes as its content-length says, and all are alike. */
#include <errno.h>
#include <fcntl.h>
#include <stdio.h>
#include <stdlib.h>
#include <string.h>
#include <sys/resource.h>
#include <sys/socket.h>
#include <sys/wait.h>
#include <unistd.h>

static const char usual[] = "Host: localhost\r\nUser-Agent: curl/7.88.1\r\nAccept: */*\r\n";
static char request[4096], in[1 << 18];
static size_t length;
static int to, from;

static void fail(const char *what) {
  perror(what);
  exit(1);
}

/* Writes what can be written now, and answers how many bytes. */
static size_t give(const char *bytes, size_t count) {
  ssize_t written = write(to, bytes, count);
  if (written < 0 && errno != EAGAIN) fail("write");
  return written < 0 ? 0 : (size_t)written;
}

/* Reads what stands there now, and answers how many bytes. */
static size_t take(char *into, size_t room) {
  ssize_t taken = read(from, into, room);
  if (taken == 0 || (taken < 0 && errno != EAGAIN)) fail("read");
  return taken < 0 ? 0 : (size_t)taken;
}

static void ask_once(void) {
  for (size_t done = 0; done < length;) done += give(request + done, length - done);
}

/* Makes one request, and answers how many bytes its answer in chunks has. */
static long long first_page(void) {
  static const char last[] = "\r\n0\r\n\r\n";
  char held[sizeof last - 1] = "";
  long long got = 0;
  ask_once();
  while (memcmp(held, last, sizeof held) != 0) {
    size_t count = take(in, sizeof in);
    got += (long long)count;
    size_t fresh = count < sizeof held ? count : sizeof held;
    memmove(held, held + fresh, sizeof held - fresh);
    memcpy(held + sizeof held - fresh, in + count - fresh, fresh);
  }
  return got;
}

/* Makes one request, and answers how many bytes its answer has. What it gives as its tag is put into `tag`. */
static long long first_answer(int has_body, char *tag, size_t room) {
  char head[8192];
  size_t held = 0;
  char *end = NULL;
  ask_once();
  while (end == NULL && held < sizeof head - 1) {
    held += take(head + held, sizeof head - 1 - held);
    head[held] = 0;
    end = strstr(head, "\r\n\r\n");
  }
  if (end == NULL) fail("no head");
  char *field = strstr(head, "content-length: "), *given = strstr(head, "etag: ");
  if (field == NULL || field > end) fail("no content-length");
  if (given != NULL && given < end) snprintf(tag, room, "%.*s", (int)strcspn(given + 6, "\r"), given + 6);
  long long size = end + 4 - head + (has_body ? atoll(field + 16) : 0);
  for (long long got = (long long)held; got < size;) got += (long long)take(in, sizeof in);
  return size;
}

/* Makes as many requests, of whose answers each has so many bytes. */
static void serve_requests(long all, long flight, long long size) {
  static char batch[1 << 18];
  long most = (long)(sizeof batch / length);
  for (long i = 0; i < most; i++) memcpy(batch + i * (long)length, request, length);
  long long got = 0, sent = 0, whole = (long long)length * all;
  while (got < size * all) {
    long long wanted = (got / size + flight) * (long long)length;
    if (wanted > whole) wanted = whole;
    if (sent < wanted) {
      size_t at = (size_t)(sent % (long long)length), room = (size_t)(most - 1) * length;
      size_t count = wanted - sent < (long long)room ? (size_t)(wanted - sent) : room;
      sent += (long long)give(batch + at, count);
    }
    got += (long long)take(in, sizeof in);
  }
}

static void start(char **words, int is_socket, pid_t *child) {
  int there[2], back[2];
  if (is_socket) {
    if (socketpair(AF_UNIX, SOCK_STREAM, 0, there) != 0) fail("socketpair");
    back[0] = there[0], back[1] = there[1];
    to = from = there[0];
    there[0] = there[1];
  } else {
    if (pipe(there) != 0 || pipe(back) != 0) fail("pipe");
    to = there[1], from = back[0];
  }
  *child = fork();
  if (*child < 0) fail("fork");
  if (*child == 0) {
    dup2(there[0], 0);
    dup2(back[1], 1);
    for (int i = 3; i < 16; i++) close(i);
    execvp(words[0], words);
    fail(words[0]);
  }
  close(there[0]);
  if (!is_socket) close(back[1]);
  fcntl(to, F_SETFL, fcntl(to, F_GETFL) | O_NONBLOCK);
  fcntl(from, F_SETFL, fcntl(from, F_GETFL) | O_NONBLOCK);
}

int main(int count, char **words) {
  int status;
  pid_t child;
  struct rusage used;
  char tag[128] = "";
  if (count < 8) return 2;
  long all = atol(words[1]), flight = atol(words[2]);
  const char *method = words[4], *target = words[5], *kind = words[6];
  int is_socket = strcmp(words[3], "socket") == 0, is_get = strcmp(method, "GET") == 0;
  const char *part = strcmp(kind, "part") == 0 ? "Range: bytes=134217728-134221823\r\n" : "";
  length = (size_t)snprintf(request, sizeof request, "%s %s HTTP/1.1\r\n%s%s\r\n", method, target, usual, part);
  start(words + 7, is_socket, &child);
  long long size = strcmp(kind, "page") == 0 ? first_page() : first_answer(is_get, tag, sizeof tag);
  if (strcmp(kind, "same") == 0) {
    length = (size_t)snprintf(request, sizeof request, "%s %s HTTP/1.1\r\n%sIf-None-Match: %s\r\n\r\n", method, target, usual, tag);
    size = first_answer(0, tag, sizeof tag);
  }
  serve_requests(all - 1, flight, size);
  if (is_socket) shutdown(to, SHUT_WR);
  else close(to);
  if (wait4(child, &status, 0, &used) < 0) fail("wait");
  if (!WIFEXITED(status) || WEXITSTATUS(status) != 0) fprintf(stderr, "drive: %s ended with %d\n", words[7], status);
  double seconds = used.ru_utime.tv_sec + used.ru_utime.tv_usec / 1e6 + used.ru_stime.tv_sec + used.ru_stime.tv_usec / 1e6;
  printf("%.6f %ld\n", seconds, used.ru_maxrss);
  return 0;
}
