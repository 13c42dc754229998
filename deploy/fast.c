/* Listens at a port of 127.0.0.1, and runs the program's own main for each connection, in a process that was forked for it:
   a new connection costs no start of a program. deploy/fast links this before the program's object, for ./serve --fast. No
   proof looks at it. Without DAVSERVE_PORT in the environment it is the program as ever.

   DAVSERVE_PORT, DAVSERVE_CONNECTIONS (most at once), DAVSERVE_BACKLOG (how many others wait), DAVSERVE_SILENCE and
   DAVSERVE_PATIENCE (seconds for which a client may say, or take, nothing) are numbers. */
#define _GNU_SOURCE
#include <arpa/inet.h>
#include <errno.h>
#include <netinet/tcp.h>
#include <poll.h>
#include <signal.h>
#include <stdio.h>
#include <stdlib.h>
#include <string.h>
#include <sys/socket.h>
#include <sys/wait.h>
#include <unistd.h>

/* The main of the program. It takes its words from where the C library has them. */
int davserve_main(int count, char **words);

static void fail(const char *what) {
  dprintf(2, "davserve-fast: %s: %s\n", what, strerror(errno));
  _exit(1);
}

static int number(const char *name) {
  const char *text = getenv(name);
  int value = text ? atoi(text) : 0;
  errno = EINVAL;
  if (value < 1) fail(name);
  return value;
}

static void set(int at, int level, int option, const void *value, socklen_t length) {
  if (setsockopt(at, level, option, value, length)) fail("setsockopt");
}

/* A socket that listens, and that doesn't wait where nobody comes. */
static int listener(void) {
  int it = socket(AF_INET, SOCK_STREAM | SOCK_NONBLOCK, 0), on = 1;
  struct sockaddr_in here = {.sin_family = AF_INET, .sin_port = htons(number("DAVSERVE_PORT")), .sin_addr = {htonl(INADDR_LOOPBACK)}};
  if (it < 0) fail("socket");
  set(it, SOL_SOCKET, SO_REUSEADDR, &on, sizeof on);
  if (bind(it, (void *)&here, sizeof here) || listen(it, number("DAVSERVE_BACKLOG"))) fail("bind");
  return it;
}

/* What holds for a connection: small parts go out at once, who is gone is found out, and so long a client may be silent. */
static void limit(int client, int silence, int patience) {
  int on = 1, most = patience * 1000;
  struct timeval longest = {.tv_sec = silence};
  set(client, IPPROTO_TCP, TCP_NODELAY, &on, sizeof on);
  set(client, SOL_SOCKET, SO_KEEPALIVE, &on, sizeof on);
  set(client, SOL_SOCKET, SO_RCVTIMEO, &longest, sizeof longest);
  set(client, IPPROTO_TCP, TCP_USER_TIMEOUT, &most, sizeof most);
}

/* That a connection ended ends a wait, and does no more. */
static void woken(int signal) { (void)signal; }

int main(int count, char **words) {
  if (!getenv("DAVSERVE_PORT")) return davserve_main(count, words);
  int most = number("DAVSERVE_CONNECTIONS"), silence = number("DAVSERVE_SILENCE"), patience = number("DAVSERVE_PATIENCE");
  struct pollfd at = {.fd = listener(), .events = POLLIN};
  sigset_t ends, before;
  sigemptyset(&ends);
  sigaddset(&ends, SIGCHLD);
  /* The signal comes in ppoll alone, so none is missed between a look and a wait. */
  if (sigprocmask(SIG_BLOCK, &ends, &before) || signal(SIGCHLD, woken) == SIG_ERR) fail("signal");
  sigset_t waiting = before;
  sigdelset(&waiting, SIGCHLD);
  dprintf(2, "davserve-fast: listening\n");
  for (int open = 0;;) {
    /* Where as many are open as may be, the next waits in the backlog. */
    int ready = ppoll(&at, open < most, NULL, &waiting);
    while (open && waitpid(-1, NULL, WNOHANG) > 0) open--;
    int client = ready > 0 ? accept(at.fd, NULL, NULL) : -1;
    if (client < 0) {
      /* (where the machine has no room for a connection, it may have some in a second) */
      if (ready > 0 && errno != EAGAIN && errno != EINTR && errno != ECONNABORTED) sleep(1);
      continue;
    }
    pid_t child = fork();
    if (!child) {
      if (signal(SIGCHLD, SIG_DFL) == SIG_ERR || sigprocmask(SIG_SETMASK, &before, NULL)) fail("signal");
      limit(client, silence, patience);
      if (close(at.fd) || dup2(client, 0) < 0 || dup2(client, 1) < 0 || (client > 1 && close(client))) fail("dup2");
      return davserve_main(count, words);
    }
    if (child > 0) open++;
    else dprintf(2, "davserve-fast: fork: %s\n", strerror(errno));
    close(client);
  }
}
