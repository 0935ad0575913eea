/*
 * A bare sender of articles, to hold a feeder against: one thread sends them by TAKETHIS over
 * streaming connections, without CHECK, and nothing is noted of them anywhere.
 *
 *   bare files|memory PORT DIRECTORY FILES ARTICLES CONNECTIONS WINDOW
 *
 * Article N is one of the files 1 to FILES of the directory, by turns, and its message-id is
 * <N@bench>. With the word files each is opened and read to its end when it is sent; with the word
 * memory all are read before, and kept as they are sent: lines end with CR LF, and dots at their
 * beginning are doubled. At most WINDOW articles of a connection are unanswered, as with a feeder's
 * max-queue-size.
 *
 * It prints `ARTICLES articles N nanoseconds`: its processor time from the first connection on. How
 * fast the articles come, the peer at 127.0.0.1 knows. It ends with 1 if that does not accept one.
 */
#include <arpa/inet.h>
#include <errno.h>
#include <fcntl.h>
#include <netinet/tcp.h>
#include <poll.h>
#include <signal.h>
#include <stdio.h>
#include <stdlib.h>
#include <string.h>
#include <sys/resource.h>
#include <sys/stat.h>
#include <unistd.h>

/* As many octets wait to be sent before further articles are added. */
#define ENOUGH 65536

struct octets {
  char *at;
  size_t count, room;
};

struct connection {
  int socket;
  long unanswered;
  struct octets out, in;
  size_t sent; /* octets of out */
};

static const char *directory;
static long files;
static struct octets *kept; /* with the word memory: the written form of each file */

static void fail(const char *what) {
  perror(what);
  exit(1);
}

/* Makes room for so many octets more. */
static void reserve(struct octets *octets, size_t more) {
  if (octets->room - octets->count >= more) return;
  octets->room = 2 * octets->room + more;
  octets->at = realloc(octets->at, octets->room);
  if (octets->at == NULL) fail("realloc");
}

static void append(struct octets *octets, const char *from, size_t count) {
  reserve(octets, count);
  memcpy(octets->at + octets->count, from, count);
  octets->count += count;
}

/* Takes the first octets away. */
static void drop(struct octets *octets, size_t count) {
  octets->count -= count;
  memmove(octets->at, octets->at + count, octets->count);
}

/* The text of a file, which stands until the next call. */
static const struct octets *text_of(long file) {
  static struct octets text;
  char path[4096];
  snprintf(path, sizeof path, "%s/%ld", directory, file);
  int opened = open(path, O_RDONLY | O_CLOEXEC);
  if (opened < 0) fail(path);
  text.count = 0;
  for (;;) {
    reserve(&text, ENOUGH);
    ssize_t got = read(opened, text.at + text.count, text.room - text.count);
    if (got < 0) fail(path);
    if (got == 0) break;
    text.count += (size_t)got;
  }
  close(opened);
  return &text;
}

/* Appends the written form of a text: RFC 3977, section 3.1.1. */
static void write_text(struct octets *out, const struct octets *text) {
  const char *line = text->at, *end = text->at + text->count;
  reserve(out, 2 * text->count + 8); /* a line of one octet takes two more */
  char *to = out->at + out->count;
  while (line < end) {
    const char *feed = memchr(line, '\n', (size_t)(end - line));
    size_t count = (size_t)((feed == NULL ? end : feed) - line);
    if (*line == '.') *to++ = '.';
    memcpy(to, line, count);
    to += count;
    memcpy(to, "\r\n", 2);
    to += 2;
    line += count + 1;
  }
  memcpy(to, ".\r\n", 3);
  out->count = (size_t)(to + 3 - out->at);
}

/* Appends the command and the written form of an article. */
static void add(struct octets *out, long article) {
  char command[64];
  long file = (article - 1) % files;
  append(out, command, (size_t)sprintf(command, "TAKETHIS <%ld@bench>\r\n", article));
  if (kept != NULL) {
    append(out, kept[file].at, kept[file].count);
  } else {
    write_text(out, text_of(file + 1));
  }
}

/* Reads what has come, at most once; returns how many whole replies there are, each of this code. */
static long replies(struct connection *one, const char *code) {
  reserve(&one->in, ENOUGH);
  ssize_t got = read(one->socket, one->in.at + one->in.count, one->in.room - one->in.count);
  if (got < 0 && errno == EAGAIN) return 0;
  if (got < 0) fail("read");
  if (got == 0) {
    fprintf(stderr, "bare: the peer closed a connection\n");
    exit(1);
  }
  one->in.count += (size_t)got;
  long count = 0;
  size_t at = 0;
  char *feed;
  while ((feed = memchr(one->in.at + at, '\n', one->in.count - at)) != NULL) {
    if (strncmp(one->in.at + at, code, 3) != 0) {
      fprintf(stderr, "bare: the peer answered %.*s\n", (int)(feed - one->in.at - (long)at), one->in.at + at);
      exit(1);
    }
    at = (size_t)(feed + 1 - one->in.at);
    count++;
  }
  drop(&one->in, at);
  return count;
}

static void say(struct connection *one, const char *command) {
  size_t count = strlen(command);
  if (write(one->socket, command, count) != (ssize_t)count) fail("write");
}

static void begin(struct connection *one, int port) {
  struct sockaddr_in peer = {.sin_family = AF_INET, .sin_port = htons((in_port_t)port)};
  int yes = 1;
  peer.sin_addr.s_addr = htonl(INADDR_LOOPBACK);
  one->socket = socket(AF_INET, SOCK_STREAM, 0);
  if (one->socket < 0 || connect(one->socket, (struct sockaddr *)&peer, sizeof peer) != 0) fail("connect");
  if (setsockopt(one->socket, IPPROTO_TCP, TCP_NODELAY, &yes, sizeof yes) != 0) fail("setsockopt");
  while (replies(one, "200") == 0) {
  }
  say(one, "MODE STREAM\r\n");
  while (replies(one, "203") == 0) {
  }
  if (fcntl(one->socket, F_SETFL, O_NONBLOCK) != 0) fail("fcntl");
}

/* Adds articles while they fit into the window, and sends what the connection takes. */
static void feed(struct connection *one, long *article, long articles, long window) {
  for (;;) {
    while (*article <= articles && one->unanswered < window && one->out.count - one->sent < ENOUGH) {
      if (one->sent == one->out.count || one->sent > 16 * ENOUGH) {
        drop(&one->out, one->sent);
        one->sent = 0;
      }
      add(&one->out, (*article)++);
      one->unanswered++;
    }
    if (one->sent == one->out.count) return;
    ssize_t took = write(one->socket, one->out.at + one->sent, one->out.count - one->sent);
    if (took < 0 && errno == EAGAIN) return;
    if (took < 0) fail("write");
    one->sent += (size_t)took;
    if (one->sent < one->out.count) return;
  }
}

static double processor(void) {
  struct rusage used;
  getrusage(RUSAGE_SELF, &used);
  return 1e9 * (double)(used.ru_utime.tv_sec + used.ru_stime.tv_sec) +
         1e3 * (double)(used.ru_utime.tv_usec + used.ru_stime.tv_usec);
}

static void keep_files(void) {
  kept = calloc((size_t)files, sizeof *kept);
  if (kept == NULL) fail("calloc");
  for (long file = 0; file < files; file++) {
    struct octets written = {0};
    write_text(&written, text_of(file + 1));
    append(&kept[file], written.at, written.count); /* no more room than it takes */
    free(written.at);
  }
}

int main(int count, char **words) {
  if (count != 8 || (strcmp(words[1], "files") != 0 && strcmp(words[1], "memory") != 0)) {
    fprintf(stderr, "bare files|memory PORT DIRECTORY FILES ARTICLES CONNECTIONS WINDOW\n");
    return 2;
  }
  directory = words[3];
  files = atol(words[4]);
  long articles = atol(words[5]), most = atol(words[6]), window = atol(words[7]);
  if (files < 1 || most < 1 || window < 1) {
    fprintf(stderr, "bare: FILES, CONNECTIONS and WINDOW are 1 at least\n");
    return 2;
  }
  signal(SIGPIPE, SIG_IGN);
  if (strcmp(words[1], "memory") == 0) keep_files();
  struct connection *all = calloc((size_t)most, sizeof *all);
  struct pollfd *polled = calloc((size_t)most, sizeof *polled);
  if (all == NULL || polled == NULL) fail("calloc");
  double before = processor();
  for (long at = 0; at < most; at++) begin(&all[at], atoi(words[2]));
  for (long article = 1, answered = 0; answered < articles;) {
    for (long at = 0; at < most; at++) {
      feed(&all[at], &article, articles, window);
      polled[at].fd = all[at].socket;
      polled[at].events = POLLIN | (all[at].sent < all[at].out.count ? POLLOUT : 0);
    }
    if (poll(polled, (nfds_t)most, -1) < 0) fail("poll");
    for (long at = 0; at < most; at++) {
      if ((polled[at].revents & ~POLLOUT) == 0) continue;
      long came = replies(&all[at], "239");
      all[at].unanswered -= came;
      answered += came;
    }
  }
  printf("%ld articles %.0f nanoseconds\n", articles, processor() - before);
  for (long at = 0; at < most; at++) say(&all[at], "QUIT\r\n");
  return 0;
}
