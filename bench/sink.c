/* sink.c: a fast, minimal NNTP transit peer for measurements.
 *
 * build: gcc -O2 -Wall -Wextra -o sink sink.c
 * It listens on 127.0.0.1 only, one thread, epoll. It answers
 *   200 greeting, MODE STREAM 203, CHECK 238, TAKETHIS 239, IHAVE 335 then 235, QUIT 205, CAPABILITIES 101.
 *
 *   -p PORT        port (0: any; printed on standard output as "listening PORT")
 *   -l MS          fixed latency: each reply leaves MS milliseconds after its command had come (may be a fraction)
 *   -d PERMILLE    deferral rate: 431 to CHECK, 436 to IHAVE, at the first offer of an id only
 *   -a             deferral at every offer of such an id
 *   -r PERMILLE    refusal rate: 438 to CHECK, 435 to IHAVE
 *   -j PERMILLE    reject rate: 439 to TAKETHIS, 437 to IHAVE's block
 *   -H             history: an id that was accepted before is refused (438, 435) and its TAKETHIS rejected (439)
 *   -D N           close a connection after the reply to its N-th article
 *   -X N           close a connection in place of the reply to its N-th article (the article counts as received)
 *   -S N           exit by SIGKILL to itself after N articles (a crash of the peer)
 *   -i FILE        write "id bytes crc32" per accepted article (crc32 of the block on the wire without ".\r\n")
 *   -w DIR         write every accepted article's block to DIR/SERIAL
 *   -n N           when N distinct ids were accepted or refused for good, create the file of -f (default: none)
 *   -f FILE        see -n
 *   -M CODE        answer MODE STREAM with CODE (e.g. 501, 502, 400)
 *   -g TEXT        greeting line (default "200 sink ready")
 *   -b             refuse connections: greeting 400, close
 *   -q             TCP_QUICKACK off / nothing else: reserved
 * Up to 4,096 connections wait to be accepted (fewer if net.core.somaxconn is less) and as many are open; others are
 * closed. It raises its limit of open files as far as it may, and ends where that does not do.
 * SIGTERM or SIGINT: counters on standard output as "key=value ..." on one line, exit 0. SIGUSR1: the same, going on.
 * The choice of the rates is by a hash of the id, so that it is the same in every run.
 */
#define _GNU_SOURCE
#include <arpa/inet.h>
#include <errno.h>
#include <fcntl.h>
#include <netinet/in.h>
#include <netinet/tcp.h>
#include <signal.h>
#include <stdint.h>
#include <stdio.h>
#include <stdlib.h>
#include <string.h>
#include <sys/epoll.h>
#include <sys/resource.h>
#include <sys/signalfd.h>
#include <sys/socket.h>
#include <time.h>
#include <unistd.h>

typedef uint64_t u64; typedef uint32_t u32;
static u64 now_ns(void) { struct timespec t; clock_gettime(CLOCK_MONOTONIC, &t); return (u64)t.tv_sec * 1000000000u + t.tv_nsec; }
static void die(const char *s) { perror(s); exit(1); }

/* So many connections may wait to be accepted, and be open: with fewer, a feeder of many peers hangs. */
enum { MOST = 4096 };
static void raise_limit(void) {
  struct rlimit files;
  if (getrlimit(RLIMIT_NOFILE, &files)) die("getrlimit");
  files.rlim_cur = files.rlim_max;
  if (setrlimit(RLIMIT_NOFILE, &files)) die("setrlimit");
}

/* crc32 (IEEE), slicing by 8 */
static u32 T[8][256];
static void crc_init(void) {
  for (u32 i = 0; i < 256; i++) { u32 c = i; for (int k = 0; k < 8; k++) c = c & 1 ? 0xedb88320u ^ (c >> 1) : c >> 1; T[0][i] = c; }
  for (u32 i = 0; i < 256; i++) for (int k = 1; k < 8; k++) T[k][i] = T[0][T[k-1][i] & 255] ^ (T[k-1][i] >> 8);
}
static u32 crc32_(const unsigned char *p, size_t n) {
  u32 c = ~0u;
  while (n >= 8) {
    u32 a, b; memcpy(&a, p, 4); memcpy(&b, p + 4, 4); a ^= c;
    c = T[7][a & 255] ^ T[6][a >> 8 & 255] ^ T[5][a >> 16 & 255] ^ T[4][a >> 24] ^ T[3][b & 255] ^ T[2][b >> 8 & 255] ^ T[1][b >> 16 & 255] ^ T[0][b >> 24];
    p += 8; n -= 8;
  }
  while (n--) c = T[0][(c ^ *p++) & 255] ^ (c >> 8);
  return ~c;
}
static u64 hash(const char *p, size_t n) { u64 h = 1469598103934665603u; while (n--) { h ^= (unsigned char)*p++; h *= 1099511628211u; } h ^= h >> 29; h *= 0xbf58476d1ce4e5b9u; h ^= h >> 32; return h ? h : 1; }

/* a set of hashes with two flag sets: seen (deferred once), done (accepted or refused for good), had (accepted) */
enum { SEEN = 1, DONE = 2, HAD = 4 };
static u64 *tk; static unsigned char *tv; static size_t tcap, tcnt;
static unsigned char *slot(u64 h) {
  if (tcnt * 2 >= tcap) {
    size_t oc = tcap; u64 *ok = tk; unsigned char *ov = tv; tcap = oc ? oc * 2 : 1 << 16; tk = calloc(tcap, 8); tv = calloc(tcap, 1);
    if (!tk || !tv) die("calloc");
    for (size_t i = 0; i < oc; i++) if (ok[i]) { size_t j = ok[i] & (tcap - 1); while (tk[j]) j = (j + 1) & (tcap - 1); tk[j] = ok[i]; tv[j] = ov[i]; }
    free(ok); free(ov);
  }
  size_t j = h & (tcap - 1);
  while (tk[j] && tk[j] != h) j = (j + 1) & (tcap - 1);
  if (!tk[j]) { tk[j] = h; tcnt++; }
  return &tv[j];
}

static struct { u64 conns, open, open_max, check, c238, c431, c438, take, t239, t439, ihave, i335, i435, i436, i235, i437, quit, bad, mode,
  bytes, wire_in, distinct, twice, settled, cut, nocheck, first, last, done_at, partial; } S;
static int opt_port, opt_defer, opt_always, opt_refuse, opt_reject, opt_hist, opt_block; static u64 opt_D, opt_X, opt_S, opt_n; static u64 lat;
static const char *opt_M = "203", *opt_g = "200 sink ready", *opt_f, *opt_w; static FILE *ids;

typedef struct conn { int fd, gen, used, want_out, quitting; char *in; size_t inlen, incap, scan; int state; /* 0 command 1 block */
  int ihave; char id[2100]; int idlen; int verdict; char *out; size_t outlen, outcap, outoff; u64 arts; u64 checked; } conn;
static conn *C; static int nC, ep;
typedef struct { u64 due; int c, gen; short len; char text[1]; } pend_head;
static char *pq; static size_t pqh, pqt, pqcap; /* delayed replies: one global first-in first-out queue, the latency being fixed */

static void out_add(conn *c, const char *p, size_t n) {
  if (c->outlen + n > c->outcap) {
    if (c->outoff) { memmove(c->out, c->out + c->outoff, c->outlen - c->outoff); c->outlen -= c->outoff; c->outoff = 0; }
    while (c->outlen + n > c->outcap) { c->outcap = c->outcap ? c->outcap * 2 : 65536; c->out = realloc(c->out, c->outcap); if (!c->out) die("realloc"); }
  }
  memcpy(c->out + c->outlen, p, n); c->outlen += n;
}
static void shut(conn *c) { if (c->state == 1 || c->inlen) S.partial++; close(c->fd); c->fd = -1; c->gen++; c->used = 0; S.open--; }
static void flush_out(conn *c) {
  while (c->outoff < c->outlen) {
    ssize_t k = send(c->fd, c->out + c->outoff, c->outlen - c->outoff, MSG_NOSIGNAL);
    if (k < 0) { if (errno == EAGAIN) break; shut(c); return; }
    c->outoff += k;
  }
  if (c->outoff == c->outlen) { c->outoff = c->outlen = 0; if (c->quitting) { shut(c); return; } }
  int want = c->outoff < c->outlen;
  if (want != c->want_out) { struct epoll_event e = { .events = EPOLLIN | (want ? EPOLLOUT : 0), .data.u32 = c - C }; epoll_ctl(ep, EPOLL_CTL_MOD, c->fd, &e); c->want_out = want; }
}
static void reply(conn *c, const char *text, int n) {
  if (!lat) { out_add(c, text, n); return; }
  size_t need = sizeof(pend_head) + n + 8; need = (need + 7) & ~(size_t)7;
  if (pqt + need > pqcap) {
    if (pqh) { memmove(pq, pq + pqh, pqt - pqh); pqt -= pqh; pqh = 0; }
    while (pqt + need > pqcap) { pqcap = pqcap ? pqcap * 2 : 1 << 20; pq = realloc(pq, pqcap); if (!pq) die("realloc"); }
  }
  pend_head *h = (void *)(pq + pqt); h->due = now_ns() + lat; h->c = c - C; h->gen = c->gen; h->len = n; memcpy(h->text, text, n); pqt += need;
}
static void replyf(conn *c, int code, const char *id, int idlen, const char *rest) {
  char b[2300]; int n = id ? snprintf(b, sizeof b, "%d %.*s%s\r\n", code, idlen, id, rest) : snprintf(b, sizeof b, "%d%s\r\n", code, rest);
  reply(c, b, n);
}
static void settled(unsigned char *v) {
  if (!(*v & DONE)) { *v |= DONE; if (++S.settled == opt_n && opt_f) { S.done_at = now_ns(); int f = open(opt_f, O_CREAT | O_WRONLY, 0644); if (f >= 0) close(f); } }
}
static int chance(u64 h, int salt, int permille) { h ^= (u64)salt * 0x9e3779b97f4a7c15u; h ^= h >> 31; h *= 0x94d049bb133111ebu; h ^= h >> 29; return (int)(h % 1000) < permille; }

static void block_done(conn *c, const char *p, size_t n) {      /* p..p+n: the block without its ".\r\n" */
  u64 t = now_ns(); if (!S.first) S.first = t; S.last = t;
  S.bytes += n + 3; c->arts++;
  u64 h = hash(c->id, c->idlen); unsigned char *v = slot(h);
  int ok = !chance(h, 3, opt_reject) && !(opt_hist && (*v & HAD));
  if (ok) {
    if (*v & HAD) S.twice++; else { *v |= HAD; S.distinct++; }
    if (ids) fprintf(ids, "%.*s %zu %08x\n", c->idlen, c->id, n, crc32_((const unsigned char *)p, n));
    if (opt_w) { char f[4200]; snprintf(f, sizeof f, "%s/%llu", opt_w, (unsigned long long)(S.t239 + S.i235)); FILE *o = fopen(f, "w"); if (o) { fprintf(o, "%.*s\n", c->idlen, c->id); fwrite(p, 1, n, o); fclose(o); } }
  }
  settled(v);
  if (opt_S && S.t239 + S.i235 + 1 >= opt_S) { if (ids) fflush(ids); raise(SIGKILL); }
  if (opt_X && c->arts % opt_X == 0) { S.cut++; c->quitting = 2; }
  if (c->ihave) { if (ok) S.i235++; else S.i437++; if (c->quitting != 2) replyf(c, ok ? 235 : 437, 0, 0, ok ? " ok" : " no"); }
  else { if (ok) S.t239++; else S.t439++; if (c->quitting != 2) replyf(c, ok ? 239 : 439, c->id, c->idlen, ""); }
  if (opt_D && c->arts % opt_D == 0) { S.cut++; c->quitting = 1; }
}
static void command(conn *c, char *p, size_t n) {
  while (n && (p[n-1] == '\r' || p[n-1] == ' ')) n--;
  size_t w = 0; while (w < n && p[w] != ' ') w++;
  char *a = p + w; while (a < p + n && *a == ' ') a++;
  int al = p + n - a; if (al > 2000) al = 2000;
  if (w == 5 && !strncasecmp(p, "CHECK", 5)) {
    S.check++; u64 h = hash(a, al); unsigned char *v = slot(h);
    if ((opt_hist && (*v & HAD)) || chance(h, 1, opt_refuse)) { S.c438++; settled(v); replyf(c, 438, a, al, ""); }
    else if (chance(h, 2, opt_defer) && (opt_always || !(*v & SEEN))) { *v |= SEEN; S.c431++; replyf(c, 431, a, al, ""); }
    else { S.c238++; c->checked++; replyf(c, 238, a, al, ""); }
  } else if (w == 8 && !strncasecmp(p, "TAKETHIS", 8)) { S.take++; if (c->checked) c->checked--; else S.nocheck++; memcpy(c->id, a, al); c->idlen = al; c->state = 1; c->ihave = 0; c->scan = 0; }
  else if (w == 5 && !strncasecmp(p, "IHAVE", 5)) {
    S.ihave++; u64 h = hash(a, al); unsigned char *v = slot(h);
    if ((opt_hist && (*v & HAD)) || chance(h, 1, opt_refuse)) { S.i435++; settled(v); replyf(c, 435, 0, 0, " no"); }
    else if (chance(h, 2, opt_defer) && (opt_always || !(*v & SEEN))) { *v |= SEEN; S.i436++; replyf(c, 436, 0, 0, " later"); }
    else { S.i335++; memcpy(c->id, a, al); c->idlen = al; c->state = 1; c->ihave = 1; c->scan = 0; replyf(c, 335, 0, 0, " send"); }
  } else if (n >= 11 && !strncasecmp(p, "MODE STREAM", 11)) { S.mode++; char b[80]; int k = snprintf(b, sizeof b, "%s mode\r\n", opt_M); reply(c, b, k); }
  else if (n >= 4 && !strncasecmp(p, "QUIT", 4)) { S.quit++; reply(c, "205 bye\r\n", 9); c->quitting = 1; }
  else if (n >= 12 && !strncasecmp(p, "CAPABILITIES", 12)) { const char *k = "101 list\r\nVERSION 2\r\nIHAVE\r\nSTREAMING\r\n.\r\n"; reply(c, k, strlen(k)); }
  else { S.bad++; replyf(c, 500, 0, 0, " what"); }
}
static void parse(conn *c) {
  size_t at = 0;
  while (at < c->inlen && !c->quitting) {
    char *p = c->in + at; size_t n = c->inlen - at;
    if (c->state == 0) {
      char *e = memchr(p, '\n', n); if (!e) break;
      command(c, p, e - p); at += e - p + 1;
    } else {
      if (n >= 3 && !memcmp(p, ".\r\n", 3)) { c->state = 0; block_done(c, p, 0); at += 3; continue; }
      size_t from = c->scan > 4 ? c->scan - 4 : 0;
      char *e = n > from ? memmem(p + from, n - from, "\r\n.\r\n", 5) : 0;
      if (!e) { c->scan = n; break; }
      c->state = 0; block_done(c, p, e - p + 2); at += e - p + 5;
    }
  }
  if (at) { memmove(c->in, c->in + at, c->inlen - at); c->inlen -= at; }
}
static void counters(void) {
  double s = (S.last - S.first) / 1e9; struct rusage r; getrusage(RUSAGE_SELF, &r);
  if (ids) fflush(ids);
  printf("accepted=%llu distinct=%llu twice=%llu settled=%llu bytes=%llu wire_in=%llu seconds=%.4f art_per_s=%.0f MB_per_s=%.2f "
         "conns=%llu open_max=%llu mode=%llu check=%llu c238=%llu c431=%llu c438=%llu take=%llu nocheck=%llu t239=%llu t439=%llu ihave=%llu i335=%llu i435=%llu i436=%llu i235=%llu i437=%llu quit=%llu cut=%llu partial=%llu bad=%llu sink_cpu=%.2f\n",
    (unsigned long long)(S.t239 + S.i235), (unsigned long long)S.distinct, (unsigned long long)S.twice, (unsigned long long)S.settled, (unsigned long long)S.bytes, (unsigned long long)S.wire_in, s,
    s > 0 ? (S.t239 + S.i235 + S.t439 + S.i437) / s : 0.0, s > 0 ? S.bytes / s / 1e6 : 0.0,
    (unsigned long long)S.conns, (unsigned long long)S.open_max, (unsigned long long)S.mode, (unsigned long long)S.check, (unsigned long long)S.c238, (unsigned long long)S.c431, (unsigned long long)S.c438, (unsigned long long)S.take, (unsigned long long)S.nocheck,
    (unsigned long long)S.t239, (unsigned long long)S.t439, (unsigned long long)S.ihave, (unsigned long long)S.i335, (unsigned long long)S.i435, (unsigned long long)S.i436, (unsigned long long)S.i235, (unsigned long long)S.i437, (unsigned long long)S.quit, (unsigned long long)S.cut, (unsigned long long)S.partial, (unsigned long long)S.bad,
    r.ru_utime.tv_sec + r.ru_stime.tv_sec + (r.ru_utime.tv_usec + r.ru_stime.tv_usec) / 1e6);
  fflush(stdout);
}
int main(int argc, char **argv) {
  int o;
  while ((o = getopt(argc, argv, "p:l:d:ar:j:HD:X:S:i:w:n:f:M:g:bq")) != -1) switch (o) {
    case 'p': opt_port = atoi(optarg); break; case 'l': lat = (u64)(atof(optarg) * 1e6); break; case 'd': opt_defer = atoi(optarg); break;
    case 'a': opt_always = 1; break; case 'r': opt_refuse = atoi(optarg); break; case 'j': opt_reject = atoi(optarg); break; case 'H': opt_hist = 1; break;
    case 'D': opt_D = atoll(optarg); break; case 'X': opt_X = atoll(optarg); break; case 'S': opt_S = atoll(optarg); break;
    case 'i': ids = fopen(optarg, "w"); if (!ids) die(optarg); setvbuf(ids, 0, _IOFBF, 1 << 20); break; case 'w': opt_w = optarg; break;
    case 'n': opt_n = atoll(optarg); break; case 'f': opt_f = optarg; break; case 'M': opt_M = optarg; break; case 'g': opt_g = optarg; break; case 'b': opt_block = 1; break; case 'q': break;
    default: fprintf(stderr, "see the head of sink.c\n"); return 2; }
  crc_init(); raise_limit(); signal(SIGPIPE, SIG_IGN);
  sigset_t m; sigemptyset(&m); sigaddset(&m, SIGTERM); sigaddset(&m, SIGINT); sigaddset(&m, SIGUSR1); sigprocmask(SIG_BLOCK, &m, 0);
  int sf = signalfd(-1, &m, SFD_NONBLOCK), ls = socket(AF_INET, SOCK_STREAM | SOCK_NONBLOCK, 0), one = 1;
  setsockopt(ls, SOL_SOCKET, SO_REUSEADDR, &one, sizeof one);
  struct sockaddr_in sa = { .sin_family = AF_INET, .sin_port = htons(opt_port), .sin_addr.s_addr = htonl(INADDR_LOOPBACK) };
  if (bind(ls, (void *)&sa, sizeof sa) || listen(ls, MOST)) die("bind");
  socklen_t sl = sizeof sa; getsockname(ls, (void *)&sa, &sl); printf("listening %d\n", ntohs(sa.sin_port)); fflush(stdout);
  ep = epoll_create1(0); nC = MOST; C = calloc(nC, sizeof *C);
  struct epoll_event e = { .events = EPOLLIN, .data.u32 = 0xfffffffe }; epoll_ctl(ep, EPOLL_CTL_ADD, ls, &e); e.data.u32 = 0xffffffff; epoll_ctl(ep, EPOLL_CTL_ADD, sf, &e);
  struct epoll_event ev[256];
  for (;;) {
    if (pqh < pqt) {                                  /* late replies that are due */
      u64 t = now_ns(); int last = -1;
      while (pqh < pqt) { pend_head *h = (void *)(pq + pqh); if (h->due > t) break; conn *c = &C[h->c];
        if (c->used && c->gen == h->gen) { out_add(c, h->text, h->len); if (last >= 0 && last != h->c && C[last].used) flush_out(&C[last]); last = h->c; }
        size_t need = sizeof(pend_head) + h->len + 8; pqh += (need + 7) & ~(size_t)7; }
      if (last >= 0 && C[last].used) flush_out(&C[last]);
      if (pqh == pqt) pqh = pqt = 0;
    }
    struct timespec ts, *tp = 0;
    if (pqh < pqt) { u64 d = ((pend_head *)(void *)(pq + pqh))->due, t = now_ns(); u64 w = d > t ? d - t : 0; ts.tv_sec = w / 1000000000u; ts.tv_nsec = w % 1000000000u; tp = &ts; }
    int k = epoll_pwait2(ep, ev, 256, tp, 0);
    if (k < 0) { if (errno == EINTR) continue; die("epoll"); }
    for (int i = 0; i < k; i++) {
      u32 who = ev[i].data.u32;
      if (who == 0xffffffff) { struct signalfd_siginfo si; while (read(sf, &si, sizeof si) == sizeof si) { counters(); if (si.ssi_signo != SIGUSR1) return 0; } continue; }
      if (who == 0xfffffffe) {
        int fd; while ((fd = accept4(ls, 0, 0, SOCK_NONBLOCK)) >= 0) {
          if (opt_block) { if (write(fd, "400 closed\r\n", 12) < 0) {} close(fd); S.conns++; continue; }
          int j = 0; while (j < nC && C[j].used) j++;
          if (j == nC) { close(fd); continue; }
          conn *c = &C[j]; c->fd = fd; c->used = 1; c->want_out = c->quitting = 0; c->inlen = c->scan = c->outlen = c->outoff = 0; c->state = 0; c->arts = c->checked = 0;
          setsockopt(fd, IPPROTO_TCP, TCP_NODELAY, &one, sizeof one);
          struct epoll_event ce = { .events = EPOLLIN, .data.u32 = j }; epoll_ctl(ep, EPOLL_CTL_ADD, fd, &ce);
          S.conns++; if (++S.open > S.open_max) S.open_max = S.open;
          char b[600]; int n = snprintf(b, sizeof b, "%s\r\n", opt_g); reply(c, b, n); if (!lat) flush_out(c);
        }
        if (errno == EMFILE || errno == ENFILE) die("accept");
        continue;
      }
      conn *c = &C[who]; if (!c->used) continue;
      if (ev[i].events & EPOLLOUT) { flush_out(c); if (!c->used) continue; }
      if (!(ev[i].events & (EPOLLIN | EPOLLHUP | EPOLLERR))) continue;
      int gone = 0;
      for (int rounds = 0; rounds < 16; rounds++) {
        if (c->incap - c->inlen < 262144) { c->incap = c->incap ? c->incap * 2 : 1 << 20; c->in = realloc(c->in, c->incap); if (!c->in) die("realloc"); }
        ssize_t n = recv(c->fd, c->in + c->inlen, c->incap - c->inlen, 0);
        if (n == 0) { gone = 1; break; }
        if (n < 0) { if (errno != EAGAIN) gone = 1; break; }
        S.wire_in += n; c->inlen += n;
        parse(c);
        if (c->quitting || (size_t)n < 4096) break;
      }
      if (c->quitting == 2) { if (!lat) { c->quitting = 0; flush_out(c); } if (c->used) { c->inlen = 0; shut(c); } continue; }
      if (gone) { shut(c); continue; }
      if (!lat) flush_out(c);
      else if (c->quitting && 0) shut(c);
    }
  }
}
