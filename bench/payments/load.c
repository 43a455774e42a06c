// Pays in a closed loop on a number of connections, and prints the payments acknowledged in a second, and the median, the 99th percentile and
// the most of the milliseconds to a reply.
//
//     load PORT CLIENTS SECONDS ACCOUNTS SEED [LIST]
//
// A line is one payment, or with LIST a list of LIST payments, from 1 to 140.
#include <arpa/inet.h>
#include <netinet/tcp.h>
#include <stdint.h>
#include <stdio.h>
#include <stdlib.h>
#include <string.h>
#include <sys/epoll.h>
#include <time.h>
#include <unistd.h>

enum { MOST_CLIENTS = 1024, MOST_TIMES = 4000000, MOST_LIST = 140, LONGEST = 16384 };

struct client {
  int socket;
  double sent;
  size_t length;
  char reply[LONGEST];
};

static struct client clients[MOST_CLIENTS];
static double times[MOST_TIMES];
static uint64_t state;
static unsigned list;  // payments in a line, or 0 if a line is no list

static double now(void) {
  struct timespec time;
  clock_gettime(CLOCK_MONOTONIC, &time);
  return (double)time.tv_sec + (double)time.tv_nsec / 1e9;
}

static uint64_t draw(uint64_t below) {
  state ^= state << 13;
  state ^= state >> 7;
  state ^= state << 17;
  return state % below;
}

static void fail(const char *what) {
  perror(what);
  exit(1);
}

static int order(const void *left, const void *right) {
  double a = *(const double *)left, b = *(const double *)right;
  return (a > b) - (a < b);
}

// Writes a payment to `line`, and returns its length.
static int payment(char *line, uint64_t accounts) {
  uint64_t from = 1 + draw(accounts - 1), to = (from + 1 + draw(accounts - 1)) % accounts;
  uint64_t id = from * 1000000 + draw(1000000);  // of the payer's account
  return sprintf(line, "{\"id\":%llu,\"from\":%llu,\"to\":%llu,\"amount\":%llu}", (unsigned long long)id, (unsigned long long)from,
                 (unsigned long long)to, (unsigned long long)(1 + draw(100)));
}

static void pay(struct client *client, uint64_t accounts) {
  char line[LONGEST], *end = line;
  if (list) *end++ = '[';
  for (unsigned number = 0; number == 0 || number < list; number++) {
    if (number) *end++ = ',';
    end += payment(end, accounts);
  }
  if (list) *end++ = ']';
  *end++ = '\n';
  client->sent = now();
  if (write(client->socket, line, (size_t)(end - line)) != end - line) fail("write");
}

// How many of a reply's payments were paid.
static size_t paid_in(const char *reply) {
  size_t count = 0;
  for (const char *at = reply; (at = strstr(at, "\"paid\": true")); at++) count++;
  return count;
}

static void join(int poll, unsigned number, int port) {
  struct sockaddr_in to = {.sin_family = AF_INET, .sin_port = htons((uint16_t)port), .sin_addr.s_addr = htonl(INADDR_LOOPBACK)};
  struct epoll_event event = {.events = EPOLLIN, .data.u32 = number};
  int one = 1, file = socket(AF_INET, SOCK_STREAM, 0);
  setsockopt(file, IPPROTO_TCP, TCP_NODELAY, &one, sizeof one);
  if (connect(file, (struct sockaddr *)&to, sizeof to)) fail("connect");
  epoll_ctl(poll, EPOLL_CTL_ADD, file, &event);
  clients[number].socket = file;
}

int main(int count, char **words) {
  if (count < 6 || count > 7) return fprintf(stderr, "load PORT CLIENTS SECONDS ACCOUNTS SEED [LIST]\n"), 2;
  unsigned most = (unsigned)atoi(words[2]);
  double seconds = atof(words[3]);
  uint64_t accounts = strtoull(words[4], 0, 10);
  size_t done = 0, paid = 0;
  int poll = epoll_create1(0);
  list = count == 7 ? (unsigned)atoi(words[6]) : 0;
  if (most == 0 || most > MOST_CLIENTS || accounts < 3 || list > MOST_LIST) return 2;
  state = UINT64_C(88172645463325252) ^ (strtoull(words[5], 0, 10) * UINT64_C(0x9E3779B97F4A7C15));
  for (unsigned number = 0; number < most; number++) join(poll, number, atoi(words[1]));
  double begin = now(), end = begin + seconds;
  for (unsigned number = 0; number < most; number++) pay(&clients[number], accounts);
  while (now() < end) {
    struct epoll_event events[256];
    int ready = epoll_wait(poll, events, 256, 100);
    for (int at = 0; at < ready; at++) {
      struct client *client = &clients[events[at].data.u32];
      ssize_t came = read(client->socket, client->reply + client->length, LONGEST - 1 - client->length);
      if (came <= 0) fail("the server is gone");
      client->length += (size_t)came;
      if (client->reply[client->length - 1] != '\n') continue;
      client->reply[client->length] = 0;
      client->length = 0;
      if (done < MOST_TIMES) times[done++] = now() - client->sent;
      paid += paid_in(client->reply);
      pay(client, accounts);
    }
  }
  double took = now() - begin;
  if (done == 0) return 1;
  qsort(times, done, sizeof *times, order);
  printf("%.0f %.3f %.3f %.3f\n", (double)paid / took, times[done / 2] * 1e3, times[done * 99 / 100] * 1e3, times[done - 1] * 1e3);
  return 0;
}
