/* An SMTP server that takes all mail, for bench/beside: `sink DELAY [pipelining]` listens on a free port of
 * all addresses of the machine, prints the port, and sends each answer DELAY milliseconds behind the line
 * that it answers. It offers no extension, or PIPELINING (RFC 2920), and refuses each recipient whose address
 * begins with `no`. When its standard input ends, it prints how many messages it took, and ends. */

#include <arpa/inet.h>
#include <errno.h>
#include <netinet/in.h>
#include <netinet/tcp.h>
#include <stdio.h>
#include <stdlib.h>
#include <string.h>
#include <strings.h>
#include <sys/epoll.h>
#include <sys/socket.h>
#include <time.h>
#include <unistd.h>

enum { LINKS = 4096, LINE = 1024, WAITING = 65536, EVENTS = 64 };

struct link {
    int open;
    unsigned life; /* so that an answer of an earlier connection isn't sent on this one */
    int in_content;
    int used;
    char line[LINE];
};

struct answer {
    long long due;
    int file;
    unsigned life;
    int last;
    const char *text;
};

static struct link links[LINKS];
static struct answer answers[WAITING];
static unsigned first, behind;
static int events_file;
static long long delay;
static const char *hello = "250 sink\r\n";
static unsigned long taken;

static long long now(void)
{
    struct timespec time;
    clock_gettime(CLOCK_MONOTONIC, &time);
    return time.tv_sec * 1000000LL + time.tv_nsec / 1000;
}

static void fail(const char *what)
{
    perror(what);
    exit(1);
}

static void shut(int file)
{
    close(file);
    links[file].open = 0;
    links[file].life++;
}

static void send_answer(const struct answer *answer)
{
    if (!links[answer->file].open || links[answer->file].life != answer->life)
        return;
    size_t length = strlen(answer->text);
    if (send(answer->file, answer->text, length, MSG_NOSIGNAL) != (ssize_t)length || answer->last)
        shut(answer->file);
}

static void reply(int file, const char *text, int last)
{
    struct answer answer = {now() + delay, file, links[file].life, last, text};
    if (delay == 0) {
        send_answer(&answer);
        return;
    }
    if (behind - first == WAITING) {
        fprintf(stderr, "sink: too many answers wait\n");
        exit(1);
    }
    answers[behind++ % WAITING] = answer;
}

static void hear_command(int file, const char *line)
{
    if (strncasecmp(line, "EHLO", 4) == 0)
        reply(file, hello, 0);
    else if (strncasecmp(line, "QUIT", 4) == 0)
        reply(file, "221 bye\r\n", 1);
    else if (strncasecmp(line, "DATA", 4) == 0) {
        links[file].in_content = 1;
        reply(file, "354 go on\r\n", 0);
    } else if (strncasecmp(line, "RCPT TO:<no", 11) == 0)
        reply(file, "550 no\r\n", 0);
    else
        reply(file, "250 ok\r\n", 0);
}

static void hear_line(int file, const char *line)
{
    if (!links[file].in_content) {
        hear_command(file, line);
        return;
    }
    if (strcmp(line, ".\r\n") == 0) {
        links[file].in_content = 0;
        taken++;
        reply(file, "250 taken\r\n", 0);
    }
}

static void hear(int file)
{
    char bytes[65536];
    struct link *link = &links[file];
    ssize_t count = recv(file, bytes, sizeof bytes, 0);
    if (count <= 0) {
        shut(file);
        return;
    }
    for (ssize_t i = 0; i < count && link->open; i++) {
        if (link->used < LINE - 1)
            link->line[link->used++] = bytes[i];
        if (bytes[i] == '\n') {
            link->line[link->used] = 0;
            link->used = 0;
            hear_line(file, link->line);
        }
    }
}

static void watch(int file)
{
    struct epoll_event event = {.events = EPOLLIN, .data.fd = file};
    if (epoll_ctl(events_file, EPOLL_CTL_ADD, file, &event) != 0)
        fail("epoll_ctl");
}

static void take_link(int listener)
{
    int one = 1, file = accept(listener, NULL, NULL);
    if (file < 0 || file >= LINKS)
        fail("accept");
    setsockopt(file, IPPROTO_TCP, TCP_NODELAY, &one, sizeof one);
    links[file].open = 1;
    links[file].in_content = 0;
    links[file].used = 0;
    watch(file);
    reply(file, "220 sink\r\n", 0);
}

static int listen_anywhere(void)
{
    struct sockaddr_in address = {.sin_family = AF_INET};
    socklen_t length = sizeof address;
    int file = socket(AF_INET, SOCK_STREAM, 0);
    if (file < 0 || bind(file, (struct sockaddr *)&address, length) != 0 || listen(file, 1024) != 0
        || getsockname(file, (struct sockaddr *)&address, &length) != 0)
        fail("listen");
    printf("%d\n", ntohs(address.sin_port));
    fflush(stdout);
    return file;
}

/* Sends the answers that are due, and says how many milliseconds the next one waits; -1 where none does. */
static int send_due(void)
{
    for (; first != behind; first++) {
        const struct answer *answer = &answers[first % WAITING];
        long long left = answer->due - now();
        if (left > 0)
            return (int)((left + 999) / 1000);
        send_answer(answer);
    }
    return -1;
}

int main(int count, char **words)
{
    struct epoll_event events[EVENTS];
    delay = count > 1 ? atoll(words[1]) * 1000 : 0;
    if (count > 2)
        hello = "250-sink\r\n250 PIPELINING\r\n";
    events_file = epoll_create1(0);
    int listener = listen_anywhere();
    watch(listener);
    watch(STDIN_FILENO);
    for (;;) {
        int ready = epoll_wait(events_file, events, EVENTS, send_due());
        if (ready < 0 && errno != EINTR)
            fail("epoll_wait");
        for (int i = 0; i < ready; i++) {
            int file = events[i].data.fd;
            if (file == STDIN_FILENO) {
                printf("%lu\n", taken);
                return 0;
            }
            if (file == listener)
                take_link(listener);
            else if (links[file].open)
                hear(file);
        }
    }
}
