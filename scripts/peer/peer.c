/* The hands of a guest: uses Linux's AppleTalk as lines of standard input say, and prints what comes of it.
 *
 * Each answer and each datagram that is heard is a line that begins with @ and the time in milliseconds. Addresses are NET.NODE in
 * decimal, data is hexadecimal.
 *
 *   up IF | get IF | del IF          a card comes up; its address; its address goes
 *   group IF XX:XX:XX:XX:XX:XX       the card hears this group too
 *   addr IF NET NODE FIRST LAST      takes an address by probing; if another station has it, Linux goes on to the next
 *   route NET NET.NODE               the way to a network by a router
 *   open PORT | close PORT           a socket
 *   send PORT NET.NODE PORT TYPE HEX a datagram from an open socket
 *   echo                             from now on an open socket 4 answers echo requests
 *   sh COMMAND                       a command of the shell, each line that it prints after a bar
 *   quit
 */
#define _GNU_SOURCE
#include <arpa/inet.h>
#include <ctype.h>
#include <errno.h>
#include <linux/atalk.h>
#include <linux/reboot.h>
#include <net/if.h>
#include <net/route.h>
#include <poll.h>
#include <stdint.h>
#include <stdio.h>
#include <stdlib.h>
#include <string.h>
#include <sys/ioctl.h>
#include <sys/reboot.h>
#include <sys/socket.h>
#include <sys/wait.h>
#include <termios.h>
#include <time.h>
#include <unistd.h>

#define MOST_SOCKETS 32
#define MOST_WORDS 8

struct listener { int fd, port; };

static struct listener listeners[MOST_SOCKETS];
static int listener_count;
static int answers_echoes;

static long now(void)
{
    struct timespec t;
    clock_gettime(CLOCK_MONOTONIC, &t);
    return t.tv_sec * 1000 + t.tv_nsec / 1000000;
}

static void tell(const char *what, int result)
{
    if (result < 0)
        printf("@%ld %s failed %s\n", now(), what, strerror(errno));
    else
        printf("@%ld %s ok\n", now(), what);
}

static void print_hex(const uint8_t *bytes, int count)
{
    for (int k = 0; k < count; k++)
        printf("%02X", bytes[k]);
    printf("\n");
}

static int read_hex(const char *text, uint8_t *bytes, int most)
{
    int count = 0;
    for (; isxdigit(text[0]) && isxdigit(text[1]) && count < most; text += 2) {
        char two[3] = {text[0], text[1], 0};
        bytes[count++] = strtol(two, 0, 16);
    }
    return count;
}

static struct atalk_addr address_of(const char *text)
{
    unsigned net = 0, node = 0;
    sscanf(text, "%u.%u", &net, &node);
    return (struct atalk_addr){htons(net), node};
}

static int appletalk_socket(void)
{
    return socket(AF_APPLETALK, SOCK_DGRAM, 0);
}

/* An ioctl over a socket of its own, which keeps the error. */
static int control(unsigned long request, void *argument)
{
    int fd = appletalk_socket(), result = ioctl(fd, request, argument), error = errno;
    close(fd);
    errno = error;
    return result;
}

static struct ifreq card(const char *name)
{
    struct ifreq request;
    memset(&request, 0, sizeof request);
    snprintf(request.ifr_name, IFNAMSIZ, "%s", name);
    return request;
}

static int set_address(const char *name, unsigned net, unsigned node, unsigned first, unsigned last)
{
    struct ifreq request = card(name);
    struct sockaddr_at *address = (struct sockaddr_at *)&request.ifr_addr;
    struct atalk_netrange *range = (struct atalk_netrange *)address->sat_zero;
    address->sat_family = AF_APPLETALK;
    address->sat_addr = (struct atalk_addr){htons(net), node};
    range->nr_phase = 2;
    range->nr_firstnet = htons(first);
    range->nr_lastnet = htons(last);
    return control(SIOCSIFADDR, &request);
}

static struct atalk_addr address_on(const char *name)
{
    struct ifreq request = card(name);
    if (control(SIOCGIFADDR, &request) < 0)
        return (struct atalk_addr){0, 0};
    return ((struct sockaddr_at *)&request.ifr_addr)->sat_addr;
}

static struct listener *listener_on(int port)
{
    for (int k = 0; k < listener_count; k++)
        if (listeners[k].port == port)
            return listeners + k;
    return 0;
}

/* The type of a datagram is the first byte that Linux takes. */
static int put(int fd, struct atalk_addr to, int port, int type, const uint8_t *data, int count)
{
    struct sockaddr_at target = {.sat_family = AF_APPLETALK, .sat_addr = to, .sat_port = port};
    uint8_t bytes[700];
    bytes[0] = type;
    memcpy(bytes + 1, data, count);
    return sendto(fd, bytes, count + 1, 0, (struct sockaddr *)&target, sizeof target);
}

static void hear(struct listener *at)
{
    uint8_t bytes[1024];
    struct sockaddr_at from;
    socklen_t length = sizeof from;
    int count = recvfrom(at->fd, bytes, sizeof bytes, MSG_DONTWAIT, (struct sockaddr *)&from, &length);
    if (count < 1)
        return;
    printf("@%ld heard %d from %u.%u:%u type %u ", now(), at->port, ntohs(from.sat_addr.s_net), from.sat_addr.s_node, from.sat_port,
           bytes[0]);
    print_hex(bytes + 1, count - 1);
    if (answers_echoes && at->port == 4 && bytes[0] == 4 && count > 1 && bytes[1] == 1) {
        bytes[1] = 2;
        put(at->fd, from.sat_addr, from.sat_port, 4, bytes + 1, count - 1);
    }
}

static void do_up(char **words, const char *rest)
{
    struct ifreq request = card(words[1]);
    control(SIOCGIFFLAGS, &request);
    request.ifr_flags |= IFF_UP;
    tell("up", control(SIOCSIFFLAGS, &request));
}

static void do_group(char **words, const char *rest)
{
    struct ifreq request = card(words[1]);
    unsigned part[6] = {0};
    sscanf(words[2], "%x:%x:%x:%x:%x:%x", part, part + 1, part + 2, part + 3, part + 4, part + 5);
    for (int k = 0; k < 6; k++)
        request.ifr_hwaddr.sa_data[k] = part[k];
    tell("group", control(SIOCADDMULTI, &request));
}

static void do_addr(char **words, const char *rest)
{
    int result = set_address(words[1], atoi(words[2]), atoi(words[3]), atoi(words[4]), atoi(words[5]));
    if (result < 0) {
        tell("addr", result);
        return;
    }
    struct atalk_addr got = address_on(words[1]);
    printf("@%ld addr ok %u.%u\n", now(), ntohs(got.s_net), got.s_node);
}

static void do_get(char **words, const char *rest)
{
    struct atalk_addr got = address_on(words[1]);
    printf("@%ld get ok %u.%u\n", now(), ntohs(got.s_net), got.s_node);
}

static void do_del(char **words, const char *rest)
{
    struct ifreq request = card(words[1]);
    request.ifr_addr.sa_family = AF_APPLETALK;
    tell("del", control(SIOCATALKDIFADDR, &request));
}

static void do_route(char **words, const char *rest)
{
    struct rtentry request;
    struct sockaddr_at to = {.sat_family = AF_APPLETALK, .sat_addr = {htons(atoi(words[1])), 0}};
    struct sockaddr_at by = {.sat_family = AF_APPLETALK, .sat_addr = address_of(words[2])};
    memset(&request, 0, sizeof request);
    memcpy(&request.rt_dst, &to, sizeof to);
    memcpy(&request.rt_gateway, &by, sizeof by);
    request.rt_flags = RTF_UP | RTF_GATEWAY;
    tell("route", control(SIOCADDRT, &request));
}

static void do_open(char **words, const char *rest)
{
    struct sockaddr_at own = {.sat_family = AF_APPLETALK, .sat_port = atoi(words[1])};
    int one = 1, fd = appletalk_socket();
    setsockopt(fd, SOL_SOCKET, SO_BROADCAST, &one, sizeof one);
    int result = bind(fd, (struct sockaddr *)&own, sizeof own);
    if (result == 0 && listener_count < MOST_SOCKETS)
        listeners[listener_count++] = (struct listener){fd, own.sat_port};
    tell("open", result);
}

static void do_close(char **words, const char *rest)
{
    struct listener *at = listener_on(atoi(words[1]));
    errno = ENOENT;
    if (at) {
        close(at->fd);
        *at = listeners[--listener_count];
    }
    tell("close", at ? 0 : -1);
}

static void do_send(char **words, const char *rest)
{
    uint8_t data[600];
    struct listener *at = listener_on(atoi(words[1]));
    errno = ENOENT;
    tell("send", !at ? -1 : put(at->fd, address_of(words[2]), atoi(words[3]), atoi(words[4]), data,
                                read_hex(words[5], data, sizeof data)));
}

static void do_echo(char **words, const char *rest)
{
    answers_echoes = 1;
    tell("echo", 0);
}

static void do_sh(char **words, const char *rest)
{
    char line[512];
    // as the first process it is the parent of all whose own one ended
    while (waitpid(-1, 0, WNOHANG) > 0)
        continue;
    FILE *out = popen(rest, "r");
    while (out && fgets(line, sizeof line, out))
        printf("@%ld | %s", now(), line);
    errno = ECHILD;
    tell("sh", out && pclose(out) == 0 ? 0 : -1);
}

static void do_quit(char **words, const char *rest)
{
    fflush(stdout);
    reboot(LINUX_REBOOT_CMD_POWER_OFF);
    _exit(0);
}

static const struct {
    const char *name;
    int words;
    void (*run)(char **words, const char *rest);
} commands[] = {
    {"up", 2, do_up},       {"group", 3, do_group}, {"addr", 6, do_addr},   {"get", 2, do_get},     {"del", 2, do_del},
    {"route", 3, do_route}, {"open", 2, do_open},   {"close", 2, do_close}, {"send", 6, do_send},   {"echo", 1, do_echo},
    {"sh", 2, do_sh},       {"quit", 1, do_quit},
};

static void run_line(char *line)
{
    char whole[8192], *words[MOST_WORDS], *left;
    int count = 0;
    snprintf(whole, sizeof whole, "%s", line);
    for (char *word = strtok_r(line, " ", &left); word && count < MOST_WORDS; word = strtok_r(0, " ", &left))
        words[count++] = word;
    for (unsigned k = 0; count && k < sizeof commands / sizeof *commands; k++)
        if (!strcmp(words[0], commands[k].name) && count >= commands[k].words) {
            commands[k].run(words, whole + strlen(words[0]) + (count > 1));
            return;
        }
    if (count)
        printf("@%ld unknown %s\n", now(), words[0]);
}

/* Runs each whole line of standard input. The end of it is the end of the guest. */
static void read_lines(void)
{
    static char kept[8192];
    static int held;
    int got = read(0, kept + held, sizeof kept - 1 - held);
    if (got <= 0) {
        if (got == 0 || errno != EINTR)
            do_quit(0, 0);
        return;
    }
    held += got;
    kept[held] = 0;
    for (char *end; (end = strpbrk(kept, "\r\n"));) {
        char line[sizeof kept];
        *end = 0;
        strcpy(line, kept);
        held -= end + 1 - kept;
        memmove(kept, end + 1, held + 1);
        run_line(line);
    }
}

int main(void)
{
    struct termios console;
    if (tcgetattr(0, &console) == 0) {
        cfmakeraw(&console);
        tcsetattr(0, TCSANOW, &console);
    }
    setvbuf(stdout, 0, _IOLBF, 0);
    printf("@%ld ready\n", now());
    for (;;) {
        struct pollfd wanted[MOST_SOCKETS + 1] = {{.fd = 0, .events = POLLIN}};
        int count = listener_count;
        for (int k = 0; k < count; k++)
            wanted[k + 1] = (struct pollfd){.fd = listeners[k].fd, .events = POLLIN};
        poll(wanted, count + 1, -1);
        for (int k = 0; k < count; k++)
            if (wanted[k + 1].revents & POLLIN)
                hear(listeners + k);
        if (wanted[0].revents & (POLLIN | POLLHUP))
            read_lines();
    }
}
