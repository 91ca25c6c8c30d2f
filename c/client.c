// client [--protocol 3] HOST:PORT: a client that does what its user types, with the commands of jup (docs/PROGRAMS.md), over the library of jup.h.
//
// Its link outlives its connections: if one breaks, it connects again, and the user types on. It also hears its server between two commands. A server
// without protocol 4 answers by 42, and the client connects once more for a session of protocol 3. So it does with --protocol 3. It then hears the server only
// while the session opens and within a sync, as jup does. The exit status is that of jup.
#define _POSIX_C_SOURCE 200809L

#include "jup.h"

#include <errno.h>
#include <fcntl.h>
#include <netdb.h>
#include <netinet/in.h>
#include <netinet/tcp.h>
#include <poll.h>
#include <signal.h>
#include <stdio.h>
#include <stdlib.h>
#include <string.h>
#include <sys/socket.h>
#include <sys/time.h>
#include <time.h>
#include <unistd.h>

enum { IO_FAULT = 1, USAGE = 2, OUT_OF_MEMORY = 3, FAULT = 4 };

// The number of the fault that the server ended its bytes too early.
enum { EARLY_END = 43 };

// How long a connection may take to be made.
enum { CONNECT_S = 90 };

// How long the last bytes of the server are read, and how many.
enum { SILENCE_MS = 1000, PATIENCE_S = 10, MOST_LAST = 4 * 1024 * 1024 };

// The waits between two attempts to connect double up to the longest, and begin short again after a connection that lived for so long. Without a link there are
// so many attempts. With one the client gives up so much later than its server, or after an hour where the server keeps links.
enum { FIRST_WAIT_MS = 200, LONGEST_WAIT_MS = 5000, LIVES_MS = 10000, MOST_ATTEMPTS = 3, LATER_S = 180, KEPT_S = 3600 };

static jup_client client = JUP_CLIENT_NONE;
static const char *address;
static int is_lasting = 1;

// The connection, or -1. When the server's first bytes came on it, or 0. When the last one broke on which some had come.
static int server = -1;
static long long heard_ms, broke_ms;

// When the client tries again, how long it waits after that, how often it has tried, and whether it ever had a link.
static long long next_ms, wait_ms = FIRST_WAIT_MS;
static int attempts, had_link;

// What goes to the server, and how much of that the connection took.
static uint8_t going[4096];
static size_t go_count, gone;

// What came from the server, and how much of that the client was fed.
static uint8_t coming[65536];
static size_t came, fed;

// What the user typed, and whether that is all.
static char typed[65536];
static size_t typed_count;
static int has_typed_all;

// Room for what a command prints. It grows for a board.
static uint8_t *text;
static size_t room;

static long long now_ms(void) {
    struct timespec now;
    clock_gettime(CLOCK_MONOTONIC, &now);
    return now.tv_sec * 1000LL + now.tv_nsec / 1000000;
}

static void end(int status, const char *why) {
    fflush(stdout);
    fprintf(stderr, "%s\n", why);
    exit(status);
}

static uint32_t stage(void) {
    uint32_t fault;
    return jup_stage(&client, &fault);
}

// A server reports by the same number that it is out of memory. That ends the session.
static void end_by(uint32_t fault) {
    if (stage() != JUP_OVER && (fault == JUP_NO_MEMORY || fault == JUP_UNTOLD)) end(OUT_OF_MEMORY, "no memory");
    printf("fault %u\n", fault);
    fflush(stdout);
    exit(FAULT);
}

// What the server said of the link, if there is one.
static int has_link(uint32_t *seconds, uint32_t *kept) {
    uint8_t token[32];
    return jup_token(&client, token, sizeof token, seconds, kept) == JUP_OK;
}

static int connected(void) {
    char host[256];
    const char *colon = strrchr(address, ':');
    struct addrinfo wanted = { .ai_socktype = SOCK_STREAM }, *found = NULL;
    struct timeval patience = { .tv_sec = CONNECT_S };
    int made = -1, yes = 1;
    if (colon == NULL || (size_t)(colon - address) >= sizeof host) return -1;
    memcpy(host, address, (size_t)(colon - address));
    host[colon - address] = 0;
    if (getaddrinfo(host, colon + 1, &wanted, &found) != 0) return -1;
    for (struct addrinfo *it = found; it != NULL && made < 0; it = it->ai_next) {
        made = socket(it->ai_family, it->ai_socktype, it->ai_protocol);
        setsockopt(made, SOL_SOCKET, SO_SNDTIMEO, &patience, sizeof patience);
        if (made >= 0 && connect(made, it->ai_addr, it->ai_addrlen) != 0) {
            close(made);
            made = -1;
        }
    }
    freeaddrinfo(found);
    if (made < 0) return -1;
    setsockopt(made, IPPROTO_TCP, TCP_NODELAY, &yes, sizeof yes);
    fcntl(made, F_SETFL, fcntl(made, F_GETFL) | O_NONBLOCK);
    return made;
}

// The connection broke, or could not be made. A client that never had a link makes a few attempts.
static void lose(void) {
    uint32_t seconds, kept;
    long long now = now_ms();
    if (!is_lasting) end(IO_FAULT, "io fault");
    if (server >= 0) close(server);
    server = -1;
    go_count = gone = 0;
    had_link |= has_link(&seconds, &kept);
    jup_cut(&client);
    if (!had_link && attempts >= MOST_ATTEMPTS) end(IO_FAULT, "io fault");
    if (heard_ms != 0 && now - heard_ms >= LIVES_MS) wait_ms = FIRST_WAIT_MS;
    if (heard_ms != 0) broke_ms = now;
    heard_ms = 0;
    next_ms = now + wait_ms;
    wait_ms = 2 * wait_ms < LONGEST_WAIT_MS ? 2 * wait_ms : LONGEST_WAIT_MS;
}

// Connects, and lets the connection carry the link.
static void connect_again(void) {
    uint32_t seconds = 0, kept = 0;
    if (has_link(&seconds, &kept) && now_ms() - broke_ms > 1000LL * (kept && seconds + LATER_S < KEPT_S ? KEPT_S : seconds + LATER_S)) end_by(EARLY_END);
    server = connected();
    attempts++;
    uint32_t fault = jup_resume(&client);
    // The first line of the first connection waits since the client was opened.
    if (fault != JUP_OK && fault != JUP_CARRIED) end_by(fault);
    if (server < 0) lose();
}

// Hands what waits to the connection, as far as that takes it. A link that is over has nothing more to say.
static void send_all(void) {
    while (server >= 0) {
        if (gone == go_count) {
            gone = 0;
            go_count = jup_take(&client, going, sizeof going);
            if (go_count == 0 && is_lasting && stage() == JUP_OVER) shutdown(server, SHUT_WR);
            if (go_count == 0) return;
        }
        ssize_t more = write(server, going + gone, go_count - gone);
        if (more < 0 && errno == EINTR) continue;
        if (more < 0 && (errno == EAGAIN || errno == EWOULDBLOCK)) return;
        if (more <= 0) lose();
        else gone += (size_t)more;
    }
}

// A session of one connection.
static void open_single(void) {
    if (server >= 0) close(server);
    is_lasting = 0;
    came = fed = go_count = gone = 0;
    uint32_t fault = jup_open(&client, 0);
    if (fault != JUP_OK) end_by(fault);
    server = connected();
    if (server < 0) end(IO_FAULT, "io fault");
}

// Feeds the client of a link all that came. It prints a fault when the user asks for the next thing.
static void hear_link(void) {
    uint32_t seconds, kept, fault = jup_feed(&client, coming, came);
    fed = came;
    if (fault == JUP_CUT) lose();
    if (fault == JUP_BAD_VERSION && !has_link(&seconds, &kept)) open_single();
}

// Feeds the client of one connection one line of the server, or the part of it that came.
static void hear_line(void) {
    const uint8_t *from = coming + fed, *feed = memchr(from, '\n', came - fed);
    size_t count = feed != NULL ? (size_t)(feed - from) + 1 : came - fed;
    uint32_t fault = jup_feed(&client, from, count);
    fed += count;
    if (fault != JUP_OK) end_by(fault);
}

static void read_server(void) {
    ssize_t count = read(server, coming, sizeof coming);
    if (count < 0 && (errno == EINTR || errno == EAGAIN || errno == EWOULDBLOCK)) return;
    if (count == 0 && !is_lasting) end_by(EARLY_END);
    if (count <= 0) {
        lose();
        return;
    }
    if (heard_ms == 0) heard_ms = now_ms();
    fed = 0;
    came = (size_t)count;
    if (is_lasting) hear_link();
}

static void read_user(void) {
    ssize_t count = read(STDIN_FILENO, typed + typed_count, sizeof typed - typed_count);
    if (count < 0 && errno == EINTR) return;
    if (count > 0) typed_count += (size_t)count;
    else has_typed_all = 1;
}

// How many milliseconds pass at the most before the client does something by itself, and -1 if it never does.
static int time_left(void) {
    if (!is_lasting) return -1;
    if (server >= 0 || stage() == JUP_OVER) return 1000;
    long long left = next_ms - now_ms();
    return left > 0 ? (int)(left < 1000 ? left : 1000) : 0;
}

// Tells the client of a link how many seconds passed.
static void tell_time(void) {
    static long long told_ms;
    if (told_ms == 0) told_ms = now_ms();
    uint32_t seconds = (uint32_t)((now_ms() - told_ms) / 1000);
    told_ms += 1000LL * seconds;
    if (jup_elapse(&client, seconds)) lose();
}

// Waits for the server, for the user or for the time to do something, and does that.
static void step(int hears_server, int hears_user) {
    if (is_lasting && stage() != JUP_OVER && server < 0 && time_left() == 0) connect_again();
    send_all();
    struct pollfd ready[2] = {
        { .fd = server, .events = (short)((hears_server ? POLLIN : 0) | (gone < go_count ? POLLOUT : 0)) },
        { .fd = hears_user ? STDIN_FILENO : -1, .events = POLLIN },
    };
    if (ready[0].events == 0) ready[0].fd = -1;
    if (poll(ready, 2, time_left()) > 0) {
        if (ready[1].revents) read_user();
        if (hears_server && server >= 0 && ready[0].revents & (POLLIN | POLLHUP | POLLERR)) read_server();
    }
    if (is_lasting) tell_time();
    send_all();
}

// Hears the server until there is something new.
static void hear(void) {
    uint32_t fault;
    if (jup_stage(&client, &fault) == JUP_OVER) end_by(fault);
    if (!is_lasting && fed < came) hear_line();
    else step(1, 0);
    send_all();
}

// Greets, and takes the board.
static void open_session(void) {
    uint32_t number, backlog, fault = JUP_OK;
    if (is_lasting) fault = jup_open_lasting(&client, 0);
    else open_single();
    if (fault != JUP_OK) end_by(fault);
    while (stage() != JUP_OPEN) hear();
    jup_site(&client, &number, &backlog);
    printf("site %u\n", number);
    fflush(stdout);
}

// How many bytes the text of a board has at the most: each character or byte of a label takes up to 10 in quotes.
static size_t longest_board(void) {
    size_t all = 65536, widgets;
    uint16_t win;
    jup_widget it;
    for (size_t w = 0; jup_window(&client, w, &win, &widgets) == JUP_OK; w++) {
        for (size_t k = 0; k < widgets && jup_widget_at(&client, w, k, &it) == JUP_OK; k++) {
            all += 64 + (size_t)it.items * (it.kind == JUP_LIST ? 100 : 10);
        }
    }
    return all;
}

static void make_room(size_t wanted) {
    if (wanted <= room) return;
    uint8_t *made = realloc(text, wanted);
    if (made == NULL) end(OUT_OF_MEMORY, "no memory");
    text = made;
    room = wanted;
}

static int is_word(const char *word, const char *line, size_t len) {
    return len == strlen(word) && memcmp(word, line, len) == 0;
}

// Does a line of the user, and returns how many bytes that told.
static size_t do_line(const char *line, size_t len) {
    size_t told;
    make_room(is_word("show", line, len) ? longest_board() : 65536);
    uint32_t fault = jup_ask(&client, (const uint8_t *)line, len, text, room, &told);
    if (fault != JUP_OK) end_by(fault);
    send_all();
    if (is_word("synced\n", (char *)text, told)) {
        while (!jup_is_synced(&client)) hear();
    }
    fwrite(text, 1, told, stdout);
    if (fflush(stdout) != 0) end(IO_FAULT, "io fault");
    return told;
}

// The next line that the user typed, or NULL after the last. A client of a link hears its server meanwhile.
static const char *next_line(size_t *len) {
    static size_t done;
    const char *feed;
    memmove(typed, typed + done, typed_count - done);
    typed_count -= done;
    while ((feed = memchr(typed, '\n', typed_count)) == NULL && !has_typed_all && typed_count < sizeof typed) step(is_lasting && stage() != JUP_OVER, 1);
    *len = feed != NULL ? (size_t)(feed - typed) : typed_count;
    done = feed != NULL ? *len + 1 : typed_count;
    return done > 0 ? typed : NULL;
}

// Reads what the server still sends, so that it gets the last bytes of this end.
static void hang_up(void) {
    long long start = now_ms();
    size_t all = 0;
    struct pollfd ready = { .fd = server, .events = POLLIN };
    if (server < 0) return;
    shutdown(server, SHUT_WR);
    while (all < MOST_LAST && now_ms() - start < 1000 * PATIENCE_S && poll(&ready, 1, SILENCE_MS) > 0) {
        ssize_t count = read(server, coming, sizeof coming);
        if (count <= 0) break;
        all += (size_t)count;
    }
}

static void say_bye(void) {
    uint32_t fault = jup_bye(&client);
    if (fault != JUP_OK) end_by(fault);
    send_all();
    puts("bye");
    fflush(stdout);
}

// Does all lines of the user, up to one that quits.
static void serve_user(void) {
    const char *line;
    size_t len, told = 1;
    while ((line = next_line(&len)) != NULL) {
        told = do_line(line, len);
        if (is_word("bye\n", (char *)text, told)) return;
    }
    if (told == 0) puts("bad command");
    say_bye();
}

int main(int count, char **words) {
    signal(SIGPIPE, SIG_IGN);
    is_lasting = !(count == 4 && strcmp(words[1], "--protocol") == 0 && strcmp(words[2], "3") == 0);
    if (count != 2 && is_lasting) end(USAGE, "usage: client [--protocol 3] HOST:PORT");
    address = words[count - 1];
    open_session();
    serve_user();
    // A link is left once the server has said goodbye too, over as many connections as that takes. To confirm that takes some seconds at the most.
    while (is_lasting && stage() != JUP_OVER) step(1, 0);
    long long over_ms = now_ms();
    while (server >= 0 && gone < go_count && (!is_lasting || now_ms() - over_ms < 1000 * PATIENCE_S)) step(0, 0);
    hang_up();
    jup_close(&client);
    free(text);
    return 0;
}
