// Sockets as pipes in memory, and the program's calls on them. Reads and writes may take less than all, and wait while a pipe is empty or full.
#include "schedules.h"
#include <arpa/inet.h>
#include <errno.h>
#include <fcntl.h>
#include <netinet/in.h>
#include <stdio.h>
#include <stdlib.h>
#include <string.h>
#include <sys/ioctl.h>
#include <sys/socket.h>
#include <sys/syscall.h>
#include <sys/time.h>

// Descriptors of the simulation are numbers that the system gives nobody here.
enum { FIRST = 1000, MOST_DESCRIPTORS = 4096, FIRST_PORT = 40000 };

typedef enum { SHUT_DESCRIPTOR, LISTENER, NEW_SOCKET, LINK } Kind;

size_t link_room;
bool is_listening, has_listened, has_accepted;
unsigned accept_odds, send_odds;

static struct {
  Kind kind;
  Link *link;
} descriptors[MOST_DESCRIPTORS];
static int descriptor_count, listener_handles;
static Link links[MOST_LINKS], *opened;
static int link_count, first_waiting, waiting[MOST_LINKS], waiting_count;
static struct sockaddr_in listens_at;

void begin_links(void) {
  static const size_t rooms[] = {64, 512, 4096, 65536};
  link_room = rooms[draw(&of_schedule, 4)];
}

// ---- pipes and links, as clients see them ----

void put_bytes(Pipe *pipe, const char *from, size_t length) {
  if (pipe->from + pipe->length + length > pipe->room) {
    if (pipe->from) memmove(pipe->bytes, pipe->bytes + pipe->from, pipe->length);
    pipe->from = 0;
    if (pipe->length + length > pipe->room) pipe->bytes = realloc(pipe->bytes, pipe->room = 2 * (pipe->length + length));
  }
  memcpy(pipe->bytes + pipe->from + pipe->length, from, length);
  pipe->length += length;
}

size_t take_bytes(Pipe *pipe, char *to, size_t most) {
  size_t taken = most < pipe->length ? most : pipe->length;
  if (to) memcpy(to, pipe->bytes + pipe->from, taken);
  pipe->length -= taken;
  pipe->from = pipe->length ? pipe->from + taken : 0;
  return taken;
}

// Links have numbers, in the order in which they were made.
static int link_number(const Link *link) {
  return (int)(link - links);
}

static Link *new_link(void) {
  if (link_count == MOST_LINKS) give_up("FAIL", "more links than the library has room for");
  links[link_count] = (Link){.sizes = stream_of(1000 + link_count)};
  return &links[link_count++];
}

Link *connect_link(void) {
  Link *link = new_link();
  waiting[waiting_count++] = link_number(link);
  return link;
}

Link *opened_link(void) {
  return opened;
}

bool has_connection(void) {
  return first_waiting < waiting_count || !is_listening;
}

bool can_receive(const Link *link) {
  return link->up.length || link->is_client_shut || link->is_receiving_shut || link->is_reset;
}

bool can_send(const Link *link) {
  return link->down.length < link_room || link->is_sending_shut || link->is_reset;
}

void reset_link(Link *link) {
  link->is_reset = true;
  link->up.length = link->down.length = 0;
}

bool has_ended(const Link *link) {
  bool is_closed = link->handles == 0 && (link->is_accepted || !is_listening);
  return link->is_reset || ((link->is_sending_shut || is_closed) && link->down.length == 0);
}

// ---- descriptors ----

static Link *link_at(int descriptor) {
  int at = descriptor - FIRST;
  return at >= 0 && at < descriptor_count && descriptors[at].kind == LINK ? descriptors[at].link : NULL;
}

bool is_simulated(int descriptor) {
  return is_running && descriptor >= FIRST && descriptor < FIRST + descriptor_count;
}

static bool is_listener(int descriptor) {
  return is_simulated(descriptor) && descriptors[descriptor - FIRST].kind == LISTENER;
}

static int new_descriptor(Kind kind, Link *link) {
  if (descriptor_count == MOST_DESCRIPTORS) give_up("FAIL", "more descriptors than the library has room for");
  descriptors[descriptor_count].kind = kind;
  descriptors[descriptor_count].link = link;
  if (link) link->handles++;
  if (kind == LISTENER) listener_handles++;
  return FIRST + descriptor_count++;
}

static int fails(int error) {
  errno = error;
  return -1;
}

// ---- the program's calls to listen, to connect and to accept ----

int socket(int domain, int type, int protocol) {
  if (!is_running) return (int)system_call(SYS_socket, domain, type, protocol, 0, 0, 0);
  return new_descriptor(NEW_SOCKET, NULL);
}

int bind(int descriptor, const struct sockaddr *address, socklen_t size) {
  if (!is_simulated(descriptor)) return (int)system_call(SYS_bind, descriptor, (long)address, size, 0, 0, 0);
  memcpy(&listens_at, address, size < sizeof listens_at ? size : sizeof listens_at);
  if (listens_at.sin_port == 0) listens_at.sin_port = htons(FIRST_PORT - 1);
  return 0;
}

int listen(int descriptor, int backlog) {
  if (!is_simulated(descriptor)) return (int)system_call(SYS_listen, descriptor, backlog, 0, 0, 0, 0);
  descriptors[descriptor - FIRST].kind = LISTENER;
  listener_handles++;
  is_listening = has_listened = true;
  point("listens");
  return 0;
}

int getsockname(int descriptor, struct sockaddr *address, socklen_t *size) {
  if (!is_simulated(descriptor)) return (int)system_call(SYS_getsockname, descriptor, (long)address, (long)size, 0, 0, 0);
  memcpy(address, &listens_at, *size < sizeof listens_at ? *size : sizeof listens_at);
  *size = sizeof listens_at;
  return 0;
}

int connect(int descriptor, const struct sockaddr *address, socklen_t size) {
  if (!is_simulated(descriptor)) return (int)system_call(SYS_connect, descriptor, (long)address, size, 0, 0, 0);
  descriptors[descriptor - FIRST].kind = LINK;
  descriptors[descriptor - FIRST].link = opened = new_link();
  opened->handles++;
  opened->is_accepted = has_accepted = true;
  point("connects");
  return 0;
}

int accept4(int descriptor, struct sockaddr *address, socklen_t *size, int flags) {
  if (!is_simulated(descriptor)) return (int)system_call(SYS_accept4, descriptor, (long)address, (long)size, flags, 0, 0);
  point("accepts");
  if (!has_connection()) block(ACCEPTING, NEVER);
  if (!is_listening) return fails(EINVAL);
  if (accept_odds && draw(&of_faults, accept_odds) == 0) {
    note(me, "the accept fails");
    return fails(EMFILE);
  }
  Link *link = &links[waiting[first_waiting++]];
  link->is_accepted = has_accepted = true;
  if (address) {
    struct sockaddr_in peer = listens_at;
    peer.sin_port = htons(FIRST_PORT + link_number(link));
    memcpy(address, &peer, *size < sizeof peer ? *size : sizeof peer);
    *size = sizeof peer;
  }
  note(me, "accepted link %d", link_number(link));
  return new_descriptor(LINK, link);
}

int setsockopt(int descriptor, int level, int name, const void *value, socklen_t size) {
  if (!is_simulated(descriptor)) return (int)system_call(SYS_setsockopt, descriptor, level, name, (long)value, size, 0);
  Link *link = link_at(descriptor);
  if (!link || level != SOL_SOCKET || (name != SO_RCVTIMEO && name != SO_SNDTIMEO)) return 0;
  const struct timeval *limit = value;
  *(name == SO_RCVTIMEO ? &link->receive_timeout : &link->send_timeout) = limit->tv_sec * 1000000000ll + limit->tv_usec * 1000ll;
  return 0;
}

// ---- the program's reads and writes ----

ssize_t receive(int descriptor, void *to, size_t most) {
  Link *link = link_at(descriptor);
  if (!link) return fails(EBADF);
  point("receives of link %d", link_number(link));
  int64_t until = link->receive_timeout ? now + link->receive_timeout : NEVER;
  while (!can_receive(link)) {
    if (link->is_nonblocking || (until != NEVER && now >= until)) {
      note(me, "nothing came of link %d", link_number(link));
      return fails(EAGAIN);
    }
    me->link = link;
    block(RECEIVING, until);
  }
  if (link->is_reset && !link->is_reset_told) {
    link->is_reset_told = true;
    note(me, "link %d was reset", link_number(link));
    return fails(ECONNRESET);
  }
  size_t length = link->up.length < most ? link->up.length : most;
  if (length > 1 && draw(&link->sizes, 4) == 0) length = 1 + draw(&link->sizes, length);
  if (link->is_receiving_shut && link->up.length == 0) length = 0;
  take_bytes(&link->up, to, length);
  note(me, "received %zu of link %d", length, link_number(link));
  return length;
}

// Whether a write can go on, after a wait if it has to. 0, or the number of an error.
static int wait_to_send(Link *link, int64_t until) {
  while (!can_send(link)) {
    if (link->is_nonblocking || (until != NEVER && now >= until)) return EAGAIN;
    me->link = link;
    block(SENDING, until);
  }
  if (link->is_reset) return link->is_reset_told ? EPIPE : ECONNRESET;
  return link->is_sending_shut ? EPIPE : 0;
}

ssize_t transmit(int descriptor, const void *from, size_t length) {
  Link *link = link_at(descriptor);
  if (!link) return fails(EBADF);
  point("sends %zu to link %d", length, link_number(link));
  if (send_odds && draw(&of_faults, send_odds) == 0) reset_link(link);
  int64_t until = link->send_timeout ? now + link->send_timeout : NEVER;
  size_t sent = 0;
  int error = 0;
  while (sent < length && !(error = wait_to_send(link, until))) {
    size_t room = link_room - link->down.length, part = room < length - sent ? room : length - sent;
    put_bytes(&link->down, (const char *)from + sent, part);
    sent += part;
    if (draw(&link->sizes, 8) == 0) break; // a write that takes less than all
  }
  if (sent == 0 && error) {
    note(me, "sent nothing to link %d: %d", link_number(link), error);
    if (error == ECONNRESET) link->is_reset_told = true;
    return fails(error);
  }
  // The peer may take what was sent, and answer, before the call returns.
  point("sent %zu to link %d", sent, link_number(link));
  return sent;
}

ssize_t recv(int descriptor, void *to, size_t most, int flags) {
  return is_simulated(descriptor) ? receive(descriptor, to, most) : system_call(SYS_recvfrom, descriptor, (long)to, most, flags, 0, 0);
}

ssize_t send(int descriptor, const void *from, size_t length, int flags) {
  return is_simulated(descriptor) ? transmit(descriptor, from, length) : system_call(SYS_sendto, descriptor, (long)from, length, flags, 0, 0);
}

// ---- the program's calls that end or change what a descriptor is for ----

int shutdown(int descriptor, int side) {
  if (!is_simulated(descriptor)) return (int)system_call(SYS_shutdown, descriptor, side, 0, 0, 0, 0);
  Link *link = link_at(descriptor);
  point("shuts %s %d", link ? "link" : "the listener", link ? link_number(link) : side);
  if (!link) {
    is_listening = false;
    return 0;
  }
  if (link->is_reset) return fails(ENOTCONN);
  link->is_sending_shut |= side != SHUT_RD;
  link->is_receiving_shut |= side != SHUT_WR;
  return 0;
}

int close_simulated(int descriptor) {
  Link *link = link_at(descriptor);
  point("closes %s %d", link ? "link" : "the listener", link ? link_number(link) : 0);
  bool is_last_listener = is_listener(descriptor) && --listener_handles == 0;
  descriptors[descriptor - FIRST].kind = SHUT_DESCRIPTOR;
  if (is_last_listener) is_listening = false;
  // A socket that is closed with bytes unread is reset.
  if (link && --link->handles == 0 && link->up.length) reset_link(link);
  return 0;
}

int control_simulated(int descriptor, int command, long argument) {
  Link *link = link_at(descriptor);
  switch (command) {
    case F_DUPFD:
    case F_DUPFD_CLOEXEC: return new_descriptor(descriptors[descriptor - FIRST].kind, link);
    case F_SETFL:
      if (link) link->is_nonblocking = argument & O_NONBLOCK;
      return 0;
    case FIONBIO:
      if (link) link->is_nonblocking = *(const int *)argument;
      return 0;
    default: return 0;
  }
}
