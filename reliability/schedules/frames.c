// Clients by WebSockets: the request that opens a link, messages as masked frames, and the frames of a server. RFC 6455 has the rules.
#include "schedules.h"
#include <stdio.h>
#include <string.h>

enum { TEXT = 0x81, CLOSE = 0x88, PING_FRAME = 0x89, PONG_FRAME = 0x8a, MASKED = 0x80, LONG = 126, SHORTEST_LONG = 126, KEY = 4, LONGEST_FRAME = 65535 };

// The key of RFC 6455, section 1.3, and the answer that is due to it.
static const char upgrade[] =
    "GET /ws HTTP/1.1\r\nHost: 127.0.0.1:4999\r\nConnection: Upgrade\r\nUpgrade: websocket\r\nSec-WebSocket-Version: 13\r\nSec-WebSocket-Key: dGhlIHNhbXBsZSBub25jZQ==\r\n\r\n";
static const char accepted[] = "s3pPLMBiTxaQ9kYGzzhZRbK+xOo=";

void put_upgrade(Pipe *to) {
  put_bytes(to, upgrade, sizeof upgrade - 1);
}

// A frame whose key is zero, so that its payload is sent as it is.
static void put_frame(Pipe *to, int first, const char *payload, size_t length) {
  unsigned char head[4 + KEY] = {first, MASKED | (length < SHORTEST_LONG ? length : LONG), length >> 8, length};
  size_t size = length < SHORTEST_LONG ? 2 : 4;
  memset(head + size, 0, KEY);
  put_bytes(to, (char *)head, size + KEY);
  put_bytes(to, payload, length);
}

void put_message(Pipe *to, const char *lines, size_t length) {
  for (; length > LONGEST_FRAME; lines += LONGEST_FRAME, length -= LONGEST_FRAME) put_frame(to, TEXT, lines, LONGEST_FRAME);
  put_frame(to, TEXT, lines, length);
}

// Takes the head of the answer that opens the link.
static const char *take_head(Client *client, bool *is_whole) {
  const char *from = client->unread.bytes + client->unread.from, *end = client->unread.length ? memmem(from, client->unread.length, "\r\n\r\n", 4) : NULL;
  if (!end) return NULL;
  bool is_accepted = memmem(from, end - from, accepted, sizeof accepted - 1) && strncmp(from, "HTTP/1.1 101", 12) == 0;
  take_bytes(&client->unread, NULL, end + 4 - from);
  *is_whole = client->is_upgraded = true;
  return is_accepted ? NULL : "a head that opens no link";
}

void put_ping(Pipe *to) {
  put_frame(to, PING_FRAME, "are you there", 13);
}

static const char *take_payload(Client *client, int first, const char *payload, size_t length) {
  switch (first) {
    case TEXT:
    case TEXT + 1: put_bytes(&client->lines, payload, length); return NULL;
    case PING_FRAME: put_frame(client->lasting ? &client->link->up : &client->unsent, PONG_FRAME, payload, length); return NULL;
    case PONG_FRAME:
    case CLOSE: return NULL;
    default: return "a frame of no kind that a server sends";
  }
}

const char *take_frame(Client *client, bool *is_whole) {
  *is_whole = false;
  if (!client->is_upgraded) return take_head(client, is_whole);
  const unsigned char *from = (unsigned char *)client->unread.bytes + client->unread.from;
  size_t held = client->unread.length;
  if (held < 2) return NULL;
  size_t head = from[1] < LONG ? 2 : from[1] == LONG ? 4 : 10, length = from[1];
  if (held < head) return NULL;
  if (head == 4) length = from[2] << 8 | from[3];
  if (head == 10) length = (size_t)from[6] << 24 | from[7] << 16 | from[8] << 8 | from[9];
  if (held < head + length) return NULL;
  const char *wrong = take_payload(client, from[0], (const char *)from + head, length);
  take_bytes(&client->unread, NULL, head + length);
  *is_whole = true;
  return wrong;
}
