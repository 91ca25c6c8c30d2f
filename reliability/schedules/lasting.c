// Links of protocol 4, as their clients see them. A client keeps the lines of both ways, so that it can go on over another connection, and tests what
// comes by docs/WIRE.md: "Links that outlive their connections".
#include "schedules.h"
#include <stdarg.h>
#include <stdio.h>
#include <stdlib.h>
#include <string.h>

enum { CONFIRMS_FROM = 64, LONGEST_NOTE = 64, TOKEN = 32 };

static const int64_t A_SECOND = 1000ll * MILLISECOND;
// A client confirms again after so long without a byte of its own. So long no server is silent: it may be if the client waits for an answer, or for nothing.
static const int64_t QUIET = 60000ll * MILLISECOND, LONGEST_ANSWER = 10000ll * MILLISECOND, LONGEST_SILENCE = 90000ll * MILLISECOND;
// So long after the last byte of a connection, and then some seconds of grace, its link is over at the latest.
static const int64_t LONGEST_UNNOTICED = 185000ll * MILLISECOND;
// For so long the server keeps the count of a link that is over.
static const int64_t A_DAY = 86400000ll * MILLISECOND;

// How a connection breaks: with all that is on its way, after what the client has sent, without a sign, or so that its bytes come late.
typedef enum { BY_RESET, BY_END, SILENTLY, LATE_BYTES } Break;

static const char *const breaks[] = {"reset", "end", "silent", "late"};

// Where a client is with its connection.
typedef enum { GREETS, RESUMES, IS_CARRIED, HAS_NONE, IS_OVER } Stage;

// A line that the client has put on the way up, and how many edits and insertions are whole with it.
typedef struct {
  char *text;
  bool ends_message;
  long edits, insertions;
} PutLine;

struct Lasting {
  Stage stage;
  char token[TOKEN + 1];
  long seconds;
  PutLine *put;
  char **taken;
  long put_count, put_room, taken_count, taken_room;
  int left;       // how many lines of its last edit are not put yet
  long place;     // up to which line of the way down the connection has come
  long told;      // how many lines the client has confirmed
  long told_here; // the same, of this connection, or with how many it began
  long step;      // after how many lines it confirms
  long confirmed; // how many lines the server has confirmed, or how many had their effect
  long written;   // how many lines of the way up were written to this connection, and before it began
  char first;     // the first letter of the line that is being written, or 0
  bool is_held;   // whether the client connects again only by a command
  bool has_run_out, is_forgotten;
  long cuts, span; // how often its connection still breaks, and within how many microseconds each time
  int64_t cuts_at, lost_at, left_at, connects_at, handed_at, heard_at, asked_at, late_at;
  Link *older; // a connection that is given up, and whose bytes come late
  Pipe late;
};

Lasting *new_lasting(void) {
  Lasting *it = calloc(1, sizeof *it);
  it->step = CONFIRMS_FROM;
  it->cuts_at = it->left_at = NEVER;
  it->handed_at = it->heard_at = now;
  return it;
}

// ---- what both ways hold ----

static void *with_room(void *items, long count, long *room, size_t size) {
  return count < *room ? items : realloc(items, (*room = 2 * *room + 64) * size);
}

static void put_line(Lasting *it, const char *text, size_t length) {
  char deed[8] = "";
  int operations;
  it->put = with_room(it->put, it->put_count, &it->put_room, sizeof *it->put);
  PutLine line = it->put_count ? it->put[it->put_count - 1] : (PutLine){0};
  line.text = strndup(text, length);
  if (sscanf(line.text, "batch %*d %*d %d", &operations) == 1) {
    it->left = operations;
  } else if (it->left) {
    line.insertions += sscanf(line.text, "do %*d %*d %*s %7s", deed) == 1 && strcmp(deed, "ins") == 0;
    line.edits += --it->left == 0;
  }
  if (strcmp(line.text, "bye\n") == 0) it->left_at = now;
  if (line.text[0] == 'p' || line.text[0] == 'b') it->asked_at = now;
  line.ends_message = it->left == 0;
  it->put[it->put_count++] = line;
}

void put_on_link(Client *client, const char *text, size_t length) {
  Lasting *it = client->lasting;
  // After its `bye` a client puts nothing more.
  if (it->left_at != NEVER) return;
  for (const char *from = text, *end; (end = memchr(from, '\n', text + length - from)); from = end + 1) put_line(it, from, end + 1 - from);
  if (it->stage == IS_CARRIED) put_bytes(&client->unsent, text, length);
}

// ---- notes ----

__attribute__((format(printf, 2, 3))) static void say_note(Client *client, const char *form, ...) {
  char text[LONGEST_NOTE];
  va_list given;
  va_start(given, form);
  put_bytes(&client->unsent, text, vsnprintf(text, sizeof text, form, given));
  va_end(given);
}

static void confirm(Client *client) {
  Lasting *it = client->lasting;
  say_note(client, "got %ld\n", it->place);
  it->told = it->told_here = it->place;
}

void greet_by_note(Client *client) {
  client->lasting = new_lasting();
  say_note(client, "hello 4\n");
}

// Whether the server may have taken so many lines for good: whole messages, and no fewer than before.
static bool is_of_messages(const Lasting *it, long count) {
  return count >= it->confirmed && count <= it->put_count && (count == 0 || it->put[count - 1].ends_message);
}

static const char *take_link(Client *client, const char *line, bool *is_next) {
  Lasting *it = client->lasting;
  it->stage = strncmp(line, "error ", 6) ? IS_CARRIED : IS_OVER;
  *is_next = it->stage == IS_OVER;
  bool is_link = sscanf(line, "link %32[0-9a-f] %ld", it->token, &it->seconds) == 2 && strlen(it->token) == TOKEN;
  return is_link || *is_next ? NULL : "a line that answers no greeting";
}

// The link goes on: the client sends all that the server has not taken.
static const char *take_resumed(Client *client, long count) {
  Lasting *it = client->lasting;
  if (count < it->confirmed || count > it->put_count) return "a `resumed` with a count that the server cannot have";
  if (now - it->lost_at > it->seconds * A_SECOND + LONGEST_UNNOTICED) return "a link that goes on long after its grace";
  it->stage = IS_CARRIED;
  it->written = count;
  confirm(client);
  for (long k = count; k < it->put_count; k++) put_bytes(&client->unsent, it->put[k].text, strlen(it->put[k].text));
  return NULL;
}

// Whether the link has waited for long enough: since it was carried, or since the server may have written its last line.
static bool may_have_run_out(const Client *client) {
  const Lasting *it = client->lasting;
  int64_t since = it->left_at != NEVER && it->left_at < it->lost_at ? it->left_at : it->lost_at;
  return !is_open(client->site) || now - since >= it->seconds * A_SECOND;
}

// Only what the server counts had an effect.
static const char *take_ended(Client *client, long count) {
  Lasting *it = client->lasting;
  if (!is_of_messages(it, count)) return "an `ended` with a count that the server cannot have";
  if (!may_have_run_out(client)) return "a link that ends before its grace is over";
  if (now - it->lost_at > it->seconds * A_SECOND + LONGEST_UNNOTICED + A_DAY) return "a count that is kept for longer than a day";
  it->stage = IS_OVER;
  it->confirmed = count;
  it->has_run_out = true;
  client->has_bye = it->left_at != NEVER && count == it->put_count;
  client->link->is_client_shut = true;
  return NULL;
}

// A day after that the server knows no more of the link.
static const char *take_no_link(Client *client) {
  Lasting *it = client->lasting;
  if (now - it->lost_at + MILLISECOND < it->seconds * A_SECOND + A_DAY) return "a link that is forgotten within a day";
  it->stage = IS_OVER;
  it->has_run_out = it->is_forgotten = true;
  client->link->is_client_shut = true;
  return NULL;
}

static const char *take_answer(Client *client, const char *line) {
  long count;
  if (sscanf(line, "resumed %ld", &count) == 1) return take_resumed(client, count);
  if (sscanf(line, "ended %ld", &count) == 1) return take_ended(client, count);
  if (strcmp(line, "error 35") == 0) return take_no_link(client);
  if (strcmp(line, "error 8")) return "a `resume` is refused";
  break_connection(client, NULL);
  return NULL;
}

static const char *take_got(Lasting *it, long count) {
  if (!is_of_messages(it, count) || count > it->written) return "a `got` with a count that the server cannot have";
  it->confirmed = count;
  return NULL;
}

// The last line of the link came. The client confirms it, and writes nothing else but the rest of the line that it has begun.
static const char *end_link(Client *client, const char *line) {
  Lasting *it = client->lasting;
  const char *from = client->unsent.bytes + client->unsent.from, *end = it->first ? memchr(from, '\n', client->unsent.length) : NULL;
  client->unsent.length = end ? end + 1 - from : 0;
  confirm(client);
  it->stage = IS_OVER;
  bool is_answered = it->put_count && strcmp(it->put[it->put_count - 1].text, "bye\n") == 0;
  // A server that stops says `bye` by itself, after what it took.
  if (!is_answered && may_be_lost) return NULL;
  return strcmp(line, "bye") || it->confirmed == it->put_count ? NULL : "a `bye` before all is confirmed";
}

// A line that comes again is the same line. The others are for the site.
static const char *take_line_of_link(Client *client, const char *line, bool *is_next) {
  Lasting *it = client->lasting;
  *is_next = it->place == it->taken_count;
  if (*is_next) {
    it->taken = with_room(it->taken, it->taken_count, &it->taken_room, sizeof *it->taken);
    it->taken[it->taken_count++] = strdup(line);
  }
  if (strcmp(line, it->taken[it->place++])) return "a line that comes again is another one";
  if (strcmp(line, "bye") == 0 || strncmp(line, "error ", 6) == 0) return end_link(client, line);
  if (it->place - it->told_here >= it->step) confirm(client);
  return NULL;
}

const char *take_carried(Client *client, const char *line, bool *is_next) {
  Lasting *it = client->lasting;
  long count;
  *is_next = false;
  switch (it->stage) {
    case GREETS: return take_link(client, line, is_next);
    case RESUMES: return take_answer(client, line);
    case IS_CARRIED: return sscanf(line, "got %ld", &count) == 1 ? take_got(it, count) : take_line_of_link(client, line, is_next);
    case HAS_NONE: return NULL;
    case IS_OVER: return "a line after the last";
  }
  return NULL;
}

// When a pong comes, the star has taken all that its client sent before the ping before it. Of this the server has confirmed all but 63 lines.
const char *test_confirmed(const Client *client, long pong) {
  const Lasting *it = client->lasting;
  char ping[LONGEST_NOTE];
  long at = it->put_count;
  snprintf(ping, sizeof ping, "ping %ld\n", pong - 1);
  while (at > 0 && strcmp(it->put[at - 1].text, ping)) at--;
  return at - it->confirmed < CONFIRMS_FROM ? NULL : "a `got` that is due did not come";
}

// ---- connections that break ----

// How long something of a connection takes: nothing, up to a thousand calls of the program, or up to a second.
static int64_t draw_wait(Client *client) {
  switch (draw(&client->draws, 3)) {
    case 0: return 0;
    case 1: return 1000 * (int64_t)draw(&client->draws, 1000);
    default: return MILLISECOND * (int64_t)draw(&client->draws, 1000);
  }
}

// The bytes of a connection that was given up come late.
static void come_late(Client *client) {
  Lasting *it = client->lasting;
  it->older = client->link;
  it->late = client->unsent;
  it->late_at = now + draw_wait(client);
  client->unsent = (Pipe){0};
}

static void end_by(Client *client, Break how) {
  switch (how) {
    case BY_RESET: return reset_link(client->link);
    case BY_END: client->link->is_client_shut = true; return;
    case SILENTLY: return;
    case LATE_BYTES: return come_late(client);
  }
}

// The connection breaks once more: mostly soon, and now and then later.
static void draw_next_cut(Client *client) {
  Lasting *it = client->lasting;
  it->cuts_at = NEVER;
  if (it->cuts-- > 0) it->cuts_at = now + 1000 * (int64_t)draw(&client->draws, draw(&client->draws, 2) ? it->span : it->span / 16 + 1);
}

void break_connection(Client *client, const char *how) {
  Lasting *it = client->lasting;
  int drawn = (int)draw(&client->draws, 4);
  for (int k = 0; how && k < 4; k++)
    if (strcmp(breaks[k], how) == 0) drawn = k;
  if (it->stage == IS_CARRIED) it->lost_at = now;
  if (it->stage != IS_OVER) it->stage = HAS_NONE;
  if (client->link) {
    note(client->task, "breaks its connection: %s", breaks[drawn]);
    end_by(client, drawn);
  }
  client->link = NULL;
  client->unsent.length = client->lines.length = client->unread.length = 0;
  client->is_upgraded = false;
  it->first = 0;
  it->connects_at = now + draw_wait(client);
}

void hold_connection(Client *client) {
  client->lasting->is_held = true;
}

void begin_cuts(Client *client, long count, long span) {
  client->lasting->cuts = count;
  client->lasting->span = span;
  draw_next_cut(client);
}

void confirm_after(Client *client, long lines) {
  client->lasting->step = lines;
}

// Connects again, and goes on from the last line that the client has taken, or from an earlier one that it has not confirmed.
void resume_link(Client *client) {
  Lasting *it = client->lasting;
  if (it->stage == IS_OVER) return;
  it->stage = RESUMES;
  it->is_held = false;
  it->place = it->told_here = draw(&client->draws, 2) ? it->taken_count : it->told + (long)draw(&client->draws, it->taken_count - it->told + 1);
  it->handed_at = it->heard_at = it->asked_at = now;
  client->link = connect_link();
  client->unread.length = 0;
  client->is_upgraded = false;
  if (client->is_browser) put_upgrade(&client->link->up);
  say_note(client, "resume %s %ld\n", it->token, it->place);
  draw_next_cut(client);
}

// ---- what a client does beside its commands ----

static bool is_late_due(const Lasting *it) {
  return it->late.length && now >= it->late_at && (it->older->up.length < link_room || it->older->is_reset);
}

static bool is_cut_due(const Lasting *it) {
  return it->cuts_at != NEVER && now >= it->cuts_at;
}

static bool is_connection_due(const Lasting *it) {
  return it->stage == HAS_NONE && !it->is_held && now >= it->connects_at;
}

bool finds_nobody(const Client *client) {
  return is_connection_due(client->lasting) && !is_listening;
}

static bool is_got_due(const Client *client) {
  return client->lasting->stage == IS_CARRIED && !client->is_stalled && now >= client->lasting->handed_at + QUIET;
}

// When the server has to have said something, or NEVER.
static int64_t end_of_silence(const Client *client) {
  const Lasting *it = client->lasting;
  if (!client->link || it->stage == IS_OVER || client->is_stalled || client->is_deaf) return NEVER;
  bool has_asked = it->stage != IS_CARRIED || client->pings > client->pongs || it->left_at != NEVER;
  int64_t since = has_asked && it->asked_at > it->heard_at ? it->asked_at : it->heard_at;
  return since + (has_asked ? LONGEST_ANSWER : LONGEST_SILENCE);
}

bool is_unanswered(const Client *client) {
  int64_t end = end_of_silence(client);
  return end != NEVER && now >= end && client->link->down.length == 0 && !has_ended(client->link);
}

static bool is_broken(const Client *client) {
  const Lasting *it = client->lasting;
  return client->link && it->stage != IS_OVER && it->stage != GREETS && client->link->down.length == 0 && has_ended(client->link);
}

// The server may have ended, if the link may be over.
void meet_nobody(Client *client) {
  client->lasting->has_run_out |= may_have_run_out(client);
}

bool has_to_tend(const Client *client) {
  const Lasting *it = client->lasting;
  return is_unanswered(client) || is_late_due(it) || is_cut_due(it) || is_connection_due(it) || is_got_due(client) || is_broken(client);
}

static void bring_late_bytes(const Client *client) {
  Lasting *it = client->lasting;
  size_t length = it->late.length < link_room ? it->late.length : link_room;
  if (!it->older->is_reset && !(it->older->is_accepted && it->older->handles == 0)) put_sent(client, it->older, it->late.bytes + it->late.from, length);
  take_bytes(&it->late, NULL, length);
}

static void cut_now(Client *client) {
  Lasting *it = client->lasting;
  it->cuts_at = NEVER;
  if (client->link) break_connection(client, NULL);
}

void tend(Client *client) {
  Lasting *it = client->lasting;
  if (is_late_due(it)) bring_late_bytes(client);
  else if (is_cut_due(it)) cut_now(client);
  else if (is_broken(client)) break_connection(client, "end");
  else if (is_got_due(client)) confirm(client), it->handed_at = now;
  else resume_link(client);
}

static int64_t earlier(int64_t one, int64_t other) {
  return one == NEVER || (other != NEVER && other < one) ? other : one;
}

int64_t next_tending_of(const Client *client) {
  const Lasting *it = client->lasting;
  int64_t next = earlier(it->cuts_at, it->late.length && now < it->late_at ? it->late_at : NEVER);
  if (it->stage == HAS_NONE && !it->is_held) next = earlier(next, it->connects_at);
  if (it->stage == IS_CARRIED && !client->is_stalled) next = earlier(next, it->handed_at + QUIET);
  return earlier(next, end_of_silence(client));
}

// ---- what it has written and heard ----

void note_written(Client *client, const char *bytes, size_t length) {
  Lasting *it = client->lasting;
  it->handed_at = now;
  for (size_t k = 0; k < length; k++) {
    if (!it->first) it->first = bytes[k];
    if (bytes[k] != '\n') continue;
    // `got`, `resume` and `hello` are no lines of the link.
    it->written += !strchr("grh", it->first);
    it->first = 0;
  }
  if (it->stage == IS_OVER && client->unsent.length == length) client->link->is_client_shut = true;
}

void note_heard(Client *client) {
  client->lasting->heard_at = now;
}

// The client's own last `got` has been sent, unless nobody takes it.
bool is_link_over(const Client *client) {
  const Link *link = client->link;
  bool may_end = client->lasting->stage == IS_OVER || client->lasting->stage == GREETS;
  bool is_sent = !client->unsent.length || !link || link->is_reset || link->handles == 0;
  return may_end && is_sent && (!link || (has_ended(link) && link->down.length == 0));
}

bool has_run_out(const Client *client) {
  return client->lasting && client->lasting->has_run_out;
}

// ---- what had its effect ----

static const PutLine *last_with_effect(const Client *client) {
  const Lasting *it = client->lasting;
  return it->confirmed ? &it->put[it->confirmed - 1] : NULL;
}

bool is_effect_known(const Client *client) {
  const Lasting *it = client->lasting;
  return (it->stage == IS_OVER && !it->is_forgotten) || it->stage == GREETS;
}

long edits_with_effect(const Client *client) {
  const PutLine *last = last_with_effect(client);
  return last ? last->edits : 0;
}

long edits_put(const Client *client) {
  const Lasting *it = client->lasting;
  return it->put_count ? it->put[it->put_count - 1].edits : 0;
}

long insertions_with_effect(const Client *client) {
  const PutLine *last = last_with_effect(client);
  return last ? last->insertions : 0;
}
