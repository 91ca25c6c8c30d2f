// What clients do: they connect, edit, hear, wait for one another, and misbehave, as a scenario says. A client is a task. In a step it sends a part of what
// it has to send, takes the lines that have come, or goes on with its command.
#include "schedules.h"
#include <stdio.h>
#include <stdlib.h>
#include <string.h>
#include <sys/syscall.h>

enum { MOST_WAITING = 1024, MOST_MEETINGS = 64, LONGEST_LINE = 256, POURED_AT_A_TIME = 500, MOST_EDITS = 16777216 };

Client *new_client(const char *name) {
  Client *client = calloc(1, sizeof *client);
  client->task = new_task(client);
  client->name = strdup(name);
  client->until = NEVER;
  client->draws = stream_of(10 + client->task->id);
  return client;
}

bool has_finished(const Client *client) {
  return client->at >= client->count || client->is_lost;
}

static const Command *command_of(const Client *client) {
  return &client->commands[client->at];
}

// ---- meetings ----

static struct {
  const char *name;
  int come;
} meetings[MOST_MEETINGS];
static int meeting_count;

static int *who_has_come(const char *name) {
  int at = 0;
  while (at < meeting_count && strcmp(meetings[at].name, name)) at++;
  if (at == MOST_MEETINGS) give_up("FAIL", "more meetings than the library has room for");
  if (at == meeting_count) meetings[meeting_count++].name = name;
  return &meetings[at].come;
}

// ---- how a client fails ----

_Noreturn static void fail(const Client *client, const char *why) {
  char text[LONGEST_LINE + 128];
  snprintf(text, sizeof text, "client %s, line %d of the scenario: %s", client->name, has_finished(client) ? 0 : command_of(client)->line, why);
  give_up("FAIL", text);
}

// The link has ended early. The client ends it too, and waits until the program has closed it: until then the program may still take what was sent.
static void lose(Client *client, const char *why) {
  bool has_to_last = do_links_last && client->lasting && is_open(client->site);
  if ((!may_be_lost || has_to_last) && !has_run_out(client)) fail(client, why);
  note(client->task, "loses its link: %s", why);
  client->unsent.length = 0;
  client->is_losing = true;
  if (client->link) client->link->is_client_shut = true;
}

static bool is_closed(const Client *client) {
  return !client->link || (client->link->handles == 0 && (client->link->is_accepted || !is_listening));
}

// Others do not wait for a client that is lost at the meetings that it would have come to.
static void be_lost(Client *client) {
  note(client->task, "is lost");
  for (int k = client->at; k < client->count; k++)
    if (client->commands[k].verb == MEET && !(k == client->at && client->has_begun)) ++*who_has_come(client->commands[k].text);
  client->is_lost = true;
}

// ---- sending ----

void say(Client *client, const char *text, size_t length) {
  if (client->lasting) put_on_link(client, text, length);
  else if (client->is_browser) put_message(&client->unsent, text, length);
  else put_bytes(&client->unsent, text, length);
}

static void say_line(Client *client, const char *text) {
  say(client, text, strlen(text));
}

static bool can_flush(const Client *client) {
  // A browser sends nothing of a link of protocol 4 before its WebSocket is open.
  bool is_open = !client->lasting || !client->is_browser || client->is_upgraded;
  return client->link && is_open && client->unsent.length && client->link->up.length < link_room && !client->is_stalled;
}

// What is sent of a link of protocol 4 through a WebSocket is a message, wherever its lines begin and end.
void put_sent(const Client *client, Link *link, const char *from, size_t length) {
  if (client->lasting && client->is_browser) put_message(&link->up, from, length);
  else put_bytes(&link->up, from, length);
}

static void flush(Client *client) {
  size_t room = link_room - client->link->up.length, length = client->unsent.length < room ? client->unsent.length : room;
  if (length > 1 && draw(&client->draws, 8) == 0) length = 1 + draw(&client->draws, length);
  if (client->lasting) note_written(client, client->unsent.bytes + client->unsent.from, length);
  // What is sent to a program that has ended its link goes nowhere.
  if (!client->link->is_reset && !(client->link->is_accepted && client->link->handles == 0)) put_sent(client, client->link, client->unsent.bytes + client->unsent.from, length);
  take_bytes(&client->unsent, NULL, length);
  note(client->task, "sends %zu", length);
}

static void edit(Client *client, int operations, bool is_of_settings) {
  Pipe lines = {0};
  make_edit(client->site, operations, is_of_settings, &lines);
  say(client, lines.bytes, lines.length);
  free(lines.bytes);
}

static void ping(Client *client) {
  char line[32];
  snprintf(line, sizeof line, "ping %ld\n", ++client->pings);
  say_line(client, line);
}

// ---- taking lines ----

static bool has_line(const Client *client) {
  return client->lines.length && memchr(client->lines.bytes + client->lines.from, '\n', client->lines.length);
}

// Whether a client without a copy of the board waits for lines. It takes them one after the other, so that none passes a command that expects it.
static bool expects(const Client *client) {
  Verb verb = command_of(client)->verb;
  return (verb == EXPECT && !client->has_expected) || verb == HELLO || verb == GONE || verb == REFUSED || verb == CLOSED || verb == PAUSE;
}

static bool can_take(const Client *client) {
  if (!client->link || client->is_stalled || client->is_deaf) return false;
  return client->site ? client->link->down.length : expects(client) && (client->link->down.length || has_line(client));
}

static void take_pong(Client *client, long number) {
  if (number != ++client->pongs) fail(client, "a pong that is not the next");
  const char *wrong = client->lasting ? test_confirmed(client, number) : NULL;
  if (wrong) fail(client, wrong);
}

// Takes a line that ends a link or answers a ping. False if it is another line.
static bool take_ending(Client *client, const char *line) {
  long number;
  if (sscanf(line, "pong %ld", &number) == 1) {
    take_pong(client, number);
    return true;
  }
  if (strcmp(line, "bye") == 0) return client->has_bye = true;
  if (sscanf(line, "error %d", &client->error) != 1) return false;
  if (client->lasting) return true;
  // A client whose session has failed ends its link. One that expects the error waits for the server to do so.
  Verb verb = has_finished(client) ? GONE : command_of(client)->verb;
  client->unsent.length = 0;
  client->link->is_client_shut = verb != REFUSED && verb != SPEND;
  return true;
}

// Whether a line is the next one of a link of protocol 4.
static bool is_next_of_link(Client *client, const char *line) {
  bool is_next;
  const char *wrong = take_carried(client, line, &is_next);
  if (wrong) fail(client, wrong);
  return is_next;
}

static void take(Client *client, const char *line) {
  note(client->task, "takes %.60s", line);
  if (client->lasting && !is_next_of_link(client, line)) return;
  if (client->has_bye || client->error) fail(client, "a line after the last");
  if (!has_finished(client) && command_of(client)->verb == EXPECT && strncmp(line, command_of(client)->text, strlen(command_of(client)->text)) == 0) client->has_expected = true;
  if (take_ending(client, line) || !client->site) return;
  const char *wrong = take_line(client->site, line);
  if (wrong) fail(client, wrong);
  Pipe owed = {0};
  pay(client->site, &owed);
  if (owed.length) say(client, owed.bytes, owed.length);
  free(owed.bytes);
}

// Takes the next whole line, if there is one.
static bool take_next(Client *client) {
  char line[LONGEST_LINE];
  const char *from = client->lines.bytes + client->lines.from, *end = client->lines.length ? memchr(from, '\n', client->lines.length) : NULL;
  if (!end) return false;
  size_t length = end - from;
  if (length >= sizeof line) fail(client, "a line that is too long");
  memcpy(line, from, length);
  line[length] = 0;
  take_bytes(&client->lines, NULL, length + 1);
  take(client, line);
  return true;
}

static void move_all(Pipe *from, Pipe *to) {
  put_bytes(to, from->bytes + from->from, from->length);
  take_bytes(from, NULL, from->length);
}

// Receives what has come, and takes the whole lines of it.
static void take_all(Client *client) {
  if (client->lasting) note_heard(client);
  move_all(&client->link->down, client->is_browser ? &client->unread : &client->lines);
  for (bool is_whole = client->is_browser; is_whole;) {
    const char *wrong = take_frame(client, &is_whole);
    if (wrong) fail(client, wrong);
  }
  while ((client->site || expects(client)) && take_next(client)) {}
}

// ---- commands ----

// Whether the link has ended, and all that came of it was taken.
static bool is_over(const Client *client) {
  if (client->lasting) return is_link_over(client);
  return client->link && has_ended(client->link) && client->link->down.length == 0 && !has_line(client);
}

static bool has_time_passed(const Client *client) {
  return client->until != NEVER && now >= client->until;
}

// Whether a command that waits can go on.
static bool is_due(const Client *client) {
  const Command *it = command_of(client);
  switch (it->verb) {
    case CONNECT:
    case BROWSE: return !client->has_begun || (has_time_passed(client) && has_listened);
    case STALL:
    case PAUSE:
    case RESUME:
    case KEPT: return !client->has_begun || has_time_passed(client);
    case SERVE: return opened_link() && opened_link() != client->link;
    // A browser sends nothing before its link is open.
    case HELLO: return client->has_begun ? is_open(client->site) : !client->is_browser || client->is_upgraded;
    case MEET: return !client->has_begun || *who_has_come(it->text) >= it->number;
    case EDIT:
    case ADJUST: return edits_waiting(client->site) < MOST_WAITING;
    case SPEND: return !client->error && edits_waiting(client->site) < MOST_WAITING;
    case HEAR: return edits_heard(client->site) >= client->heard + it->number;
    case PONGS: return client->pongs >= client->pings;
    case SYNC: return !client->has_begun || client->pongs >= client->pings;
    case EXPECT: return client->has_expected;
    case TAKEN: return !client->unsent.length && client->link && !client->link->up.length;
    case CLOSED: return is_closed(client);
    case BYE: return !client->has_begun || is_over(client);
    case GONE:
    case REFUSED: return is_over(client);
    case PING:
    case BEAT:
    case RAW:
    case POUR:
    case STUCK:
    case HALF:
    case SHUT:
    case RESET:
    case CUT:
    case CUTS:
    case CONFIRM:
    case AGREE:
    case DEAF:
    case LISTEN:
    case MEND:
    case TYPE:
    case DISK: return true;
  }
  return false;
}

// Whether a command goes on when the link has ended.
static bool outlives_link(Verb verb) {
  static const Verb outliving[] = {CONNECT, BROWSE, SERVE, MEET, STALL, PAUSE, RAW, SHUT, RESET, CUTS, RESUME, CLOSED, BYE, GONE, REFUSED, TYPE};
  for (size_t k = 0; k < sizeof outliving / sizeof *outliving; k++)
    if (outliving[k] == verb) return true;
  return false;
}

static bool has_lost_link(const Client *client) {
  if (command_of(client)->verb == SPEND) return is_over(client);
  if (command_of(client)->verb == EXPECT && client->has_expected) return false;
  return is_over(client) && !outlives_link(command_of(client)->verb);
}

bool can_step(const Client *client) {
  if (has_finished(client)) return false;
  if (client->is_losing) return is_closed(client);
  if (client->lasting && has_to_tend(client)) return true;
  return can_flush(client) || can_take(client) || is_due(client) || has_lost_link(client);
}

int64_t next_event_of(const Client *client) {
  if (has_finished(client) || client->is_losing) return NEVER;
  bool waits = client->has_begun && (command_of(client)->verb <= BROWSE ? has_listened : true);
  int64_t until = waits ? client->until : NEVER, tending = client->lasting ? next_tending_of(client) : NEVER;
  return until == NEVER || (tending != NEVER && tending < until) ? tending : until;
}

static void finish_command(Client *client) {
  note(client->task, "line %d", command_of(client)->line);
  client->at++;
  client->has_begun = client->has_expected = false;
  client->left = 0;
  client->until = NEVER;
}

// Begins a command that waits. False if it has begun.
static bool begin(Client *client) {
  if (client->has_begun) return false;
  client->has_begun = true;
  return true;
}

static bool sends_lines_of_its_own(const Client *client) {
  for (int k = 0; k < client->count; k++)
    if (client->commands[k].verb == RAW || client->commands[k].verb == POUR) return true;
  return false;
}

// How many edits of its present link are in the order. It is not known of a link of protocol 3 that has ended early.
static Bounds edits_arrived_now(const Client *client) {
  if (client->lasting) return (Bounds){edits_with_effect(client), is_effect_known(client) ? edits_with_effect(client) : edits_put(client)};
  if (client->site) return (Bounds){client->has_bye ? edits_made(client->site) : 0, edits_made(client->site)};
  return (Bounds){0, sends_lines_of_its_own(client) ? MOST_EDITS : 0};
}

Bounds edits_arrived(const Client *client) {
  Bounds at_last = edits_arrived_now(client);
  return (Bounds){client->arrived.least + at_last.least, client->arrived.most + at_last.most};
}

static void connect_to(Client *client, const Command *it) {
  if (begin(client)) {
    client->until = now + it->number * MILLISECOND;
    return;
  }
  if (!is_listening) return lose(client, "nobody listens");
  // A client that comes again is a new site.
  *client = (Client){client->task, client->name, client->commands, client->count, client->at, .has_begun = true, .until = NEVER, .draws = client->draws, .link = connect_link(), .arrived = edits_arrived(client)};
  client->is_browser = it->verb == BROWSE;
  if (client->is_browser) put_upgrade(&client->unsent);
  finish_command(client);
}

static void wait_for(Client *client, const Command *it) {
  if (begin(client)) {
    client->until = now + it->number * MILLISECOND;
    client->is_stalled = it->verb == STALL;
    return;
  }
  client->is_stalled = false;
  if (it->verb == KEPT) compare_kept(client);
  finish_command(client);
}

static void greet(Client *client, const Command *it) {
  if (!begin(client)) return finish_command(client);
  client->site = new_site(&client->draws);
  if (it->number == 4) greet_by_note(client);
  else say_line(client, "hello 3\n");
}

static void meet(Client *client, const Command *it) {
  if (!begin(client)) return finish_command(client);
  ++*who_has_come(it->text);
}

// Does a command so many times.
static void repeat(Client *client, const Command *it) {
  if (it->verb == PING) ping(client);
  else if (it->verb == BEAT) put_ping(&client->unsent);
  else edit(client, it->other ? (int)it->other : 1, it->verb == ADJUST);
  if (++client->left >= it->number) finish_command(client);
}

static void pour(Client *client, const Command *it) {
  do {
    char *text = numbered(it->text, client->poured++);
    say_line(client, text);
    free(text);
  } while (++client->left % POURED_AT_A_TIME && client->left < it->number);
  if (client->left == it->number) finish_command(client);
}

static void expect_to_be_stuck(Client *client) {
  if (!client->unsent.length) fail(client, "the program has taken all");
  finish_command(client);
}

static void sync_with(Client *client) {
  if (!begin(client)) return finish_command(client);
  ping(client);
}

static void leave(Client *client) {
  if (begin(client)) return say_line(client, "bye\n");
  if (!client->has_bye) return lose(client, client->error ? "an error in place of the bye" : "the link has ended without a bye");
  finish_command(client);
}

static void expect_refusal(Client *client, const Command *it) {
  if (client->error != it->number) return lose(client, "the link has ended without the error that is due");
  finish_command(client);
}

// The first half of the bytes of an edit.
static void say_half(Client *client) {
  Pipe lines = {0};
  make_edit(client->site, 2, false, &lines);
  say(client, lines.bytes, lines.length / 2);
  free(lines.bytes);
  finish_command(client);
}

static void cut(Client *client, const Command *it) {
  break_connection(client, it->text);
  hold_connection(client);
  finish_command(client);
}

static void miss_server(Client *client) {
  meet_nobody(client);
  lose(client, "nobody listens");
}

// Connects again, also if the older connection still seems to work.
static void resume(Client *client, const Command *it) {
  if (begin(client)) {
    int64_t longer = it->other > it->number ? (int64_t)draw(&client->draws, it->other - it->number + 1) : 0;
    client->until = now + (it->number + longer) * MILLISECOND;
    return;
  }
  if (client->link) break_connection(client, draw(&client->draws, 2) ? "silent" : "late");
  if (!is_listening) return miss_server(client);
  resume_link(client);
  finish_command(client);
}

static void agree(Client *client) {
  print_board(client->site, &client->agreed);
  finish_command(client);
}

static void act_on_link(Client *client, const Command *it) {
  if (it->verb == RESET) {
    reset_link(client->link);
    client->unsent.length = 0;
  } else if (it->verb == SHUT) {
    // The end of the bytes comes after all of them.
    if (client->unsent.length) return flush(client);
    client->link->is_client_shut = true;
  } else {
    client->link = opened_link();
  }
  finish_command(client);
}

// A command of the operator, or about what fails.
static void act_beside(Client *client, const Command *it) {
  if (it->verb == MEND) {
    allocation_odds = thread_odds = accept_odds = send_odds = clock_odds = 0;
  } else if (it->verb == DISK) {
    is_disk_full = strcmp(it->text, "full") == 0;
  } else if (it->text) {
    put_bytes(&typed, it->text, strlen(it->text));
  } else {
    is_typed_ended = true;
  }
  finish_command(client);
}

static void do_command(Client *client) {
  const Command *it = command_of(client);
  switch (it->verb) {
    case CONNECT:
    case BROWSE: return connect_to(client, it);
    case STALL:
    case PAUSE:
    case KEPT: return wait_for(client, it);
    case DEAF:
    case LISTEN: client->is_deaf = it->verb == DEAF; return finish_command(client);
    case HELLO: return greet(client, it);
    case MEET: return meet(client, it);
    case EDIT:
    case ADJUST:
    case PING:
    case BEAT: return repeat(client, it);
    case SPEND: return edit(client, 1, false);
    case HEAR: client->heard += it->number; return finish_command(client);
    case SYNC: return sync_with(client);
    case RAW: say_line(client, it->text); return finish_command(client);
    case POUR: return pour(client, it);
    case STUCK: return expect_to_be_stuck(client);
    case HALF: return say_half(client);
    case BYE: return leave(client);
    case REFUSED: return expect_refusal(client, it);
    case AGREE: return agree(client);
    case CUT: return cut(client, it);
    case CUTS: begin_cuts(client, it->number, it->other); return finish_command(client);
    case RESUME: return resume(client, it);
    case CONFIRM: confirm_after(client, it->number); return finish_command(client);
    case SERVE:
    case SHUT:
    case RESET: return act_on_link(client, it);
    case MEND:
    case TYPE:
    case DISK: return act_beside(client, it);
    case PONGS:
    case EXPECT:
    case TAKEN:
    case CLOSED:
    case GONE: return finish_command(client);
  }
}

static void end_spending(Client *client) {
  if (client->error != 32) return lose(client, "the link has ended, and the order is not full");
  finish_command(client);
}

static void tend_link(Client *client) {
  if (is_unanswered(client)) fail(client, "the server says nothing");
  if (finds_nobody(client)) return miss_server(client);
  tend(client);
}

void step(Client *client) {
  if (client->is_losing) return be_lost(client);
  if (client->lasting && has_to_tend(client)) return tend_link(client);
  bool may_go_on = is_due(client) && !has_lost_link(client);
  if (can_flush(client) && (!may_go_on || draw(&client->draws, 2))) return flush(client);
  if (can_take(client) && (!may_go_on || draw(&client->draws, 2))) return take_all(client);
  if (has_lost_link(client)) {
    if (command_of(client)->verb == SPEND) end_spending(client);
    else lose(client, client->error ? "the link has ended by an error" : "the link has ended");
  } else if (is_due(client)) {
    do_command(client);
  }
}
