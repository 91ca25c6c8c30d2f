// How a run that has come to its end is judged: by the program's exit status, by what it printed, and by the boards of all.
#include "schedules.h"
#include <fcntl.h>
#include <stdio.h>
#include <stdlib.h>
#include <string.h>
#include <sys/syscall.h>

bool may_be_lost, do_links_last;
const char *due_print;

// The clients take what is left, and each has to come to its end.
static void let_clients_end(void) {
  is_listening = false;
  for (bool has_stepped = true; has_stepped;) {
    has_stepped = false;
    for (int k = 0; k < task_count; k++)
      while (tasks[k].client && can_step(tasks[k].client)) {
        step(tasks[k].client);
        has_stepped = true;
      }
    for (int k = 0; k < task_count && !has_stepped; k++) {
      int64_t until = tasks[k].client ? next_event_of(tasks[k].client) : NEVER;
      if (until > now) now = until, has_stepped = true;
    }
  }
  for (int k = 0; k < task_count; k++)
    if (tasks[k].client && !has_finished(tasks[k].client)) give_up("FAIL", "the program has ended before a client");
}

// The board that the program has printed, or kept in its file.
static Pipe final_board(void) {
  Pipe board = {0};
  char piece[4096];
  ssize_t size;
  if (!getenv("SCHEDULES_BOARD")) {
    const char *from = printed.length ? memmem(printed.bytes + printed.from, printed.length, "window ", 7) : NULL;
    if (from) put_bytes(&board, from, printed.bytes + printed.from + printed.length - from);
    return board;
  }
  int file = (int)system_call(SYS_open, (long)"a.board", O_RDONLY, 0, 0, 0, 0);
  while (file >= 0 && (size = system_call(SYS_read, file, (long)piece, sizeof piece, 0, 0, 0)) > 0) put_bytes(&board, piece, size);
  return board;
}

_Noreturn static void tell_boards(const char *name, const Pipe *one, const Pipe *other) {
  char *text;
  size_t size;
  FILE *to = open_memstream(&text, &size);
  fprintf(to, "UNEQUAL: client %s has\n%.*sand the program has\n%.*s", name, (int)one->length, one->bytes + one->from, (int)other->length, other->bytes + other->from);
  fclose(to);
  end_run(UNEQUAL, text);
}

static void compare(const char *name, const Pipe *own, const Pipe *board) {
  if (own->length != board->length || memcmp(own->bytes + own->from, board->bytes + board->from, board->length)) tell_boards(name, own, board);
}

void compare_kept(const Client *client) {
  Pipe own = {0}, board = final_board();
  print_board(client->site, &own);
  compare(client->name, &own, &board);
}

static void compare_boards(void) {
  Pipe board = final_board();
  for (int k = 0; k < task_count; k++) {
    const Client *client = tasks[k].client;
    if (client && client->agreed.length) compare(client->name, &client->agreed, &board);
  }
}

// The order has each edit once that its client knows to have arrived, and no edit twice.
static void compare_order(void) {
  const char *from = printed.length ? memmem(printed.bytes + printed.from, printed.length, "order ", 6) : NULL;
  Bounds all = {0};
  for (int k = 0; k < task_count; k++) {
    Bounds own = tasks[k].client ? edits_arrived(tasks[k].client) : (Bounds){0};
    all.least += own.least;
    all.most += own.most;
  }
  long length = from ? atol(from + 6) : 0;
  if (from && (length < all.least || length > all.most)) give_up("FAIL", "the order has not each edit once");
}

// Who was there from the start of another site has heard all insertions of it that had their effect, and no other.
static void compare_authors(const Client *reader, const Client *author) {
  unsigned number = author->site ? number_of_site(author->site) : 0;
  if (!reader->agreed.length || !author->lasting || !is_effect_known(author) || number <= number_of_site(reader->site)) return;
  if (last_insertion_of(reader->site, number) != insertions_with_effect(author)) give_up("FAIL", "a site has heard other insertions than the server says");
}

static void compare_all_authors(void) {
  for (int k = 0; k < task_count; k++)
    for (int j = 0; j < task_count; j++)
      if (tasks[k].client && tasks[j].client) compare_authors(tasks[k].client, tasks[j].client);
}

// A thread that has done its work may still be about to end, but none may wait.
static void expect_no_waits(void) {
  for (int k = 0; k < task_count; k++)
    if (!tasks[k].client && tasks[k].state > YIELDED && tasks[k].state != ENDED) give_up("FAIL", "the program exits while a thread of it waits");
}

static bool has_printed(const char *text) {
  return printed.length && memmem(printed.bytes + printed.from, printed.length, text, strlen(text));
}

void finish(int status) {
  const char *ends = getenv("SCHEDULES_ENDS");
  if (!is_running) system_call(SYS_exit_group, status, 0, 0, 0, 0, 0);
  note(me, "exits with %d", status);
  expect_no_waits();
  put_bytes(&complained, "", 1);
  if (!strchr(ends ? ends : "0", '0' + status)) give_up("FAIL", complained.length > 1 ? complained.bytes + complained.from : "the exit status is another one");
  if (due_print && !has_printed(due_print)) give_up("FAIL", "the program has not printed what is due");
  let_clients_end();
  if (status == 0) {
    compare_boards();
    compare_order();
    compare_all_authors();
  }
  end_run(0, NULL);
}
