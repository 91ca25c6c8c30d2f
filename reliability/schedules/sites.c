// A client's copy of the board: what it makes, what it takes, and how it moves operations past one another. docs/PROTOCOL.md has the rules.
#include "schedules.h"
#include <stdio.h>
#include <stdlib.h>
#include <string.h>

enum { MOST_WIDGETS = 64, MOST_OPERATIONS = 32, OWES_FROM = 64, LONGEST_LINE = 128, MOST_LABELS = 256, MOST_SITES = 256 };

typedef enum { A_TEXT, A_LIST, A_TOGGLE, A_SLIDER } Kind;
typedef enum { INSERT, DELETE, RELABEL, SET, NOTHING } Deed;

static const char *const kinds[] = {"text", "list", "toggle", "slider"};
static const char *const deeds[] = {"ins", "del", "rel", "set", "no"};

typedef struct {
  unsigned site, number;
} Name;

// An operation on a widget. The value is a character, the number of a label, whether a toggle is on, or the value of a slider.
typedef struct {
  int window, widget;
  Kind kind;
  Deed deed;
  long place;
  Name name;
  long value;
} Operation;

typedef struct {
  Operation operations[MOST_OPERATIONS];
  int count;
} Edit;

typedef struct {
  Name name;
  long value;
} Item;

typedef struct {
  int window, id;
  Kind kind;
  long low, high, value;
  Item *items;
  long count, room;
} Widget;

struct Site {
  unsigned number;
  bool is_open;
  int window; // the last window whose line came
  Widget widgets[MOST_WIDGETS];
  int widget_count;
  Edit *queue; // its edits that the server is not known to have taken
  long waiting, room;
  long made, heard, acknowledged, owed, insertions;
  Edit coming; // the edit whose lines come
  long coming_number, coming_heard;
  int left; // how many lines of it are left
  Stream *draws;
  unsigned inserted[MOST_SITES]; // the number of the last insertion that came of each site
};

Site *new_site(Stream *draws) {
  Site *site = calloc(1, sizeof *site);
  site->draws = draws;
  return site;
}

bool is_open(const Site *site) {
  return site->is_open;
}

long edits_heard(const Site *site) {
  return site->heard;
}

long edits_made(const Site *site) {
  return site->made;
}

unsigned number_of_site(const Site *site) {
  return site->number;
}

long last_insertion_of(const Site *site, unsigned author) {
  return author < MOST_SITES ? site->inserted[author] : 0;
}

long edits_waiting(const Site *site) {
  return site->waiting;
}

// ---- labels ----

// Labels have numbers, by their first use.
static char labels[MOST_LABELS][LONGEST_LINE];
static int label_count;

static long label_of(const char *text) {
  int at = 0;
  while (at < label_count && strcmp(labels[at], text)) at++;
  if (at == MOST_LABELS) give_up("FAIL", "more labels than the library has room for");
  if (at == label_count) snprintf(labels[label_count++], LONGEST_LINE, "%s", text);
  return at;
}

// ---- the board ----

static bool is_sequence(Kind kind) {
  return kind == A_TEXT || kind == A_LIST;
}

static bool are_same(Name one, Name other) {
  return one.site == other.site && one.number == other.number;
}

static Widget *widget_of(Site *site, int window, int id) {
  for (int k = 0; k < site->widget_count; k++)
    if (site->widgets[k].window == window && site->widgets[k].id == id) return &site->widgets[k];
  return NULL;
}

static const char *insert(Widget *widget, long place, Item item) {
  if (place > widget->count) return "an insertion beyond the end";
  for (long k = 0; k < widget->count; k++)
    if (are_same(widget->items[k].name, item.name)) return "an insertion under a name that is there";
  if (widget->count == widget->room) widget->items = realloc(widget->items, (widget->room = 2 * widget->room + 16) * sizeof item);
  memmove(widget->items + place + 1, widget->items + place, (widget->count++ - place) * sizeof item);
  widget->items[place] = item;
  return NULL;
}

static const char *apply(Site *site, const Operation *it) {
  Widget *widget = widget_of(site, it->window, it->widget);
  if (!widget || widget->kind != it->kind) return "an operation on no widget";
  if (it->deed == NOTHING) return NULL;
  if (it->deed == INSERT) return insert(widget, it->place, (Item){it->name, it->value});
  if (it->deed == SET) {
    widget->value = it->value;
    return NULL;
  }
  if (it->place >= widget->count || !are_same(widget->items[it->place].name, it->name)) return "another item is at the place of an operation";
  if (it->deed == RELABEL) widget->items[it->place].value = it->value;
  else memmove(widget->items + it->place, widget->items + it->place + 1, (--widget->count - it->place) * sizeof *widget->items);
  return NULL;
}

// ---- transforms ----

// An operation on a sequence, moved past one at another place or of another kind.
static Operation past(Operation it, const Operation *other) {
  switch (other->deed) {
    case INSERT: it.place += it.deed == INSERT ? other->place < it.place : other->place <= it.place; break;
    case DELETE:
      if (it.deed != INSERT && are_same(it.name, other->name)) it.deed = NOTHING;
      else it.place -= other->place < it.place;
      break;
    case RELABEL:
    case SET:
    case NOTHING: break;
  }
  return it;
}

// A client's operation and a server's, moved past one another.
static void move_past(Operation *client, Operation *server) {
  if (client->window != server->window || client->widget != server->widget || client->deed == NOTHING || server->deed == NOTHING) return;
  bool are_relabels = client->deed == RELABEL && server->deed == RELABEL && are_same(client->name, server->name);
  if (client->deed == SET || are_relabels) {
    server->deed = NOTHING;
  } else if (client->deed == INSERT && server->deed == INSERT && client->place == server->place) {
    server->place++;
  } else {
    Operation before = *client;
    *client = past(*client, server);
    *server = past(*server, &before);
  }
}

static void move_edits(Edit *client, Edit *server) {
  for (int k = 0; k < client->count; k++)
    for (int j = 0; j < server->count; j++) move_past(&client->operations[k], &server->operations[j]);
}

// ---- what comes ----

static const char *take_acknowledgement(Site *site, long count) {
  long taken = count - site->acknowledged;
  if (taken < 0 || taken > site->waiting) return "an acknowledgement of what was not made, or not the next";
  site->waiting -= taken;
  site->acknowledged = count;
  memmove(site->queue, site->queue + taken, site->waiting * sizeof *site->queue);
  return NULL;
}

static const char *take_edit(Site *site) {
  if (site->coming_number != site->heard) return "an edit that is not the next";
  const char *wrong = take_acknowledgement(site, site->coming_heard);
  for (long k = 0; k < site->waiting; k++) move_edits(&site->queue[k], &site->coming);
  for (int k = 0; k < site->coming.count && !wrong; k++) {
    const Operation *it = &site->coming.operations[k];
    wrong = it->deed == INSERT && it->name.site == site->number ? "an insertion under a name of this site" : apply(site, it);
    if (it->deed == INSERT && it->name.site < MOST_SITES) site->inserted[it->name.site] = it->name.number;
  }
  site->heard++;
  site->owed++;
  return wrong;
}

void pay(Site *site, Pipe *to) {
  char line[LONGEST_LINE];
  if (site->owed < OWES_FROM) return;
  site->owed = 0;
  put_bytes(to, line, snprintf(line, sizeof line, "ack %ld\n", site->heard));
}

// The number of a word in a list of words.
static int number_of(const char *word, const char *const *words, int count) {
  int at = 0;
  while (at < count && strcmp(words[at], word)) at++;
  return at;
}

static long value_of(Kind kind, const char *text) {
  return kind == A_LIST ? label_of(text) : kind == A_TOGGLE ? strcmp(text, "on") == 0 : atol(text);
}

static const char *read_operation(Operation *it, const char *line) {
  char kind[8], deed[8];
  int end = 0, more = 0;
  if (sscanf(line, "do %d %d %7s %7s%n", &it->window, &it->widget, kind, deed, &end) != 4) return "a line that is no operation";
  it->kind = number_of(kind, kinds, 4);
  it->deed = number_of(deed, deeds, 5);
  const char *rest = line + end;
  if (it->deed == INSERT || it->deed == DELETE || it->deed == RELABEL) {
    if (sscanf(rest, " %ld %u.%u%n", &it->place, &it->name.site, &it->name.number, &more) != 3) return "an operation without place or name";
    rest += more;
  }
  it->value = *rest ? value_of(it->kind, rest + 1) : 0;
  return NULL;
}

static const char *take_operation(Site *site, const char *line) {
  const char *wrong = read_operation(&site->coming.operations[site->coming.count++], line);
  if (wrong || --site->left) return wrong;
  return take_edit(site);
}

static const char *add_item(Site *site, const char *line) {
  Widget *widget = &site->widgets[site->widget_count - 1];
  Item item;
  int end = 0;
  if (!site->widget_count || sscanf(line, "%*s %u.%u%n", &item.name.site, &item.name.number, &end) != 2) return "an item that is out of its place";
  item.value = value_of(widget->kind, line + end + 1);
  return insert(widget, widget->count, item);
}

static const char *add_widget(Site *site, Kind kind, const char *line) {
  char value[8] = "";
  Widget *widget = &site->widgets[site->widget_count++];
  *widget = (Widget){.window = site->window, .kind = kind};
  if (kind == A_SLIDER) sscanf(line, "%*s %d %ld %ld %ld", &widget->id, &widget->low, &widget->high, &widget->value);
  else sscanf(line, "%*s %d %7s", &widget->id, value);
  if (kind == A_TOGGLE) widget->value = strcmp(value, "on") == 0;
  return NULL;
}

// Takes a line of the welcome.
static const char *open_by(Site *site, const char *line) {
  char word[16];
  if (sscanf(line, "%15s", word) != 1) return "an empty line";
  Kind kind = number_of(word, kinds, 4);
  if (kind <= A_SLIDER) return add_widget(site, kind, line);
  if (strcmp(word, "char") == 0 || strcmp(word, "item") == 0) return add_item(site, line);
  if (sscanf(line, "welcome %u", &site->number) == 1 || sscanf(line, "window %d", &site->window) == 1) return NULL;
  site->is_open = strcmp(line, "ready") == 0;
  return site->is_open ? NULL : "a line that is out of its place";
}

const char *take_line(Site *site, const char *line) {
  long count;
  if (!site->is_open) return open_by(site, line);
  if (site->left) return take_operation(site, line);
  if (sscanf(line, "ack %ld", &count) == 1) return take_acknowledgement(site, count);
  if (sscanf(line, "batch %ld %ld %d", &site->coming_number, &site->coming_heard, &site->left) != 3) return "a line that is out of its place";
  site->coming.count = 0;
  return NULL;
}

// ---- what it makes ----

// A place up to this one, mostly near the front, where others edit too.
static long draw_place(Site *site, long last) {
  return draw(site->draws, 2) && last > 2 ? (long)draw(site->draws, 3) : (long)draw(site->draws, last + 1);
}

static void draw_setting(Site *site, const Widget *widget, Operation *it) {
  it->deed = SET;
  it->value = widget->kind == A_TOGGLE ? (long)draw(site->draws, 2) : widget->low + (long)draw(site->draws, widget->high - widget->low + 1);
}

static void draw_item(Site *site, const Widget *widget, Operation *it) {
  char label[16];
  static const Deed of_text[] = {INSERT, INSERT, DELETE}, of_list[] = {INSERT, INSERT, DELETE, RELABEL};
  it->deed = widget->count == 0 ? INSERT : widget->kind == A_TEXT ? of_text[draw(site->draws, 3)] : of_list[draw(site->draws, 4)];
  it->place = draw_place(site, widget->count - (it->deed != INSERT));
  it->name = it->deed == INSERT ? (Name){site->number, ++site->insertions} : widget->items[it->place].name;
  snprintf(label, sizeof label, "label %u", (unsigned)draw(site->draws, 100));
  it->value = widget->kind == A_TEXT ? 'a' + (long)draw(site->draws, 26) : label_of(label);
}

static const Widget *draw_widget(Site *site, bool is_to_be_set) {
  for (;;) {
    const Widget *widget = &site->widgets[draw(site->draws, site->widget_count)];
    if (!is_to_be_set || !is_sequence(widget->kind)) return widget;
  }
}

static Operation draw_operation(Site *site, bool is_setting) {
  const Widget *widget = draw_widget(site, is_setting);
  Operation it = {.window = widget->window, .widget = widget->id, .kind = widget->kind};
  if (is_sequence(widget->kind)) draw_item(site, widget, &it);
  else draw_setting(site, widget, &it);
  return it;
}

static void put_operation(const Operation *it, Pipe *to) {
  char line[2 * LONGEST_LINE];
  int size = snprintf(line, sizeof line, "do %d %d %s %s", it->window, it->widget, kinds[it->kind], deeds[it->deed]);
  if (it->deed != SET) size += snprintf(line + size, sizeof line - size, " %ld %u.%u", it->place, it->name.site, it->name.number);
  if (it->deed != DELETE && it->kind == A_LIST) size += snprintf(line + size, sizeof line - size, " %s", labels[it->value]);
  else if (it->kind == A_TOGGLE) size += snprintf(line + size, sizeof line - size, it->value ? " on" : " off");
  else if (it->deed != DELETE) size += snprintf(line + size, sizeof line - size, " %ld", it->value);
  put_bytes(to, line, size);
  put_bytes(to, "\n", 1);
}

void make_edit(Site *site, int operations, bool is_of_settings, Pipe *to) {
  char line[LONGEST_LINE];
  if (site->waiting == site->room) site->queue = realloc(site->queue, (site->room = 2 * site->room + 16) * sizeof *site->queue);
  Edit *edit = &site->queue[site->waiting++];
  edit->count = operations;
  put_bytes(to, line, snprintf(line, sizeof line, "batch %ld %ld %d\n", site->made++, site->heard, operations));
  for (int k = 0; k < operations; k++) {
    edit->operations[k] = draw_operation(site, is_of_settings);
    const char *wrong = apply(site, &edit->operations[k]);
    if (wrong) give_up("FAIL", wrong);
    put_operation(&edit->operations[k], to);
  }
  site->owed = 0;
}

// ---- what it shows ----

static void print_value(const Widget *widget, long value, Pipe *to) {
  char text[LONGEST_LINE];
  if (widget->kind == A_LIST) put_bytes(to, text, snprintf(text, sizeof text, " \"%s\"", labels[value]));
  else put_bytes(to, (char[]){(char)value}, 1);
}

static void print_widget(const Widget *widget, Pipe *to) {
  char text[LONGEST_LINE];
  put_bytes(to, text, snprintf(text, sizeof text, "%s %d", kinds[widget->kind], widget->id));
  if (widget->kind == A_TEXT) put_bytes(to, " \"", 2);
  for (long k = 0; k < widget->count; k++) print_value(widget, widget->items[k].value, to);
  if (widget->kind == A_TEXT) put_bytes(to, "\"", 1);
  if (widget->kind == A_TOGGLE) put_bytes(to, text, snprintf(text, sizeof text, widget->value ? " on" : " off"));
  if (widget->kind == A_SLIDER) put_bytes(to, text, snprintf(text, sizeof text, " %ld %ld %ld", widget->low, widget->high, widget->value));
  put_bytes(to, "\n", 1);
}

void print_board(const Site *site, Pipe *to) {
  char text[LONGEST_LINE];
  int window = 0;
  for (int k = 0; k < site->widget_count; k++) {
    const Widget *widget = &site->widgets[k];
    if (widget->window != window) put_bytes(to, text, snprintf(text, sizeof text, "window %d\n", window = widget->window));
    print_widget(widget, to);
  }
}
