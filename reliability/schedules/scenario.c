// The file of a scenario. A line is a word and what it needs. `client NAME`, or `clients NAME COUNT` for several alike, begins a client, and the lines
// after it are its commands. The lines between `repeat COUNT` and `end` count so many times. What comes before the first client is about the run.
#include "schedules.h"
#include <stdio.h>
#include <stdlib.h>
#include <string.h>

enum { LONGEST = 1024, MOST_COMMANDS = 4096 };

// The words of the commands, in the order of `Verb`.
static const char *const verbs[] = {
    "connect", "browse", "serve", "hello", "meet", "edit", "adjust", "spend", "hear", "ping", "beat",
    "pongs", "sync", "stall", "pause", "raw", "pour", "taken", "stuck", "expect", "half", "shut", "reset",
    "cut", "cuts", "resume", "confirm", "closed", "bye", "gone", "refused", "agree", "kept", "deaf", "listen", "mend", "type", "disk",
};

static const char *path;
static int line_number;
// The commands of the clients that are read, and the first of those that are repeated.
static Command commands[MOST_COMMANDS];
static int count, first_repeated, times;
static char name[LONGEST];
static int alike;
static bool has_operator;

_Noreturn static void refuse(const char *why) {
  char text[LONGEST];
  snprintf(text, sizeof text, "%s, line %d: %s", path, line_number, why);
  end_run(UNUSABLE, text);
}

// What follows the nth word of a line.
static const char *after_words(const char *line, int words) {
  while (words-- > 0) {
    line += strcspn(line, " ");
    line += strspn(line, " ");
  }
  return line;
}

// A text in which \n and \r are what they spell.
static char *spelled(const char *text) {
  char *made = malloc(strlen(text) + 1), *to = made;
  for (; *text; text++) {
    bool is_escape = text[0] == '\\' && (text[1] == 'n' || text[1] == 'r');
    *to++ = !is_escape ? *text : text[1] == 'n' ? '\n' : '\r';
    text += is_escape;
  }
  *to = 0;
  return made;
}

static void add(Verb verb, long number, long other, const char *text) {
  if (count == MOST_COMMANDS) refuse("too many commands");
  commands[count++] = (Command){verb, number, other, text ? spelled(text) : NULL, line_number};
}

// All have come, and have heard of all edits, when their boards are compared.
static void add_agreement(const char *word, long number) {
  add(SYNC, 0, 0, NULL);
  add(MEET, number, 0, word);
  add(SYNC, 0, 0, NULL);
  add(AGREE, 0, 0, NULL);
}

static void add_command(const char *line) {
  char word[LONGEST], second[LONGEST] = "";
  long number = 0, other = 0;
  sscanf(line, "%s %s", word, second);
  Verb verb = 0;
  while (verb <= DISK && strcmp(verbs[verb], word)) verb++;
  if (verb > DISK) refuse("no such command");
  if (verb == MEET || verb == AGREE) {
    number = atol(after_words(line, 2));
    if (verb == AGREE) return add_agreement(second, number);
    return add(verb, number, 0, second);
  }
  if (verb == POUR) return add(verb, atol(second), 0, after_words(line, 2));
  if (verb == RAW || verb == EXPECT || verb == TYPE || verb == DISK || verb == CUT) return add(verb, 0, 0, *second ? after_words(line, 1) : NULL);
  sscanf(line, "%*s %ld %ld", &number, &other);
  add(verb, number, other, NULL);
}

static void end_clients(void) {
  for (int k = 0; k < alike; k++) {
    char own[LONGEST + 16];
    snprintf(own, sizeof own, alike > 1 ? "%s %d" : "%s", name, k + 1);
    Client *client = new_client(own);
    client->commands = malloc(count * sizeof *commands);
    client->count = count;
    memcpy(client->commands, commands, count * sizeof *commands);
    for (int j = 0; j < count; j++) has_operator |= commands[j].verb == TYPE;
  }
  count = alike = 0;
}

static void begin_client(const char *line, bool are_several) {
  end_clients();
  sscanf(line, "%*s %s", name);
  alike = are_several ? atoi(after_words(line, 2)) : 1;
}

char *numbered(const char *text, int number) {
  char made[LONGEST], *to = made;
  for (; text && *text && to < made + LONGEST - 16; text++) {
    bool is_number = text[0] == '$' && (text[1] == 'K' || text[1] == 'J');
    if (is_number) to += sprintf(to, "%d", number + (*++text == 'J'));
    else *to++ = *text;
  }
  *to = 0;
  return text ? strdup(made) : NULL;
}

static void repeat(void) {
  int size = count - first_repeated;
  if (count + (times - 1) * size > MOST_COMMANDS) refuse("too many commands");
  for (int k = times - 1; k >= 0; k--)
    for (int j = first_repeated; j < first_repeated + size; j++) {
      commands[j + k * size] = commands[j];
      commands[j + k * size].text = numbered(commands[j].text, k);
    }
  count += (times - 1) * size;
}

// What fails, once in how many times.
static void set_fault(const char *line) {
  static const struct {
    const char *word;
    unsigned *odds;
  } faults[] = {{"allocations", &allocation_odds}, {"threads", &thread_odds}, {"accepts", &accept_odds}, {"sends", &send_odds}, {"clocks", &clock_odds}};
  char what[LONGEST];
  unsigned odds;
  if (sscanf(line, "fails %s %u", what, &odds) != 2) return;
  for (size_t k = 0; k < sizeof faults / sizeof *faults; k++)
    if (strcmp(faults[k].word, what) == 0) *faults[k].odds = odds;
  may_be_lost = true;
}

// A line about the run: what fails, once in how many times, and what is due. The runner reads the other lines.
static void set(const char *line) {
  long value = 0;
  char unit[LONGEST] = "";
  if (sscanf(line, "within %ld %s", &value, unit) >= 1) most_time = value * (strcmp(unit, "ms") == 0 ? 1 : 1000) * MILLISECOND;
  if (sscanf(line, "room %ld", &value) == 1) link_room = value;
  if (strcmp(line, "links may end") == 0) may_be_lost = true;
  if (strcmp(line, "links last") == 0) do_links_last = true;
  if (strncmp(line, "prints ", 7) == 0) due_print = spelled(line + 7);
  set_fault(line);
}

static void read_line(const char *line) {
  if (strncmp(line, "client ", 7) == 0) return begin_client(line, false);
  if (strncmp(line, "clients ", 8) == 0) return begin_client(line, true);
  if (!alike) return set(line);
  if (strncmp(line, "repeat ", 7) == 0) {
    times = atoi(line + 7);
    first_repeated = count;
  } else if (strcmp(line, "end") == 0) {
    repeat();
  } else {
    add_command(line);
  }
}

void read_scenario(const char *given) {
  char line[LONGEST];
  FILE *file = fopen(path = given, "r");
  if (!file) refuse("there is no such file");
  for (line_number = 1; fgets(line, sizeof line, file); line_number++) {
    line[strcspn(line, "\n")] = 0;
    if (*line && *line != '#') read_line(line);
  }
  end_clients();
  fclose(file);
  begin_files(has_operator);
}
