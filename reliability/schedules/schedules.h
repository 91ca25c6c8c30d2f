// What the rooms of the library share. docs/RELIABILITY.md, "Schedules by a seed", says what the library does. Its rooms:
//
// - runs.c: one run for each seed, each in a process of its own
// - judge.c: how a run that has come to its end is judged
// - draws.c: random numbers, and the decisions of a schedule
// - tasks.c: threads and clients, of which one acts at a time; virtual time
// - threads.c: the program's calls that start, join, wake, wait and read the clock
// - links.c: sockets as pipes in memory, and the program's calls on them
// - files.c: standard streams, and calls on files that may fail
// - memory.c: allocations that may fail
// - switches.c: switches within the program's own code
// - scenario.c: the file of a scenario
// - clients.c: what clients do; frames.c: clients by WebSockets; lasting.c: links of protocol 4, which outlive their connections
// - sites.c: a client's copy of the board, and its transforms
#ifndef SCHEDULES_H
#define SCHEDULES_H
#include <semaphore.h>
#include <stdbool.h>
#include <stddef.h>
#include <stdint.h>
#include <pthread.h>
#include <sys/types.h>

enum { MOST_TASKS = 512, MOST_LINKS = 512, LAST_CALLS = 8, LONGEST_CALL = 80, NEVER = -1 };
enum { MILLISECOND = 1000000 };
// How a run ends that is not well. A signal ends it too if the program crashes, or loops without a call.
enum { UNUSABLE = 2, DEADLOCK, FAILURE, UNEQUAL, LIVELOCK, LATE };

// ---- draws.c ----

// A stream of random numbers. Each client, each link and each kind of choice has its own, so that one more number here changes none there.
typedef struct {
  uint64_t state;
} Stream;

typedef struct Task Task;

extern Stream of_schedule, of_faults;
void seed_streams(uint64_t seed);
Stream stream_of(uint64_t number);
uint64_t draw(Stream *stream, uint64_t below);
// A decision of the schedule after something that a task did. It is what was drawn. Where a shorter schedule is replayed, it is what that says, or else `fallback`.
int decide(Task *after, int drawn, int fallback);
void read_decisions(const char *path);
void write_decisions(const char *path);

// ---- tasks.c ----

// A thread that is SWITCHED was within code of the program, and one that has YIELDED asked for it itself.
typedef enum { READY, SWITCHED, YIELDED, IN_FUTEX, SLEEPING, RECEIVING, SENDING, ACCEPTING, READING, JOINING, ENDED } State;

typedef struct Link Link;
typedef struct Client Client;

// A thread of the program, or a client of the scenario.
struct Task {
  int id;
  State state;
  int64_t until;        // when its wait ends, in nanoseconds, or NEVER
  const uint32_t *word; // what it waits at in a futex
  bool is_woken;
  Link *link;           // what it receives from, or sends to
  int joins;            // the thread that it waits for
  sem_t baton;          // the thread goes on once it is given this
  pthread_t handle;
  void *(*start)(void *);
  void *argument;
  int priority, weight, decisions, yields;
  uint64_t begun, done; // the idle round in which it went on after its last yield, and the last one in which it came to the next
  char calls[LAST_CALLS][LONGEST_CALL];
  unsigned call_count;
  Client *client;
};

extern Task tasks[MOST_TASKS];
extern int task_count;
// Virtual time, in nanoseconds, and how much of it a run may take.
extern int64_t now, most_time;
extern uint64_t trace_hash, step_count;
extern __thread Task *me;
// Whether the program's calls are simulated: from the start of a run up to its end.
extern bool is_running;

Task *new_task(Client *client);
void begin_tasks(void);
void note(Task *task, const char *form, ...) __attribute__((format(printf, 2, 3)));
// A call of the program begins. Another task may go on here.
void point(const char *form, ...) __attribute__((format(printf, 1, 2)));
// The thread has yielded: others go on.
void yield_point(void);
// Another task goes on while the thread is within code of the program, at this place of it.
void switch_within(const char *form, unsigned long place);
// The thread waits. True if it was not the time that ended the wait.
bool block(State state, int64_t until);
// Another task goes on. Returns once this thread is chosen again, unless it has ended.
void hand_over(bool comes_back);
void wait_for_baton(Task *task);
void trace_to(const char *path);
_Noreturn void give_up(const char *what, const char *why);

// ---- links.c ----

typedef struct {
  char *bytes;
  size_t from, length, room;
} Pipe;

// A connection. `up` goes to the program, `down` comes from it.
struct Link {
  Pipe up, down;
  bool is_client_shut, is_receiving_shut, is_sending_shut, is_reset, is_reset_told, is_nonblocking, is_accepted;
  int handles; // how many descriptors of it the program has open
  int64_t receive_timeout, send_timeout;
  Stream sizes;
};

// How many bytes each way of a link holds.
extern size_t link_room;
extern bool is_listening, has_listened, has_accepted;

void begin_links(void);
void put_bytes(Pipe *pipe, const char *from, size_t length);
size_t take_bytes(Pipe *pipe, char *to, size_t most);
Link *connect_link(void);
// The link that the program has opened itself, once it has.
Link *opened_link(void);
bool has_connection(void);
bool can_receive(const Link *link);
bool can_send(const Link *link);
void reset_link(Link *link);
// Whether no more bytes come from the program.
bool has_ended(const Link *link);
// Whether a descriptor is one of the simulation.
bool is_simulated(int descriptor);
ssize_t receive(int descriptor, void *to, size_t most);
ssize_t transmit(int descriptor, const void *from, size_t length);
int close_simulated(int descriptor);
int control_simulated(int descriptor, int command, long argument);

// ---- threads.c ----

void find_real_calls(void);
long system_call(long number, long a, long b, long c, long d, long e, long f);

// ---- files.c ----

extern Pipe printed, complained, typed;
extern bool is_disk_full, is_typed_ended;
void begin_files(bool has_operator);
bool can_read_typed(void);

// ---- memory.c, switches.c ----

// Once in how many times these fail, or 0.
extern unsigned allocation_odds, thread_odds, accept_odds, send_odds, clock_odds, spurious_odds;
void begin_memory(void);
void find_code(uintptr_t *from, uintptr_t *to);

extern uint64_t switch_count;
void prepare_switches(const char *path);
// Only runs of an even seed switch threads within code.
void begin_switches(uint64_t seed);

// ---- scenario.c ----

// The commands of a client, with what follows the word. MS are milliseconds.
typedef enum {
  CONNECT, // MS: connects after so long, once the program listens
  BROWSE,  // MS: the same, by a WebSocket
  SERVE,   // waits until the program has connected, and is its server
  HELLO,   // VERSION: greets by protocol 3, or by this one, and reads the board
  MEET,    // NAME COUNT: waits until so many clients have come to this meeting
  EDIT,    // COUNT OPERATIONS: makes edits of so many operations, of one if no number is given
  ADJUST,  // COUNT OPERATIONS: the same, but the operations only set toggles and sliders
  SPEND,   // makes edits until the server refuses one since the order is full
  HEAR,    // COUNT: waits until so many more edits of others have come
  PING,    // COUNT: sends pings, and does not wait for the pongs
  BEAT,    // COUNT: sends frames to which a server of browsers has to answer
  PONGS,   // waits for all pongs
  SYNC,    // sends a ping, and waits for all pongs
  STALL,   // MS: sends and takes nothing
  PAUSE,   // MS: does nothing but take lines
  RAW,     // TEXT: sends this
  POUR,    // COUNT TEXT: sends this so many times. $K in it is how many such texts it has sent before
  TAKEN,   // waits until the program has taken all that it has sent
  STUCK,   // fails if the program has taken all that it has sent
  EXPECT,  // TEXT: waits for a line that begins with this
  HALF,    // sends the first half of an edit
  SHUT,    // ends its bytes
  RESET,   // resets its link
  CUT,     // HOW: its connection breaks, by `reset`, by its `end`, `silent`, or so that its bytes come `late`. Without a word the seed chooses. It does not connect again by itself
  CUTS,    // COUNT SPAN: from here on its connection breaks so often, each time within so many microseconds. It connects again soon
  RESUME,  // MS MOST: connects again after a time between these, also beside a connection that still works
  CONFIRM, // LINES: from here on it confirms after so many lines, and not after 64
  CLOSED,  // waits until the program has closed the link
  BYE,     // sends `bye`, and takes all up to the bye of the server and the end of the link
  GONE,    // takes all up to the end of the link, whatever comes
  REFUSED, // NUMBER: the same, but the last line is this error
  AGREE,   // NAME COUNT: meets the others once they have sent all, and notes its board, which has to be that of all and of the program
  KEPT,    // MS: waits for so long. The file of the program has to have its board then
  DEAF,    // takes nothing from here on
  LISTEN,  // takes lines again
  MEND,    // from here on nothing fails by the seed
  TYPE,    // TEXT: types this into the program's standard input, or ends that if there is no text
  DISK,    // full, works: from here on the disk is full, or works
} Verb;

typedef struct {
  Verb verb;
  long number, other;
  char *text;
  int line;
} Command;

// A text in which $K is this number, and $J one more.
char *numbered(const char *text, int number);
// Makes the clients of a scenario, and sets what fails.
void read_scenario(const char *path);

// ---- sites.c ----

typedef struct Site Site;
Site *new_site(Stream *draws);
// Takes a line of the server: the welcome, the board up to `ready`, and then edits and acknowledgements. Returns what is wrong with it, or NULL.
const char *take_line(Site *site, const char *line);
bool is_open(const Site *site);
// Makes an edit of so many operations at places that it draws, and appends its lines. It may have to consist of settings.
void make_edit(Site *site, int operations, bool is_of_settings, Pipe *to);
// Appends the acknowledgement that the site owes, if it owes one.
void pay(Site *site, Pipe *to);
long edits_heard(const Site *site);
// How many edits it has made, what its number is, and the number of the last insertion that it has heard of another site.
long edits_made(const Site *site);
unsigned number_of_site(const Site *site);
long last_insertion_of(const Site *site, unsigned author);
// How many of its edits the server is not known to have taken.
long edits_waiting(const Site *site);
// Appends the board as the program prints one.
void print_board(const Site *site, Pipe *to);

// ---- frames.c ----

// The request by which a browser opens a link.
void put_upgrade(Pipe *to);
// A frame that asks for an answer, as browsers send none by themselves and other clients may.
void put_ping(Pipe *to);
// Lines as one message.
void put_message(Pipe *to, const char *lines, size_t length);
// Puts what a client has sent into a link, as lines or as a message.
void put_sent(const Client *client, Link *link, const char *from, size_t length);
// Takes the next message, frame or head that is whole. Appends the lines of a message, and the answer to a ping. Returns what is wrong, or NULL.
const char *take_frame(Client *client, bool *is_whole);

// ---- lasting.c ----

// A link of protocol 4: where it stands, and the lines of both ways.
typedef struct Lasting Lasting;
// Greets by the first line of protocol 4.
void greet_by_note(Client *client);
// Puts whole lines on the way up.
void put_on_link(Client *client, const char *text, size_t length);
// Takes a line that the connection has brought, and says whether it is the next one of the link. Returns what is wrong with it, or NULL.
const char *take_carried(Client *client, const char *line, bool *is_next);
// What is wrong with what the server has confirmed when this pong comes, or NULL.
const char *test_confirmed(const Client *client, long pong);
// The connection breaks, in this way or as the seed chooses. The client connects again soon, unless it holds.
void break_connection(Client *client, const char *how);
void hold_connection(Client *client);
void begin_cuts(Client *client, long count, long span);
void confirm_after(Client *client, long lines);
// Connects again, and goes on.
void resume_link(Client *client);
// Whether there is something to do beside the commands, and when there is next, or NEVER.
bool has_to_tend(const Client *client);
int64_t next_tending_of(const Client *client);
// Whether the server has said nothing for too long. Whether nobody listens any more to a client that connects again.
bool is_unanswered(const Client *client);
bool finds_nobody(const Client *client);
void meet_nobody(Client *client);
void tend(Client *client);
// These bytes are about to be sent. Something has come.
void note_written(Client *client, const char *bytes, size_t length);
void note_heard(Client *client);
bool is_link_over(const Client *client);
// Whether the link has ended without a last line, as it may.
bool has_run_out(const Client *client);
// Whether it is known which lines had their effect, how many edits and insertions these are at least, and how many edits are whole.
bool is_effect_known(const Client *client);
long edits_with_effect(const Client *client);
long insertions_with_effect(const Client *client);
long edits_put(const Client *client);

// ---- clients.c ----

// What is known of a number.
typedef struct {
  long least, most;
} Bounds;

struct Client {
  Task *task;
  char *name;
  Command *commands;
  int count, at;
  bool has_begun; // whether its command has begun
  long left;      // what is left of its command
  int64_t until;  // when its command ends, if that waits for a time
  Link *link;
  Site *site;
  Stream draws;
  Pipe unsent, unread, lines; // what it has still to send, has received, and has received as lines
  bool is_browser, is_upgraded, is_stalled, is_deaf, is_losing, is_lost, has_bye;
  int error;         // the number of the last line, if that is an error
  long pings, pongs; // how many it has sent, and received
  int poured;        // how many texts it has poured
  long heard;        // how many edits of others its commands have asked for
  bool has_expected; // whether the line came that its command waits for
  Pipe agreed;       // its board, once all have agreed
  Lasting *lasting;  // its link of protocol 4, or NULL
  Bounds arrived;    // how many edits of its earlier links are in the order
};

Client *new_client(const char *name);
// How many of its edits are in the order, of this link and of earlier ones.
Bounds edits_arrived(const Client *client);
bool can_step(const Client *client);
void step(Client *client);
bool has_finished(const Client *client);
// When its command can go on that waits for a time, or NEVER.
int64_t next_event_of(const Client *client);
void say(Client *client, const char *text, size_t length);

// ---- runs.c ----

// A run ends with this verdict, which is 0 if all was well, and with a report if it was not.
_Noreturn void end_run(int verdict, const char *report);

// ---- judge.c ----

// Whether links may end early, since something fails by the seed.
extern bool may_be_lost;
// Whether a link of protocol 4 may not, once its `ready` has come.
extern bool do_links_last;
// What the program has to print, or NULL.
extern const char *due_print;
// Fails unless the program's file has the board that a client has.
void compare_kept(const Client *client);
// The program ends with this status.
_Noreturn void finish(int status);
#endif
