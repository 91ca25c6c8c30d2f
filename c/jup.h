// jup.h: a client of the protocol of docs/WIRE.md, without sockets, threads or waiting.
//
// The caller carries the bytes. It gives the bytes of the server to jup_feed, and sends what jup_take hands out. In between it makes edits by
// jup_edit, and reads the board as it is, or change by change by jup_next_change. The crate jup_c defines these functions, and each is proved.
//
// A client is one word. Its owner makes it all zero (JUP_CLIENT_NONE), opens it by jup_open and frees it by jup_close. It may be moved to another place,
// if the old copy is then not used. A call on a client that is closed or was never opened answers JUP_CLOSED, or says that there is nothing.
//
// Threads: a client takes one call at a time. It may go from thread to thread if a lock, or the like, orders the calls. Clients share nothing.
// Links: a client of jup_open has one connection, and its session ends with it (protocol 3). A client of jup_open_lasting has a link that outlives its
// connections (protocol 4). The program says by jup_cut that a connection broke, and by jup_resume that it has another one. Meanwhile its user edits on.
// Memory: malloc, realloc and free of the program. A call for which they have no memory answers JUP_NO_MEMORY.
// Answers: JUP_OK, the number of a fault as docs/WIRE.md lists them, or one of the numbers from 90 on, which are below.
// Outputs: if a call is refused, its told, copied or len is 0, and its other outputs are as they were. So is the output of jup_next_change if that answers 0.
//
// What the caller owes, since no call can test it. Each pointer is valid for the length that is given, and none is null, also if the length is 0. What a call
// writes overlaps nothing else that it is given. A jup_client is all zero, or as these functions left it.
#ifndef JUP_H
#define JUP_H

// The version of this header. A program that was built against an older one runs with the library.
//     1: all functions up to jup_label
//     2: jup_open_lasting, jup_cut, jup_resume, jup_elapse, jup_token, jup_arrived, their answers, and JUP_MISPLACED
#define JUP_VERSION 2

#include <stddef.h>
#include <stdint.h>

#ifdef __cplusplus
extern "C" {
#endif

typedef struct jup_client {
    void *inside;
} jup_client;

#define JUP_CLIENT_NONE { 0 }

// Answers. An edit can be refused by each number up to JUP_STOPPED.
enum {
    JUP_OK = 0,
    JUP_NO_WINDOW = 1,
    JUP_NO_WIDGET = 2,
    JUP_WRONG_KIND = 3,
    JUP_BAD_PLACE = 4,
    JUP_BAD_VALUE = 5,
    JUP_LONG_TEXT = 6,
    JUP_BACKLOG = 7, /* 1,024 edits are not acknowledged, or of a lasting link 1,000 pings: feed what the server sends, and try again */
    JUP_NO_MEMORY = 8,
    JUP_SPENT = 9,
    JUP_BAD_LABEL = 14,
    JUP_BAD_BATCH = 15,
    JUP_STOPPED = 25,
    JUP_NO_SUCH_LINK = 35, /* the server has ended the link, or does not know it: jup_arrived says what it took, if the server said so */
    JUP_BAD_TAKEN = 36,    /* a count of lines that the server or the client can't have */
    JUP_LINES_SPENT = 37,  /* the link has all lines that it may have: only jup_bye is left */
    JUP_BAD_VERSION = 42,  /* the server does not have protocol 4: connect again with jup_open */
    JUP_MISPLACED = 44,    /* a line out of its place. So is the server's own goodbye */
    JUP_CLOSED = 90,      /* the client is closed, or was never opened */
    JUP_NOT_OPEN = 91,    /* the server has not sent its whole board yet */
    JUP_BAD_COMMAND = 92, /* a command of no kind, or a character that is no Unicode scalar value */
    JUP_STRANGE = 93,     /* the server ended the session with a number that is no fault's */
    JUP_UNTOLD = 94,      /* jup_ask did what was asked, and had no memory for what it tells */
    JUP_CUT = 95,         /* this connection does not carry the link: close it, and connect again by jup_resume */
    JUP_CARRIED = 96,     /* a connection carries the link, or is to: jup_cut comes first */
    JUP_NOT_LASTING = 97  /* jup_open opened the client: it has one connection */
};

// How far a session is.
enum { JUP_GREETING = 0, JUP_OPENING = 1, JUP_OPEN = 2, JUP_OVER = 3, JUP_NONE = 4 };

// Kinds of widgets.
enum { JUP_TEXT = 1, JUP_LIST = 2, JUP_TOGGLE = 3, JUP_SLIDER = 4 };

// Kinds of commands, and of changes. A change of the kind JUP_NOTHING left the board as it was.
enum {
    JUP_NOTHING = 0,
    JUP_INSERT_CHAR = 1,
    JUP_INSERT_LABEL = 2,
    JUP_DELETE = 3,
    JUP_RELABEL = 4,
    JUP_SET_TOGGLE = 5,
    JUP_SET_SLIDER = 6
};

typedef struct jup_command {
    uint32_t kind;
    uint16_t win, wid;  /* the ids of the window and of the widget */
    uint32_t place;     /* from 0 */
    int32_t value;      /* a Unicode scalar value, 0 or 1 of a toggle, or the value of a slider */
    uint32_t label_len; /* 1 to 48 */
    uint8_t label[48];  /* bytes from ' ' to '~' */
} jup_command;

typedef struct jup_widget {
    uint16_t win, wid;
    uint32_t kind;
    uint32_t items; /* how many characters a text has, or items a list */
    int32_t lo, hi; /* the bounds of a slider */
    int32_t value;  /* 0 or 1 of a toggle, or the value of a slider */
} jup_widget;

typedef struct jup_change {
    uint32_t kind;
    uint16_t win, wid;
    uint32_t place;        /* in the text or list as the changes before this one left it */
    uint32_t site, number; /* the name of the item: the number of its site, and its own */
    int32_t value;         /* as of a command */
    uint32_t label_len;
    uint8_t label[48];
} jup_change;

// Opens a client in the place of the one that was there, if any. Its greeting then waits to be sent. If watch is not 0, the client keeps each change of
// its board until jup_next_change tells it.
uint32_t jup_open(jup_client *client, uint32_t watch);

// Frees a client, if there is one.
void jup_close(jup_client *client);

// How far the session is. The fault is the number that ended it if it is over, and 0 if not.
uint32_t jup_stage(jup_client *client, uint32_t *fault);

// Takes bytes that the server sent, cut anywhere. The client hears their lines in order. A fault ends the session, and is the answer of each later call. The
// answer JUP_NO_MEMORY is such a fault too: an allocation failed here, or the server reports that one failed there. JUP_CUT alone ends no session: it says that
// this connection does not carry the lasting link. After any other end of a lasting link take and send what waits once more, since the server waits for it.
uint32_t jup_feed(jup_client *client, const uint8_t *bytes, size_t len);

// How many bytes wait to be sent. Of a lasting link it is 1 if something waits for this connection, and 0 if not: take until jup_take answers 0.
size_t jup_waiting(jup_client *client);

// Moves up to len of the bytes that wait, the oldest first, and answers how many. Each comes out once: send them all, in this order. Of a lasting link they
// are for the present connection. If there is no memory for what such a client keeps, fewer come, and the others wait.
size_t jup_take(jup_client *client, uint8_t *to, size_t len);

// Makes one edit of 1 to 32 commands, each of the board after those before it. The board shows it immediately, and its message waits to be sent. If a command is
// refused, the call answers the number of its fault, and changes nothing.
uint32_t jup_edit(jup_client *client, const jup_command *commands, size_t count);

// Asks the server for all that it has. Once that has come, jup_is_synced answers 1.
uint32_t jup_ping(jup_client *client);

// 1 if the server has answered the last ping, and 0 if not, or if there was none.
uint32_t jup_is_synced(jup_client *client);

// Says goodbye. The server then ends the session: one connection by ending its bytes, and a lasting link by a last line, for which jup_feed answers JUP_MISPLACED.
uint32_t jup_bye(jup_client *client);

// Does what a line asks for, as the program jup takes it, without its line feed. What jup would print is copied as far as there is room, and told is its whole
// length. It is 0 after a line that begins a batch or goes on with one. A sync is over once jup_is_synced answers 1.
uint32_t jup_ask(jup_client *client, const uint8_t *line, size_t len, uint8_t *to, size_t to_len, size_t *told);

// The oldest change that was not told: 1, or 0 if there is none. A copy of the board that takes each change in turn is the board once none is left.
uint32_t jup_next_change(jup_client *client, jup_change *out);

// The number of the client's site, and how many of its edits the server has not acknowledged.
uint32_t jup_site(jup_client *client, uint32_t *number, uint32_t *backlog);

// The id of the window at an index from 0, and how many widgets it has. JUP_NO_WINDOW after the last.
uint32_t jup_window(jup_client *client, size_t index, uint16_t *win, size_t *widgets);

// The widget at an index of the window at an index. JUP_NO_WIDGET after the last.
uint32_t jup_widget_at(jup_client *client, size_t window, size_t index, jup_widget *out);

// Copies up to len characters of a text, from a place on. JUP_NO_WIDGET if there is no such text.
uint32_t jup_text(jup_client *client, uint16_t win, uint16_t wid, uint32_t place, uint32_t *to, size_t len, size_t *copied);

// Copies the label at a place of a list as far as there is room. len is its whole length. JUP_BAD_PLACE if there is no such list, or no item there.
uint32_t jup_label(jup_client *client, uint16_t win, uint16_t wid, uint32_t place, uint8_t *to, size_t to_len, size_t *len);

// Since version 2.

// Opens a client of a link that outlives its connections, as jup_open opens one of a connection. Its first line then waits to be sent. A server without
// protocol 4 ends it by JUP_BAD_VERSION.
uint32_t jup_open_lasting(jup_client *client, uint32_t watch);

// Says that the connection broke. The stage is as it was, and edits go on. What was taken and did not arrive comes again on the next connection. Without a
// connection nothing changes.
uint32_t jup_cut(jup_client *client);

// Asks a new connection to carry the link: the line for that waits to be sent. Without memory nothing changes. It answers JUP_CARRIED if neither jup_cut nor the
// answer JUP_CUT came before, and the number of the end if the session is over.
uint32_t jup_resume(jup_client *client);

// Says that so many seconds passed since the last such call. It answers 1 if no byte has come on this connection for 90 seconds: then close it, and call
// jup_cut. If nothing was taken for 60 seconds, what the client has to send then waits.
uint32_t jup_elapse(jup_client *client, uint32_t seconds);

// Copies the token of the link, which has 32 digits, as far as there is room. The server lets the link wait so many seconds without a connection. kept is 1 if
// what the server has confirmed outlives the server. JUP_NOT_OPEN until the server has opened the link.
uint32_t jup_token(jup_client *client, uint8_t *to, size_t len, uint32_t *seconds, uint32_t *kept);

// How many of the client's edits had their effect: the first ones that it made. JUP_NOT_OPEN unless the link is over and the server has said that.
uint32_t jup_arrived(jup_client *client, uint32_t *edits);

#ifdef __cplusplus
}
#endif

#endif
