// test: the functions of jup.h, each called, against what docs/WIRE.md and the header say. The last line is 'N passed, M failed'.
//
// It shows that the header and the library agree on sizes, on offsets of fields and on the order of parameters. It also shows that calls on closed clients, on
// clients that were never opened and on clients that are opened twice do no harm. tools/library runs it, under the address sanitizer and under valgrind too.
#include "testing.h"

static const char *const greeted =
    "welcome 7 100\nwindow 2\ntext 3\nchar 0.1 104\nchar 0.2 233\nlist 4\nitem 0.3 tea\nwindow 5\ntoggle 6 off\nslider 8 -9 10 5\nready\n";

static const jup_command insertion = { .kind = JUP_INSERT_CHAR, .win = 2, .wid = 3, .value = 'a' };
// Numbers that are no command.
static const jup_command no_command = { .kind = 77 };

static jup_client opened_with(const char *greeting, uint32_t watch) {
    jup_client client = JUP_CLIENT_NONE;
    expect(jup_open(&client, watch) == JUP_OK, "a client is opened");
    expect(feed(&client, greeting) == JUP_OK, "it takes the greeting of its server");
    expect(says(&client, "hello 3\n"), "its own greeting waits");
    return client;
}

static jup_client opened(uint32_t watch) {
    return opened_with(greeted, watch);
}

static void test_sizes(void) {
    expect(sizeof(jup_client) == sizeof(void *), "a client is one word");
    expect(sizeof(jup_command) == 68, "a command has 68 bytes");
    expect(sizeof(jup_widget) == 24, "a widget has 24 bytes");
    expect(sizeof(jup_change) == 72 + 4, "a change has 76 bytes");
}

static void test_stages(void) {
    jup_client client = JUP_CLIENT_NONE;
    uint32_t fault = 9;
    jup_open(&client, 0);
    expect(jup_stage(&client, &fault) == JUP_GREETING && fault == 0, "the server has not greeted");
    expect(feed(&client, "welcome 1 100\nwin") == JUP_OK, "a line is cut");
    expect(jup_stage(&client, &fault) == JUP_OPENING, "lines of the board come");
    expect(feed(&client, "dow 1\nready\n") == JUP_OK && jup_stage(&client, &fault) == JUP_OPEN, "the session is open");
    expect(feed(&client, "error 32\n") == 32, "the server ends the session by a fault");
    expect(is_over(&client, 32), "the session is over by it");
    expect(feed(&client, "ack 0\n") == 32, "it stays the answer");
    jup_close(&client);
    jup_open(&client, 0);
    expect(feed(&client, "error 4000\n") == JUP_STRANGE, "a strange number has one of the library");
    jup_close(&client);
}

// Nothing is shown before the last byte. The first line has 14 bytes.
static void test_byte_by_byte(void) {
    jup_client client = JUP_CLIENT_NONE;
    uint32_t fault, number, backlog;
    uint16_t win;
    size_t widgets, last = strlen(greeted) - 1;
    jup_open(&client, 0);
    for (size_t k = 0; k < last; k++) {
        expect(jup_site(&client, &number, &backlog) == JUP_NOT_OPEN && jup_window(&client, 0, &win, &widgets) == JUP_NO_WINDOW, "nothing is shown yet");
        expect(jup_feed(&client, (const uint8_t *)greeted + k, 1) == JUP_OK, "a byte is taken");
        expect(jup_stage(&client, &fault) == (k < 13 ? JUP_GREETING : JUP_OPENING) && fault == 0, "the stage is that of the whole lines");
    }
    expect(jup_feed(&client, (const uint8_t *)greeted + last, 1) == JUP_OK, "the last byte is taken");
    expect(jup_stage(&client, &fault) == JUP_OPEN && is_site(&client, 7, 0), "the session is open");
    jup_close(&client);
}

// Each line ends the session by the fault of docs/WIRE.md, and nothing is done after it.
static void test_ends(void) {
    static const struct { const char *line; uint32_t fault; } ends[] = {
        { "error 30\n", 30 },
        { "ready\n", 44 },
        { "welcom\n", 40 },
        { "welcome 1 100\nwindow 0\nready\n", 12 },
    };
    uint8_t text[8];
    size_t told;
    for (size_t k = 0; k < sizeof ends / sizeof *ends; k++) {
        jup_client client = JUP_CLIENT_NONE;
        uint32_t fault = ends[k].fault;
        jup_open(&client, 1);
        expect(feed(&client, ends[k].line) == fault && is_over(&client, fault), ends[k].line);
        expect(feed(&client, greeted) == fault && is_over(&client, fault), "it hears nothing more");
        expect(jup_edit(&client, &insertion, 1) == fault && jup_ping(&client) == fault && jup_bye(&client) == fault, "it takes no edit, ping or goodbye");
        expect(jup_edit(&client, &no_command, 1) == fault, "nor numbers that are no command");
        expect(jup_ask(&client, (const uint8_t *)"show", 4, text, sizeof text, &told) == fault && told == 0, "and no line");
        expect(says(&client, "hello 3\n") && tells_nothing(&client), "only its greeting waits");
        jup_close(&client);
    }
}

// Bytes come out in order and once, also if more of them wait after a part was taken.
static void test_takes(void) {
    jup_client client = JUP_CLIENT_NONE;
    uint8_t piece[3];
    jup_open(&client, 0);
    expect(jup_take(&client, piece, 3) == 3 && memcmp(piece, "hel", 3) == 0, "the oldest bytes are taken");
    expect(says(&client, "lo 3\n"), "the others wait");
    expect(jup_take(&client, piece, 3) == 0 && jup_waiting(&client) == 0, "none comes out twice");
    expect(feed(&client, greeted) == JUP_OK && jup_ping(&client) == JUP_OK, "a ping waits");
    expect(jup_take(&client, piece, 2) == 2 && memcmp(piece, "pi", 2) == 0, "a part of it is taken");
    expect(jup_edit(&client, &insertion, 1) == JUP_OK, "an edit is made");
    expect(says(&client, "ng 1\nbatch 0 0 1\ndo 2 3 text ins 0 7.1 97\n"), "the rest of the ping and the edit wait");
    jup_close(&client);
}

#define LONGEST "xxxxxxxxxxxxxxxxxxxxxxxxxxxxxxxxxxxxxxxxxxxxxxxy"

// An edit of three kinds of commands. The second has the longest label.
static void test_edits(void) {
    jup_client client = opened(1);
    jup_command commands[3] = {
        { .kind = JUP_INSERT_CHAR, .win = 2, .wid = 3, .place = 1, .value = 0x1F600 },
        { .kind = JUP_INSERT_LABEL, .win = 2, .wid = 4, .place = 1, .label_len = 48 },
        { .kind = JUP_SET_TOGGLE, .win = 5, .wid = 6, .value = 1 },
    };
    memcpy(commands[1].label, LONGEST, 48);
    expect(jup_edit(&client, commands, 3) == JUP_OK && is_site(&client, 7, 1), "an edit of three commands, which is not acknowledged");
    expect(says(&client, "batch 0 0 3\ndo 2 3 text ins 1 7.1 128512\ndo 2 4 list ins 1 7.2 " LONGEST "\ndo 5 6 toggle set on\n"), "its message waits");
    expect(answers(&client, "show", "window 2\ntext 3 \"h\\u{1f600}\\u{e9}\"\nlist 4 \"tea\" \"" LONGEST "\"\nwindow 5\ntoggle 6 on\nslider 8 -9 10 5\n"),
        "the board shows it");
    jup_change changes[3] = {
        { .kind = JUP_INSERT_CHAR, .win = 2, .wid = 3, .place = 1, .site = 7, .number = 1, .value = 0x1F600 },
        { .kind = JUP_INSERT_LABEL, .win = 2, .wid = 4, .place = 1, .site = 7, .number = 2, .label_len = 48 },
        { .kind = JUP_SET_TOGGLE, .win = 5, .wid = 6, .value = 1 },
    };
    memcpy(changes[1].label, LONGEST, 48);
    for (size_t k = 0; k < 3; k++) expect(tells(&client, &changes[k]), "each change is told");
    expect(tells_nothing(&client), "there is no fourth");
    expect(feed(&client, "ack 1\n") == JUP_OK && is_site(&client, 7, 0), "the edit is acknowledged");
    jup_close(&client);
}

static void test_settings(void) {
    jup_client client = opened(1);
    jup_command toggle = { .kind = JUP_SET_TOGGLE, .win = 5, .wid = 6, .value = 1 }, slider = { .kind = JUP_SET_SLIDER, .win = 5, .wid = 8, .value = -9 };
    jup_command label = { .kind = JUP_RELABEL, .win = 2, .wid = 4, .label_len = 1, .label = "m" }, gone = { .kind = JUP_DELETE, .win = 2, .wid = 3, .place = 1 };
    expect(jup_edit(&client, &toggle, 1) == JUP_OK && says(&client, "batch 0 0 1\ndo 5 6 toggle set on\n"), "a toggle is set");
    expect(jup_edit(&client, &slider, 1) == JUP_OK && says(&client, "batch 1 0 1\ndo 5 8 slider set -9\n"), "a slider is set");
    expect(jup_edit(&client, &label, 1) == JUP_OK && says(&client, "batch 2 0 1\ndo 2 4 list rel 0 0.3 m\n"), "an item gets a label");
    expect(jup_edit(&client, &gone, 1) == JUP_OK && says(&client, "batch 3 0 1\ndo 2 3 text del 1 0.2\n"), "a character is deleted");
    expect(tells(&client, &(jup_change){ .kind = JUP_SET_TOGGLE, .win = 5, .wid = 6, .value = 1 }), "the toggle is told");
    expect(tells(&client, &(jup_change){ .kind = JUP_SET_SLIDER, .win = 5, .wid = 8, .value = -9 }), "the slider is told");
    expect(tells(&client, &(jup_change){ .kind = JUP_RELABEL, .win = 2, .wid = 4, .number = 3, .label_len = 1, .label = "m" }), "the label is told");
    expect(tells(&client, &(jup_change){ .kind = JUP_DELETE, .win = 2, .wid = 3, .place = 1, .number = 2 }) && tells_nothing(&client), "the deletion is told");
    jup_close(&client);
}

// The own character at place 0 is before the one that another inserted at place 1. The own setting is later in the order than the other's.
static void test_edits_of_others(void) {
    jup_client client = opened(1);
    jup_command slider = { .kind = JUP_SET_SLIDER, .win = 5, .wid = 8, .value = 7 };
    expect(jup_edit(&client, &insertion, 1) == JUP_OK && jup_edit(&client, &slider, 1) == JUP_OK, "two edits of its own");
    expect(feed(&client, "batch 0 0 3\ndo 2 3 text ins 1 2.1 98\ndo 2 4 list rel 0 0.3 milk\ndo 5 8 slider set 3\n") == JUP_OK, "an edit of another comes");
    jup_change changes[] = {
        { .kind = JUP_INSERT_CHAR, .win = 2, .wid = 3, .site = 7, .number = 1, .value = 'a' },
        { .kind = JUP_SET_SLIDER, .win = 5, .wid = 8, .value = 7 },
        { .kind = JUP_INSERT_CHAR, .win = 2, .wid = 3, .place = 2, .site = 2, .number = 1, .value = 'b' },
        { .kind = JUP_RELABEL, .win = 2, .wid = 4, .number = 3, .label_len = 4, .label = "milk" },
        { .kind = JUP_NOTHING, .win = 5, .wid = 8 },
    };
    for (size_t k = 0; k < sizeof changes / sizeof *changes; k++) expect(tells(&client, &changes[k]), "each change is told as the board took it");
    expect(tells_nothing(&client), "there is no sixth");
    expect(answers(&client, "show", "window 2\ntext 3 \"ahb\\u{e9}\"\nlist 4 \"milk\"\nwindow 5\ntoggle 6 off\nslider 8 -9 10 7\n"), "the board shows it");
    jup_close(&client);
}

static void test_unwatched(void) {
    jup_client client = opened(0);
    expect(jup_edit(&client, &insertion, 1) == JUP_OK && tells_nothing(&client), "a client that nobody watches tells no edit");
    expect(feed(&client, "batch 0 0 1\ndo 5 6 toggle set on\n") == JUP_OK && tells_nothing(&client), "and none of others");
    jup_close(&client);
}

// Whether an edit of one command is refused by this number.
static int refuses(jup_client *client, jup_command command, uint32_t fault) {
    return jup_edit(client, &command, 1) == fault;
}

static void test_refusals(void) {
    jup_client client = opened(1);
    jup_command many[33], one = insertion;
    for (int k = 0; k < 33; k++) many[k] = one;
    expect(jup_edit(&client, many, 33) == JUP_BAD_BATCH, "33 commands are refused");
    expect(jup_edit(&client, many, 0) == JUP_BAD_BATCH, "no command is refused");
    many[1].place = 9;
    expect(jup_edit(&client, many, 2) == JUP_BAD_PLACE, "a bad place is refused");
    one.win = 9;
    expect(refuses(&client, one, JUP_NO_WINDOW), "no such window");
    one.win = 2;
    one.wid = 9;
    expect(refuses(&client, one, JUP_NO_WIDGET), "no such widget");
    one.wid = 4;
    expect(refuses(&client, one, JUP_WRONG_KIND), "a list takes no character");
    one.wid = 3;
    one.value = 0xD800;
    expect(refuses(&client, one, JUP_BAD_COMMAND), "a surrogate is no character");
    one.kind = 9;
    expect(refuses(&client, one, JUP_BAD_COMMAND), "no such kind");
    expect(refuses(&client, (jup_command){ .kind = JUP_SET_SLIDER, .win = 5, .wid = 8, .value = 11 }, JUP_BAD_VALUE), "a value past the bounds");
    one.kind = JUP_INSERT_LABEL;
    one.label_len = 49;
    expect(refuses(&client, one, JUP_BAD_LABEL), "a label of 49 bytes");
    one.label_len = 0;
    expect(refuses(&client, one, JUP_BAD_LABEL), "a label of none");
    expect(jup_waiting(&client) == 0 && tells_nothing(&client) && is_site(&client, 7, 0), "no refusal leaves anything");
    jup_close(&client);
}

// A client keeps 1,024 edits that are not acknowledged, and makes as many as the limit of its server.
static void test_limits(void) {
    jup_client client = opened_with("welcome 1 1025\nwindow 2\ntext 3\nready\n", 0);
    for (int k = 0; k < 1024; k++) expect(jup_edit(&client, &insertion, 1) == JUP_OK, "an edit is made");
    expect(jup_edit(&client, &insertion, 1) == JUP_BACKLOG && is_site(&client, 1, 1024), "none more is kept");
    expect(feed(&client, "ack 1\n") == JUP_OK && jup_edit(&client, &insertion, 1) == JUP_OK, "one is acknowledged, and one more is made");
    expect(feed(&client, "ack 1025\n") == JUP_OK && is_site(&client, 1, 0), "all are acknowledged");
    expect(jup_edit(&client, &insertion, 1) == JUP_SPENT, "the limit is reached");
    jup_close(&client);
}

// Whether the widget at an index is this one, and nothing is written past it. The fields that its kind does not use are 0.
static int has(jup_client *client, size_t window, size_t index, const jup_widget *due) {
    struct { jup_widget widget; uint8_t guard[16]; } out;
    memset(&out, 0xAA, sizeof out);
    int is_there = jup_widget_at(client, window, index, &out.widget) == JUP_OK && memcmp(&out.widget, due, sizeof *due) == 0;
    for (size_t k = 0; k < sizeof out.guard; k++) is_there = is_there && out.guard[k] == 0xAA;
    return is_there;
}

static int has_window(jup_client *client, size_t index, uint16_t id, size_t count) {
    uint16_t win = 0;
    size_t widgets = 99;
    return jup_window(client, index, &win, &widgets) == JUP_OK && win == id && widgets == count;
}

static void test_widgets(void) {
    jup_client client = opened_with("welcome 1 100\nwindow 3\nwindow 7\ntext 1\nchar 0.1 104\nchar 0.2 105\nlist 4\nitem 0.3 tea\nitem 0.4 milk\n"
                                    "toggle 5 on\nslider 6 -3 10 5\nready\n", 0);
    uint16_t win;
    size_t widgets;
    jup_widget widget;
    expect(has_window(&client, 0, 3, 0), "a window without widgets");
    expect(has_window(&client, 1, 7, 4), "a window of four widgets");
    expect(jup_window(&client, 2, &win, &widgets) == JUP_NO_WINDOW, "there is no third");
    expect(has(&client, 1, 0, &(jup_widget){ .win = 7, .wid = 1, .kind = JUP_TEXT, .items = 2 }), "a text");
    expect(has(&client, 1, 1, &(jup_widget){ .win = 7, .wid = 4, .kind = JUP_LIST, .items = 2 }), "a list");
    expect(has(&client, 1, 2, &(jup_widget){ .win = 7, .wid = 5, .kind = JUP_TOGGLE, .value = 1 }), "a toggle");
    expect(has(&client, 1, 3, &(jup_widget){ .win = 7, .wid = 6, .kind = JUP_SLIDER, .lo = -3, .hi = 10, .value = 5 }), "a slider");
    expect(jup_widget_at(&client, 0, 0, &widget) == JUP_NO_WIDGET, "there is none in the first window");
    expect(jup_widget_at(&client, 1, 4, &widget) == JUP_NO_WIDGET, "there is no fifth");
    expect(jup_widget_at(&client, 2, 0, &widget) == JUP_NO_WIDGET, "and none in a window that is not there");
    jup_close(&client);
}

// Whether the characters from a place on, as far as there is room, are copied to the front of "...".
static int copies(jup_client *client, uint32_t place, size_t room, size_t count, uint32_t first, uint32_t second) {
    uint32_t to[3] = { '.', '.', '.' };
    size_t copied = 99;
    return jup_text(client, 2, 3, place, to, room, &copied) == JUP_OK && copied == count && to[0] == first && to[1] == second && to[2] == '.';
}

static void test_texts(void) {
    jup_client client = opened(0);
    uint32_t to[3];
    size_t count = 99;
    expect(copies(&client, 0, 3, 2, 104, 233), "a text's characters");
    expect(copies(&client, 1, 3, 1, 233, '.'), "from its second on");
    expect(copies(&client, 0, 1, 1, 104, '.'), "as far as there is room");
    expect(copies(&client, 9, 3, 0, '.', '.'), "past its end");
    expect(jup_text(&client, 2, 4, 0, to, 3, &count) == JUP_NO_WIDGET && count == 0, "a list is no text");
    expect(jup_text(&client, 9, 3, 0, to, 3, &count) == JUP_NO_WIDGET && count == 0, "there is no such window");
    jup_close(&client);
}

static void test_labels(void) {
    jup_client client = opened(0);
    uint8_t label[5] = "....";
    size_t count = 99;
    expect(feed(&client, "batch 0 0 1\ndo 2 4 list ins 1 2.1 milk\n") == JUP_OK, "a second item comes");
    expect(jup_label(&client, 2, 4, 0, label, 2, &count) == JUP_OK && count == 3 && memcmp(label, "te..", 4) == 0, "a label, as far as there is room");
    expect(jup_label(&client, 2, 4, 0, label, 4, &count) == JUP_OK && count == 3 && memcmp(label, "tea.", 4) == 0, "nothing is written after a label");
    expect(jup_label(&client, 2, 4, 1, label, 4, &count) == JUP_OK && count == 4 && memcmp(label, "milk", 4) == 0, "a whole label");
    expect(jup_label(&client, 2, 4, 2, label, 4, &count) == JUP_BAD_PLACE && count == 0, "there is no third label");
    expect(jup_label(&client, 2, 3, 0, label, 4, &count) == JUP_BAD_PLACE && count == 0, "a text has no label");
    jup_close(&client);
}

static void test_lines(void) {
    static const char *const lines[][2] = {
        { "ins 2 3 0 char \"a\"", "made ins 2 3 7.1 \"a\"\n" },
        { "what", "bad command\n" },
        { "del 2 3 9", "refused 4\n" },
        { "batch 3", "" },
        { "del 2 3 0", "" },
        { "set 5 6 on", "" },
        { "set 5 8 0", "made del 2 3 7.1; set 5 6 on; set 5 8 0\n" },
        { "sync", "synced\n" },
        { "show", "window 2\ntext 3 \"h\\u{e9}\"\nlist 4 \"tea\"\nwindow 5\ntoggle 6 on\nslider 8 -9 10 0\n" },
        { "quit", "bye\n" },
    };
    jup_client client = opened(0);
    uint8_t text[6] = ".....";
    size_t told = 0;
    for (size_t k = 0; k < sizeof lines / sizeof *lines; k++) expect(answers(&client, lines[k][0], lines[k][1]), lines[k][0]);
    expect(says(&client, "batch 0 0 1\ndo 2 3 text ins 0 7.1 97\nbatch 1 0 3\ndo 2 3 text del 0 7.1\ndo 5 6 toggle set on\ndo 5 8 slider set 0\nping 1\nbye\n"),
        "the messages wait");
    expect(jup_ask(&client, (const uint8_t *)"show", 4, text, 4, &told) == JUP_OK && told == 77 && memcmp(text, "wind.", 5) == 0, "a text that is cut");
    jup_close(&client);
}

static void test_pings(void) {
    static const char *const rounds[][2] = { { "ping 1\n", "pong 1\n" }, { "ping 2\n", "pong 2\n" } };
    jup_client client = opened(1);
    expect(jup_is_synced(&client) == 0, "no ping was answered");
    for (size_t k = 0; k < 2; k++) {
        expect(jup_ping(&client) == JUP_OK && jup_is_synced(&client) == 0, "a ping is not answered yet");
        expect(says(&client, rounds[k][0]), "it waits");
        expect(feed(&client, rounds[k][1]) == JUP_OK && jup_is_synced(&client) == 1, "it is answered");
    }
    expect(jup_bye(&client) == JUP_OK && says(&client, "bye\n"), "a goodbye waits");
    jup_close(&client);
}

// What each client refuses leaves counts of 0 in the outputs, and the rest of them as it was.
static void expect_left(jup_client *client, const char *when) {
    uint32_t chars[2] = { 9, 8 };
    uint16_t win = 7;
    size_t widgets = 6, copied = 5, len = 4;
    uint8_t label[4] = "...";
    jup_widget widget, widget_before;
    jup_change change, change_before;
    memset(&widget, 0xAA, sizeof widget);
    memset(&change, 0xAA, sizeof change);
    widget_before = widget;
    change_before = change;
    expect(jup_window(client, 9, &win, &widgets) != JUP_OK && win == 7 && widgets == 6, when);
    expect(jup_widget_at(client, 9, 0, &widget) != JUP_OK && memcmp(&widget, &widget_before, sizeof widget) == 0, when);
    expect(jup_text(client, 9, 3, 0, chars, 2, &copied) != JUP_OK && copied == 0 && chars[0] == 9 && chars[1] == 8, when);
    expect(jup_label(client, 9, 4, 0, label, 3, &len) != JUP_OK && len == 0 && memcmp(label, "...", 4) == 0, when);
    expect(jup_next_change(client, &change) == 0 && memcmp(&change, &change_before, sizeof change) == 0, when);
}

// So does what a client refuses if its session is not open.
static void expect_left_unopened(jup_client *client, const char *when) {
    uint32_t number = 9, backlog = 8;
    size_t told = 7;
    uint8_t text[4] = "...";
    expect_left(client, when);
    expect(jup_site(client, &number, &backlog) != JUP_OK && number == 9 && backlog == 8, when);
    expect(jup_ask(client, (const uint8_t *)"show", 4, text, 3, &told) != JUP_OK && told == 0 && memcmp(text, "...", 4) == 0, when);
}

static void test_outputs(void) {
    jup_client client = JUP_CLIENT_NONE;
    expect_left_unopened(&client, "outputs of a client that was never opened");
    jup_open(&client, 1);
    expect_left_unopened(&client, "outputs before the greeting");
    expect(feed(&client, greeted) == JUP_OK, "the session opens");
    expect_left(&client, "outputs of an open session");
    expect(feed(&client, "error 32\n") == 32, "the session ends");
    expect_left_unopened(&client, "outputs after the end");
    jup_close(&client);
    expect_left_unopened(&client, "outputs of a client that was closed");
}

// All calls on a client that is not there, after `when`.
static void expect_closed(jup_client *client, const char *when) {
    uint32_t number = 9, backlog = 9, chars[1];
    uint16_t win;
    size_t count = 9;
    uint8_t bytes[8];
    jup_widget widget;
    expect(jup_stage(client, &number) == JUP_NONE && number == 0, when);
    expect(jup_feed(client, bytes, 0) == JUP_CLOSED && jup_edit(client, &insertion, 1) == JUP_CLOSED, when);
    expect(jup_edit(client, &no_command, 1) == JUP_CLOSED, when);
    expect(jup_waiting(client) == 0 && jup_take(client, bytes, 8) == 0, when);
    expect(jup_ping(client) == JUP_CLOSED && jup_bye(client) == JUP_CLOSED && jup_is_synced(client) == 0, when);
    expect(jup_ask(client, bytes, 0, bytes + 4, 4, &count) == JUP_CLOSED && count == 0, when);
    expect(tells_nothing(client), when);
    expect(jup_site(client, &number, &backlog) == JUP_CLOSED && jup_window(client, 0, &win, &count) == JUP_CLOSED, when);
    expect(jup_widget_at(client, 0, 0, &widget) == JUP_CLOSED && jup_text(client, 2, 3, 0, chars, 1, &count) == JUP_CLOSED, when);
    expect(jup_label(client, 2, 4, 0, bytes, 8, &count) == JUP_CLOSED, when);
    jup_close(client);
}

static void test_misuse(void) {
    jup_client client = JUP_CLIENT_NONE;
    expect_closed(&client, "a client that was never opened");
    jup_open(&client, 1);
    expect(jup_ping(&client) == JUP_NOT_OPEN && jup_bye(&client) == JUP_NOT_OPEN, "a session that is not open takes no ping");
    expect(jup_edit(&client, &insertion, 1) == JUP_NOT_OPEN && tells_nothing(&client) && jup_waiting(&client) == 8, "and no edit, which leaves nothing");
    expect(jup_open(&client, 0) == JUP_OK && jup_waiting(&client) == 8, "a client is opened in the place of another");
    jup_client moved = client;
    memset(&client, 0, sizeof client);
    expect(feed(&moved, greeted) == JUP_OK, "a client is moved");
    expect_closed(&client, "the place that it left");
    jup_client other = opened(0);
    expect(jup_edit(&other, &insertion, 1) == JUP_OK, "a second client edits");
    expect(says(&moved, "hello 3\n"), "the first is as it was");
    jup_close(&other);
    jup_close(&moved);
    expect_closed(&moved, "a client that was closed");
}

int main(void) {
    test_sizes();
    test_stages();
    test_byte_by_byte();
    test_ends();
    test_takes();
    test_edits();
    test_settings();
    test_edits_of_others();
    test_unwatched();
    test_refusals();
    test_limits();
    test_widgets();
    test_texts();
    test_labels();
    test_lines();
    test_pings();
    test_outputs();
    test_misuse();
    return report();
}
