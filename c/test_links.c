// test_links: the functions of jup.h for a link that outlives its connections, against what docs/WIRE.md and the header say. The last line is 'N passed, M failed'.
//
// There is a line for each misuse in the table of docs/EMBEDDING.md. tools/library runs it, under the address sanitizer and under valgrind too.
#include "testing.h"

#define TOKEN "0f1e2d3c4b5a69788796a5b4c3d2e1f0"

// A board of 11 lines.
static const char *const greeted =
    "welcome 7 100\nwindow 2\ntext 3\nchar 0.1 104\nchar 0.2 233\nlist 4\nitem 0.3 tea\nwindow 5\ntoggle 6 off\nslider 8 -9 10 5\nready\n";
static const char *const shown = "window 2\ntext 3 \"h\\u{e9}\"\nlist 4 \"tea\"\nwindow 5\ntoggle 6 off\nslider 8 -9 10 5\n";

static const jup_command insertion = { .kind = JUP_INSERT_CHAR, .win = 2, .wid = 3, .value = 'a' };

// Whether just these bytes come out for this connection.
static int writes(jup_client *client, const char *due) {
    char bytes[4096];
    size_t count = 0, more;
    int waits = jup_waiting(client) == 1;
    while ((more = jup_take(client, (uint8_t *)bytes + count, sizeof bytes - count)) > 0) count += more;
    return waits == (count > 0) && jup_waiting(client) == 0 && count == strlen(due) && memcmp(bytes, due, count) == 0;
}

static int is_in(jup_client *client, uint32_t stage) {
    uint32_t fault;
    return jup_stage(client, &fault) == stage && (stage == JUP_OVER || fault == 0);
}

// A client with a link and no board yet.
static jup_client linked(void) {
    jup_client client = JUP_CLIENT_NONE;
    expect(jup_open_lasting(&client, 1) == JUP_OK && is_in(&client, JUP_GREETING), "a client is opened");
    expect(writes(&client, "hello 4\n"), "it greets");
    expect(feed(&client, "link " TOKEN " 300\n") == JUP_OK, "the server opens a link");
    return client;
}

static jup_client opened(void) {
    jup_client client = linked();
    expect(feed(&client, greeted) == JUP_OK && is_site(&client, 7, 0), "its session is open");
    return client;
}

// A client that made two edits of two lines each, and whose connection broke. The server has confirmed one line.
static jup_client cut(void) {
    jup_client client = opened();
    expect(jup_edit(&client, &insertion, 1) == JUP_OK && jup_edit(&client, &insertion, 1) == JUP_OK, "it edits");
    expect(writes(&client, "batch 0 0 1\ndo 2 3 text ins 0 7.1 97\nbatch 1 0 1\ndo 2 3 text ins 0 7.2 97\n"), "it says so");
    expect(feed(&client, "got 1\n") == JUP_OK, "the server confirms a line");
    expect(jup_cut(&client) == JUP_OK, "its connection breaks");
    return client;
}

static jup_client resuming(void) {
    jup_client client = cut();
    expect(jup_resume(&client) == JUP_OK && writes(&client, "resume " TOKEN " 11\n"), "it asks another connection");
    return client;
}

static void test_token(void) {
    jup_client client = JUP_CLIENT_NONE;
    uint8_t token[33] = { 0 };
    uint32_t seconds = 9, kept = 9;
    jup_open_lasting(&client, 0);
    memset(token, '.', sizeof token);
    expect(jup_token(&client, token, 32, &seconds, &kept) == JUP_NOT_OPEN && token[0] == '.' && seconds == 9 && kept == 9, "there is no link yet");
    expect(feed(&client, "link " TOKEN " 300\n") == JUP_OK, "there is one");
    expect(jup_token(&client, token, 33, &seconds, &kept) == JUP_OK && memcmp(token, TOKEN ".", 33) == 0 && seconds == 300 && kept == 0, "the server's terms");
    jup_open_lasting(&client, 0);
    memset(token, '.', sizeof token);
    expect(feed(&client, "link " TOKEN " 86400 kept\n") == JUP_OK, "there is one that is kept");
    expect(jup_token(&client, token, 4, &seconds, &kept) == JUP_OK && memcmp(token, "0f1e.", 5) == 0 && seconds == 86400 && kept == 1, "its terms, with little room");
    jup_close(&client);
}

// A cut changes nothing that the user sees, and what it did meanwhile goes to the next connection.
static void test_over_a_cut(void) {
    jup_client client = cut();
    expect(is_in(&client, JUP_OPEN) && is_site(&client, 7, 2), "the stage is as it was");
    expect(jup_edit(&client, &insertion, 1) == JUP_OK && jup_ping(&client) == JUP_OK && is_site(&client, 7, 3), "edits go on");
    expect(answers(&client, "set 5 6 on", "made set 5 6 on\n"), "and so do lines of the user");
    expect(writes(&client, ""), "nothing is for a connection that is not there");
    expect(jup_resume(&client) == JUP_OK && writes(&client, "resume " TOKEN " 11\n"), "another connection is asked");
    expect(jup_edit(&client, &insertion, 1) == JUP_OK && writes(&client, ""), "its lines wait for the answer");
    expect(feed(&client, "resumed 2\n") == JUP_OK, "the server has taken the first edit");
    expect(writes(&client, "got 11\nbatch 1 0 1\ndo 2 3 text ins 0 7.2 97\nbatch 2 0 1\ndo 2 3 text ins 0 7.3 97\nping 1\nbatch 3 0 1\ndo 5 6 toggle set on\n"
        "batch 4 0 1\ndo 2 3 text ins 0 7.4 97\n"), "what it has not comes, each line once");
    expect(feed(&client, "got 2\nack 1\npong 1\n") == JUP_OK && jup_is_synced(&client) == 1 && is_site(&client, 7, 4), "the link goes on");
    expect(jup_arrived(&client, &(uint32_t){ 0 }) == JUP_NOT_OPEN, "it is not over");
    jup_close(&client);
}

// The server's bytes are cut after each byte, and those lines that were whole do not come again. So are the client's.
static void test_each_cut(void) {
    for (size_t k = 0; k <= strlen(greeted); k++) {
        char ask[64], rest[256];
        jup_client client = linked();
        size_t lines = 0, at = 0;
        for (size_t i = 0; i < k; i++) {
            if (greeted[i] == '\n') lines++, at = i + 1;
        }
        expect(jup_feed(&client, (const uint8_t *)greeted, k) == JUP_OK && jup_cut(&client) == JUP_OK, "a cut within the board");
        snprintf(ask, sizeof ask, "resume " TOKEN " %zu\n", lines);
        snprintf(rest, sizeof rest, "resumed 0\n%s", greeted + at);
        expect(jup_resume(&client) == JUP_OK && writes(&client, ask), "it counts the whole lines");
        expect(feed(&client, rest) == JUP_OK && is_site(&client, 7, 0) && answers(&client, "show", shown), "the board is whole");
        jup_close(&client);
    }
    const char *said = "batch 0 0 1\ndo 2 3 text ins 0 7.1 97\n";
    for (size_t k = 0; k <= strlen(said); k++) {
        uint8_t piece[64];
        char due[128];
        jup_client client = opened();
        size_t lines = 0, at = 0;
        for (size_t i = 0; i < k; i++) {
            if (said[i] == '\n') lines++, at = i + 1;
        }
        expect(jup_edit(&client, &insertion, 1) == JUP_OK && jup_take(&client, piece, k) == k && jup_cut(&client) == JUP_OK, "a cut within what it says");
        snprintf(due, sizeof due, "got 11\n%s", said + at);
        expect(jup_resume(&client) == JUP_OK && writes(&client, "resume " TOKEN " 11\n"), "it asks another connection");
        expect(feed(&client, lines == 0 ? "resumed 0\n" : lines == 1 ? "resumed 1\n" : "resumed 2\n") == JUP_OK && writes(&client, due), "a line that was cut comes again, whole");
        jup_close(&client);
    }
}

// What answers `resume` by anything but `resumed` ends the client, and tells how many of its two edits arrived, if it knows.
static void test_answers(void) {
    static const struct { const char *line; uint32_t fault, knows, arrived; } ends[] = {
        { "error 35\n", JUP_NO_SUCH_LINK, JUP_NOT_OPEN, 0 },
        { "error 36\n", JUP_BAD_TAKEN, JUP_NOT_OPEN, 0 },
        { "error 40\n", 40, JUP_NOT_OPEN, 0 },
        { "error 42\n", JUP_BAD_VERSION, JUP_NOT_OPEN, 0 },
        { "ended 1\n", JUP_NO_SUCH_LINK, JUP_OK, 0 },
        { "ended 2\n", JUP_NO_SUCH_LINK, JUP_OK, 1 },
        { "ended 3\n", JUP_NO_SUCH_LINK, JUP_OK, 1 },
        { "ended 4\n", JUP_NO_SUCH_LINK, JUP_OK, 2 },
        { "ended 0\n", JUP_NO_SUCH_LINK, JUP_NOT_OPEN, 0 },
        { "ended 5\n", JUP_NO_SUCH_LINK, JUP_NOT_OPEN, 0 },
        { "resumed 0\n", JUP_BAD_TAKEN, JUP_NOT_OPEN, 0 },
        { "resumed 5\n", JUP_BAD_TAKEN, JUP_NOT_OPEN, 0 },
    };
    for (size_t k = 0; k < sizeof ends / sizeof *ends; k++) {
        uint32_t edits = 9;
        jup_client client = resuming();
        expect(feed(&client, ends[k].line) == ends[k].fault && is_over(&client, ends[k].fault), ends[k].line);
        expect(jup_arrived(&client, &edits) == ends[k].knows && edits == (ends[k].knows == JUP_OK ? ends[k].arrived : 9), "how many of its edits arrived");
        expect(jup_resume(&client) == ends[k].fault && jup_edit(&client, &insertion, 1) == ends[k].fault && writes(&client, ""), "it is over for good");
        jup_close(&client);
    }
}

// What tells that this connection does not carry the link. The client asks another one.
static void test_other_answers(void) {
    static const char *const lines[] = { "error 30\n", "link " TOKEN " 300\n", "HTTP/1.1 502 Bad Gateway\r\n", "ready\n", "got 1\n" };
    for (size_t k = 0; k < sizeof lines / sizeof *lines; k++) {
        jup_client client = resuming();
        expect(feed(&client, lines[k]) == JUP_CUT && is_in(&client, JUP_OPEN), lines[k]);
        expect(jup_resume(&client) == JUP_OK && writes(&client, "resume " TOKEN " 11\n"), "it asks another one");
        expect(feed(&client, "resumed 4\n") == JUP_OK && writes(&client, "got 11\n"), "which carries the link");
        jup_close(&client);
    }
}

// A link of which the board had not come begins again.
static void test_beginning_again(void) {
    static const char *const lines[] = { "error 35\n", "error 36\n", "error 40\n", "error 42\n", "ended 0\n" };
    for (size_t k = 0; k < sizeof lines / sizeof *lines; k++) {
        jup_client client = linked();
        expect(feed(&client, "welcome 3 9\nwindow 1\n") == JUP_OK && jup_cut(&client) == JUP_OK && jup_resume(&client) == JUP_OK, "a cut within the board");
        expect(writes(&client, "resume " TOKEN " 2\n") && feed(&client, lines[k]) == JUP_CUT, lines[k]);
        expect(is_in(&client, JUP_GREETING) && jup_resume(&client) == JUP_OK && writes(&client, "hello 4\n"), "it greets again");
        expect(feed(&client, "link " TOKEN " 0\n") == JUP_OK && feed(&client, greeted) == JUP_OK && is_site(&client, 7, 0), "and opens");
        jup_close(&client);
    }
}

// A server without protocol 4, and one that has no room.
static void test_no_link(void) {
    static const struct { const char *line; uint32_t fault; } ends[] = { { "error 42\n", JUP_BAD_VERSION }, { "error 30\n", 30 } };
    for (size_t k = 0; k < 2; k++) {
        jup_client client = JUP_CLIENT_NONE;
        jup_open_lasting(&client, 0);
        expect(feed(&client, ends[k].line) == ends[k].fault && is_over(&client, ends[k].fault), ends[k].line);
        expect(jup_open(&client, 0) == JUP_OK && says(&client, "hello 3\n"), "a session of one connection is opened in its place");
        jup_close(&client);
    }
}

// The client confirms the last line of the server, and writes nothing more.
static void test_last_lines(void) {
    jup_client client = opened();
    expect(jup_edit(&client, &insertion, 1) == JUP_OK && feed(&client, "error 20\n") == 20 && is_over(&client, 20), "the server refuses an edit");
    expect(writes(&client, "got 12\n"), "the client confirms that");
    jup_close(&client);
    client = opened();
    expect(jup_bye(&client) == JUP_OK && writes(&client, "bye\n"), "the client says goodbye");
    expect(feed(&client, "got 1\nbye\n") == JUP_MISPLACED && is_over(&client, JUP_MISPLACED) && writes(&client, "got 12\n"), "and so does the server");
    jup_close(&client);
    client = opened();
    expect(feed(&client, "welcom\n") == 40 && is_over(&client, 40) && writes(&client, ""), "a wrong line is given up without a word");
    jup_close(&client);
}

static void test_time(void) {
    jup_client client = opened();
    expect(jup_elapse(&client, 59) == 0 && writes(&client, ""), "59 quiet seconds are nothing");
    expect(jup_elapse(&client, 1) == 0 && writes(&client, "got 11\n"), "after 60 it confirms");
    expect(jup_elapse(&client, 29) == 0 && jup_elapse(&client, 1) == 1 && jup_elapse(&client, 0) == 1, "90 silent seconds are too many");
    expect(feed(&client, "got 0\n") == JUP_OK && jup_elapse(&client, 89) == 0 && jup_elapse(&client, UINT32_MAX) == 1, "a byte ends the silence");
    expect(jup_cut(&client) == JUP_OK && jup_elapse(&client, 1000) == 0, "without a connection nobody is silent");
    expect(jup_resume(&client) == JUP_OK && jup_elapse(&client, 89) == 0 && jup_elapse(&client, 1) == 1, "the server has 90 seconds for its answer");
    jup_close(&client);
}

static void test_most_pings(void) {
    uint8_t bytes[4096];
    jup_client client = opened();
    for (int k = 0; k < 1000; k++) expect(jup_ping(&client) == JUP_OK, "a ping of the first 1,000");
    expect(jup_ping(&client) == JUP_BACKLOG, "the 1,001st is refused");
    while (jup_take(&client, bytes, sizeof bytes) > 0) { }
    expect(jup_ping(&client) == JUP_BACKLOG && jup_edit(&client, &insertion, 1) == JUP_OK, "but no edit is");
    expect(feed(&client, "pong 1\npong 2\n") == JUP_OK && jup_ping(&client) == JUP_OK && jup_ping(&client) == JUP_OK, "two are answered");
    expect(jup_ping(&client) == JUP_BACKLOG && jup_ask(&client, (const uint8_t *)"sync", 4, bytes, 9, &(size_t){ 0 }) == JUP_BACKLOG, "and no third");
    jup_close(&client);
}

// The table of docs/EMBEDDING.md.
static void test_misuse(void) {
    uint32_t seconds = 9, kept = 9, edits = 9;
    uint8_t token[32];
    jup_client client = cut();
    expect(feed(&client, "ack 1\n") == JUP_CUT && is_site(&client, 7, 2), "bytes after a cut are not heard");
    expect(jup_cut(&client) == JUP_OK && is_in(&client, JUP_OPEN), "a second cut changes nothing");
    expect(jup_resume(&client) == JUP_OK && jup_resume(&client) == JUP_CARRIED && writes(&client, "resume " TOKEN " 11\n"), "a second resume changes nothing");
    expect(feed(&client, "error 35\n") == JUP_NO_SUCH_LINK, "another server does not know the token");
    jup_close(&client);
    client = opened();
    expect(jup_resume(&client) == JUP_CARRIED && writes(&client, ""), "a connection carries the link already");
    jup_close(&client);
    jup_open(&client, 0);
    expect(jup_resume(&client) == JUP_NOT_LASTING && jup_cut(&client) == JUP_NOT_LASTING && jup_elapse(&client, 100) == 0, "a client of one connection has none to resume");
    expect(jup_token(&client, token, 32, &seconds, &kept) == JUP_NOT_LASTING && jup_arrived(&client, &edits) == JUP_NOT_LASTING && seconds == 9 && edits == 9, "nor a token");
    expect(says(&client, "hello 3\n"), "it is as it was");
    jup_close(&client);
    expect(jup_resume(&client) == JUP_CLOSED && jup_cut(&client) == JUP_CLOSED && jup_elapse(&client, 100) == 0, "a closed client has no link");
    expect(jup_token(&client, token, 32, &seconds, &kept) == JUP_CLOSED && jup_arrived(&client, &edits) == JUP_CLOSED, "nor a token");
}

int main(void) {
    test_token();
    test_over_a_cut();
    test_each_cut();
    test_answers();
    test_other_answers();
    test_beginning_again();
    test_no_link();
    test_last_lines();
    test_time();
    test_most_pings();
    test_misuse();
    return report();
}
