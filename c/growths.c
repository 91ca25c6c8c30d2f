// growths: fails one allocation after another in each call of jup.h that allocates, and tests what the call leaves. The last line is 'N passed, M failed'.
//
// A call that is refused so leaves the client as it was, and a second call does all that was asked for. But a client that was fed is over.
// The linker sends the library's calls of malloc, realloc and calloc here (--wrap). tools/library links and runs it, under the address sanitizer and under
// valgrind too: these see that no memory is lost.
#include "testing.h"

// More allocations than a call makes.
enum { MOST = 10000 };

static const char *const greeted =
    "welcome 1 100\nwindow 1\ntext 1\nchar 0.1 104\nchar 0.2 105\nlist 2\nitem 0.3 tea\ntoggle 3 off\nslider 4 0 10 5\nready\n";

static const char *const shown = "window 1\ntext 1 \"hi\"\nlist 2 \"tea\"\ntoggle 3 off\nslider 4 0 10 5\n";

// Which allocation fails, and how many were made. They are counted only within the call that is tried.
static long failing, made;
static int is_counting;

void *__real_malloc(size_t size);
void *__real_realloc(void *old, size_t size);
void *__real_calloc(size_t count, size_t size);

static int refuses(void) {
    return is_counting && ++made == failing;
}

void *__wrap_malloc(size_t size) {
    return refuses() ? NULL : __real_malloc(size);
}

void *__wrap_realloc(void *old, size_t size) {
    return refuses() ? NULL : __real_realloc(old, size);
}

void *__wrap_calloc(size_t count, size_t size) {
    return refuses() ? NULL : __real_calloc(count, size);
}

// A call, and how it is tried.
typedef struct growth {
    const char *name;
    void (*try)(const struct growth *it);
    uint32_t (*call)(jup_client *client);
    int allocates;
    // What waits before the call, and what waits afterwards.
    const char *before, *after;
    // The board afterwards, and how many changes the call made.
    const char *board;
    int changes;
    // An answer of a call that did what was asked for, but could not report it. 0 if there is none.
    uint32_t silent;
} growth;

// How many calls gave that answer.
static int silent;

static void expect_of(const growth *it, int holds, const char *what) {
    char text[200];
    snprintf(text, sizeof text, "%s, allocation %ld: %s", it->name, failing, what);
    expect(holds, text);
}

// The answer of the call, within which the allocation fails.
static uint32_t tried(const growth *it, jup_client *client) {
    is_counting = 1;
    uint32_t answer = it->call(client);
    is_counting = 0;
    return answer;
}

static uint32_t opens(jup_client *client) {
    return jup_open(client, 1);
}

#define TOKEN "0f1e2d3c4b5a69788796a5b4c3d2e1f0"

static uint32_t opens_link(jup_client *client) {
    return jup_open_lasting(client, 1);
}

// All that waits for the connection of a link comes out. Without memory less does, and the rest by a later call.
static uint32_t takes_all(jup_client *client) {
    char bytes[256];
    size_t count = jup_take(client, (uint8_t *)bytes, sizeof bytes), more;
    is_counting = 0;
    while ((more = jup_take(client, (uint8_t *)bytes + count, sizeof bytes - count)) > 0) count += more;
    static const char due[] = "batch 0 0 2\ndo 1 1 text ins 0 1.1 97\ndo 1 3 toggle set on\n";
    expect(count == strlen(due) && memcmp(bytes, due, count) == 0, "all that waits comes out once, in order");
    return JUP_OK;
}

static uint32_t hears_greeting(jup_client *client) {
    return feed(client, greeted);
}

static uint32_t hears_edit(jup_client *client) {
    return feed(client, "batch 0 0 2\ndo 1 1 text ins 0 2.1 98\ndo 1 2 list rel 0 0.3 milk\n");
}

static uint32_t edits(jup_client *client) {
    static const jup_command commands[] = {
        { .kind = JUP_INSERT_CHAR, .win = 1, .wid = 1, .value = 'a' },
        { .kind = JUP_SET_TOGGLE, .win = 1, .wid = 3, .value = 1 },
    };
    return jup_edit(client, commands, 2);
}

// A line of a user is done, and tells just that. Otherwise it tells nothing.
static uint32_t asks(jup_client *client) {
    static const char line[] = "ins 1 1 0 char \"a\"", due[] = "made ins 1 1 1.1 \"a\"\n";
    uint8_t text[64];
    size_t told = 99;
    uint32_t answer = jup_ask(client, (const uint8_t *)line, strlen(line), text, sizeof text, &told);
    expect(told == (answer == JUP_OK ? strlen(due) : 0) && memcmp(text, due, told) == 0, "a line tells what it did, or nothing");
    return answer;
}

// A client whose session is open, and whose greeting was taken.
static jup_client opened(const growth *it) {
    jup_client client = JUP_CLIENT_NONE;
    expect_of(it, opens(&client) == JUP_OK && says(&client, "hello 3\n"), "a client is opened");
    expect_of(it, feed(&client, greeted) == JUP_OK && is_site(&client, 1, 0), "its session is open");
    if (*it->before) expect_of(it, jup_ping(&client) == JUP_OK, "a ping waits");
    return client;
}

static void try_opening(const growth *it, jup_client client) {
    uint32_t fault, answer = tried(it, &client);
    if (answer == JUP_NO_MEMORY) {
        expect_of(it, jup_stage(&client, &fault) == JUP_NONE && jup_waiting(&client) == 0, "there is no client");
        answer = opens(&client);
    }
    expect_of(it, answer == JUP_OK && jup_stage(&client, &fault) == JUP_GREETING, "it opens a client");
    expect_of(it, says(&client, it->after), "its greeting waits");
    jup_close(&client);
}

static void try_open(const growth *it) {
    try_opening(it, (jup_client)JUP_CLIENT_NONE);
}

static void try_open_again(const growth *it) {
    try_opening(it, opened(it));
}

static int is_changed(jup_client *client, int changes) {
    jup_change change;
    while (jup_next_change(client, &change)) changes--;
    return changes == 0;
}

// A client that could not hear is over, and what waited still waits.
static void try_hearing(const growth *it, jup_client client) {
    uint32_t answer = tried(it, &client);
    if (answer == JUP_OK) {
        expect_of(it, answers(&client, "show", it->board) && is_changed(&client, it->changes), "it shows and tells what it heard");
    } else {
        expect_of(it, answer == JUP_NO_MEMORY && is_over(&client, JUP_NO_MEMORY), "it is over");
        expect_of(it, it->call(&client) == JUP_NO_MEMORY && edits(&client) == JUP_NO_MEMORY, "it stays so");
    }
    expect_of(it, says(&client, it->after), "what waited still waits");
    jup_close(&client);
}

static void try_greeting(const growth *it) {
    jup_client client = JUP_CLIENT_NONE;
    expect_of(it, opens(&client) == JUP_OK, "a client is opened");
    try_hearing(it, client);
}

static void try_edit_of_another(const growth *it) {
    try_hearing(it, opened(it));
}

// Whether just what waited waits, no change does, no edit was made, and the board is as it was opened.
static int is_untouched(jup_client *client, const char *before) {
    return jup_waiting(client) == strlen(before) && tells_nothing(client) && is_site(client, 1, 0) && answers(client, "show", shown);
}

static void try_call(const growth *it) {
    jup_client client = opened(it);
    uint32_t answer = tried(it, &client);
    if (answer == JUP_NO_MEMORY) {
        expect_of(it, is_untouched(&client, it->before), "the client is as it was");
        answer = it->call(&client);
    }
    silent += answer != JUP_OK;
    expect_of(it, answer == JUP_OK || answer == it->silent, "it is done");
    expect_of(it, answers(&client, "show", it->board) && is_changed(&client, it->changes), "the client shows and tells it once");
    expect_of(it, says(&client, it->after), "it says it once");
    jup_close(&client);
}

// Whether just this comes out for the connection of a link.
static int writes(jup_client *client, const char *due) {
    char bytes[256];
    size_t count = 0, more;
    while ((more = jup_take(client, (uint8_t *)bytes + count, sizeof bytes - count)) > 0) count += more;
    return jup_waiting(client) == 0 && count == strlen(due) && memcmp(bytes, due, count) == 0;
}

// A client whose link carries an open session.
static jup_client linked(const growth *it) {
    jup_client client = JUP_CLIENT_NONE;
    expect_of(it, opens_link(&client) == JUP_OK && writes(&client, "hello 4\n"), "a client is opened");
    expect_of(it, feed(&client, "link " TOKEN " 300\n") == JUP_OK && feed(&client, greeted) == JUP_OK && is_site(&client, 1, 0), "its session is open");
    return client;
}

static void try_open_link(const growth *it) {
    jup_client client = JUP_CLIENT_NONE;
    uint32_t fault, answer = tried(it, &client);
    if (answer == JUP_NO_MEMORY) {
        expect_of(it, jup_stage(&client, &fault) == JUP_NONE && jup_waiting(&client) == 0, "there is no client");
        answer = opens_link(&client);
    }
    expect_of(it, answer == JUP_OK && jup_stage(&client, &fault) == JUP_GREETING && writes(&client, it->after), "it opens a client");
    jup_close(&client);
}

static void try_resume(const growth *it) {
    jup_client client = linked(it);
    expect_of(it, jup_cut(&client) == JUP_OK, "the connection breaks");
    uint32_t answer = tried(it, &client);
    if (answer == JUP_NO_MEMORY) {
        expect_of(it, is_site(&client, 1, 0) && writes(&client, ""), "the client is as it was");
        answer = it->call(&client);
    }
    expect_of(it, answer == JUP_OK && writes(&client, it->after), "it asks another connection once");
    jup_close(&client);
}

static void try_take(const growth *it) {
    jup_client client = linked(it);
    expect_of(it, edits(&client) == JUP_OK && tried(it, &client) == JUP_OK && jup_waiting(&client) == 0, "what waits is taken");
    jup_close(&client);
}

// An edit of another site, and an edit of one's own.
static void try_link(const growth *it) {
    jup_client client = linked(it);
    uint32_t answer = tried(it, &client);
    if (answer == JUP_NO_MEMORY && it->call == edits) {
        expect_of(it, is_site(&client, 1, 0) && tells_nothing(&client) && writes(&client, ""), "the client is as it was");
        answer = it->call(&client);
    }
    if (answer == JUP_OK) {
        expect_of(it, answers(&client, "show", it->board) && is_changed(&client, it->changes) && writes(&client, it->after), "it is done once");
    } else {
        expect_of(it, answer == JUP_NO_MEMORY && is_over(&client, JUP_NO_MEMORY) && writes(&client, ""), "it is over, and gives the link up");
    }
    jup_close(&client);
}

// Fails the first allocation of a call, then the second and so on, until none fails.
static void fail_each(const growth *it) {
    silent = 0;
    for (failing = 1; failing < MOST; failing++) {
        made = 0;
        it->try(it);
        if (made < failing) break;
    }
    printf("%s: %ld allocations failed\n", it->name, failing - 1);
    expect_of(it, failing < MOST, "the allocations have an end");
    expect_of(it, (failing > 1) == it->allocates, it->allocates ? "it allocates" : "it does not allocate");
    expect_of(it, (silent > 0) == (it->silent != 0), "it was done without a report, if it can be");
}

#define EDIT "batch 0 0 2\ndo 1 1 text ins 0 1.1 97\ndo 1 3 toggle set on\n"
#define EDITED "window 1\ntext 1 \"ahi\"\nlist 2 \"tea\"\ntoggle 3 on\nslider 4 0 10 5\n"
#define HEARD "window 1\ntext 1 \"bhi\"\nlist 2 \"milk\"\ntoggle 3 off\nslider 4 0 10 5\n"
#define INSERTED "window 1\ntext 1 \"ahi\"\nlist 2 \"tea\"\ntoggle 3 off\nslider 4 0 10 5\n"

int main(void) {
    const growth all[] = {
        { "jup_open", try_open, opens, 1, "", "hello 3\n", shown, 0, 0 },
        { "jup_open in the place of another", try_open_again, opens, 1, "", "hello 3\n", shown, 0, 0 },
        { "jup_feed of a greeting", try_greeting, hears_greeting, 1, "", "hello 3\n", shown, 0, 0 },
        { "jup_feed of an edit", try_edit_of_another, hears_edit, 1, "ping 1\n", "ping 1\n", HEARD, 2, 0 },
        { "jup_edit", try_call, edits, 1, "", EDIT, EDITED, 2, 0 },
        { "jup_edit, while a ping waits", try_call, edits, 1, "ping 1\n", "ping 1\n" EDIT, EDITED, 2, 0 },
        { "jup_ping", try_call, jup_ping, 0, "", "ping 1\n", shown, 0, 0 },
        { "jup_ping, while a ping waits", try_call, jup_ping, 1, "ping 1\n", "ping 1\nping 2\n", shown, 0, 0 },
        { "jup_bye", try_call, jup_bye, 0, "", "bye\n", shown, 0, 0 },
        { "jup_bye, while a ping waits", try_call, jup_bye, 1, "ping 1\n", "ping 1\nbye\n", shown, 0, 0 },
        { "jup_open_lasting", try_open_link, opens_link, 1, "", "hello 4\n", shown, 0, 0 },
        { "jup_feed of an edit, over a link", try_link, hears_edit, 1, "", "", HEARD, 2, 0 },
        { "jup_edit, over a link", try_link, edits, 1, "", EDIT, EDITED, 2, 0 },
        { "jup_take, over a link", try_take, takes_all, 1, "", "", EDITED, 2, 0 },
        { "jup_resume", try_resume, jup_resume, 1, "", "resume " TOKEN " 10\n", shown, 0, 0 },
        { "jup_ask", try_call, asks, 1, "", "batch 0 0 1\ndo 1 1 text ins 0 1.1 97\n", INSERTED, 1, JUP_UNTOLD },
    };
    for (size_t k = 0; k < sizeof all / sizeof *all; k++) fail_each(&all[k]);
    return report();
}
