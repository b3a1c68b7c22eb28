/* The host's call on texts and listing buffers that end, or begin, at a guard page: every row of document 01's table
 * that a text can meet, the paper's own texts, and stacks of up to 256 vertices. What is due comes from the paper (see
 * shells.h), never from a program.
 *
 * A listing that is due is asked for with room that is exact, one byte more, one less and none, and with packmap's
 * 16,384 bytes; a refusal with no room and with much. The last line is 'N passed, M failed', counted in texts. */
#include "packmap.h"
#include "shells.h"
#include "watched.h"

enum { TEXT_MOST = 16384, TEXT_ROOM = 2 * TEXT_MOST };

static unsigned calls, passed, failed;

/* The refusal as the host gets it. */
static uint64_t refusal(uint64_t number, uint64_t line) {
    return 65536 * (1 + line) + number;
}

/* Whether the call comes to an answer without touching a guard page. */
static bool answers(struct lent text, struct lent listing, uint64_t *answer) {
    if (sigsetjmp(escape, 1) != 0)
        return false;
    *answer = packmap_job(text.at, text.bytes, listing.at, listing.bytes);
    return true;
}

/* One call. `due` is the listing that is due where the answer is its length, and else NULL. */
static bool once(const char *what, const char *text, size_t len, enum side side, size_t room, uint64_t number,
                 const char *due) {
    struct lent from = lend(0, side, len, text, len), to = lend(1, side, room, NULL, 0);
    uint64_t answer = 0;
    const char *wrong = NULL;
    hand_over(from, false);
    hand_over(to, true);
    calls++;
    if (!answers(from, to, &answer))
        wrong = "a guard page was touched";
    get_back(from);
    get_back(to);
    if (!wrong && answer != number)
        wrong = "the answer is another number";
    if (!wrong && !(holds(from, text, len) && clean_around(from)))
        wrong = "the text or the bytes around it have changed";
    if (!wrong && !(holds(to, due, due ? number : 0) && clean_around(to)))
        wrong = "the listing buffer or the bytes around it hold something else";
    clear(from);
    clear(to);
    if (wrong && failed < 10)
        printf("%s, %zu bytes, room for %zu, %s at a guard page: %llu due, %llu answered: %s\n", what, len, room,
               side == ENDS ? "ending" : "beginning", (unsigned long long)number, (unsigned long long)answer, wrong);
    return !wrong;
}

static void count(bool good) {
    if (good)
        passed++;
    else
        failed++;
}

static void refused_bytes(const char *what, const char *text, size_t len, uint64_t number, uint64_t line) {
    const size_t rooms[] = {0, 5, TEXT_MOST};
    bool good = true;
    for (enum side side = ENDS; side <= BEGINS; side++)
        for (size_t k = 0; k < sizeof rooms / sizeof *rooms; k++)
            good &= once(what, text, len, side, rooms[k], refusal(number, line), NULL);
    count(good);
}

static void refused(const char *text, uint64_t number, uint64_t line) {
    refused_bytes("refused text", text, strlen(text), number, line);
}

static void listed(const char *what, const char *text, const char *listing) {
    const size_t len = strlen(text), full = strlen(listing);
    const size_t rooms[] = {full, full + 1, full - 1, 5, 0, TEXT_MOST};
    bool good = true;
    for (enum side side = ENDS; side <= BEGINS; side++)
        for (size_t k = 0; k < sizeof rooms / sizeof *rooms; k++)
            good &= rooms[k] < full ? once(what, text, len, side, rooms[k], refusal(18, 0), NULL)
                                    : once(what, text, len, side, rooms[k], full, listing);
    count(good);
}

/* --- Texts and listings --- */

static const char *job_text(size_t n, const uint16_t *triangles, const int64_t *weights) {
    static char text[TEXT_ROOM];
    char *to = text + sprintf(text, "pack-map\t%zu\n", n);
    for (size_t t = 0; t < 2 * n - 4; t++)
        to += sprintf(to, "t\t%u\t%u\t%u\n", triangles[3 * t], triangles[3 * t + 1], triangles[3 * t + 2]);
    for (size_t t = 0; t < 2 * n - 5; t++)
        to += sprintf(to, "w\t%lld\n", (long long)weights[t]);
    return text;
}

static const char *job_listing(size_t n, uint64_t raises, const int64_t *b) {
    static char listing[TEXT_ROOM];
    char *to =
        listing + sprintf(listing, "pack-map\t%zu\t%lld\t%llu\n", n, (long long)b[0], (unsigned long long)raises);
    for (size_t v = 0; v < n; v++)
        to += sprintf(to, "v\t%zu\t%lld\t%lld\t%lld\n", v, (long long)b[3 * v], (long long)b[3 * v + 1],
                      (long long)b[3 * v + 2]);
    return listing;
}

/* The paper's own text, with a line of it replaced, counted from 1; or with more behind it. */
static const char *const LINES[] = {"pack-map\t4\n", "t\t0\t2\t1\n", "t\t0\t3\t2\n", "t\t3\t1\t2\n",
                                    "t\t0\t1\t3\n",  "w\t5\n",       "w\t3\n",       "w\t-1\n"};
enum { LINE_COUNT = sizeof LINES / sizeof *LINES };

static const char *with(int line, const char *instead) {
    static char text[1024];
    text[0] = 0;
    for (int k = 1; k <= LINE_COUNT; k++)
        strcat(text, k == line ? instead : LINES[k - 1]);
    return line > LINE_COUNT ? strcat(text, instead) : text;
}

/* --- The rows --- */

static void papers_texts(void) {
    listed("paper's text", with(0, ""),
           "pack-map\t4\t9\t1\nv\t0\t9\t0\t0\nv\t1\t0\t9\t0\nv\t2\t0\t0\t9\nv\t3\t3\t5\t1\n");
    listed("P1", job_text(3, PAIR, (const int64_t[]){7}),
           "pack-map\t3\t7\t0\nv\t0\t7\t0\t0\nv\t1\t0\t7\t0\nv\t2\t0\t0\t7\n");
    listed("P4", job_text(5, FIVE, (const int64_t[]){1, 1, 1, 1, 1}),
           "pack-map\t5\t5\t0\nv\t0\t5\t0\t0\nv\t1\t0\t5\t0\nv\t2\t0\t0\t5\nv\t3\t1\t1\t3\nv\t4\t2\t2\t1\n");
    for (size_t k = 0; k < REPAIRED_COUNT; k++) {
        const struct repaired *r = &REPAIRED[k];
        const char *text = job_text(r->n, r->triangles, r->weights);
        if (r->number == 0)
            listed("repair by hand", text, job_listing(r->n, r->count, r->coordinates));
        else
            refused(text, r->number, 0);
    }
}

static void layout(void) {
    /* A text cut anywhere lacks the rest. */
    const char *whole = with(0, "");
    for (size_t end = 0, line = 1; end < strlen(whole); line += whole[end++] == '\n')
        refused_bytes("cut text", whole, end, 17, line);

    /* The example of row 17, and other lines that break the layout. */
    const struct {
        int line;
        const char *instead;
    } broken[] = {
        {2, "t\t01\n"},
        {1, "\n"},
        {1, "pack-map 4\n"},
        {1, "pack-map\t04\n"},
        {1, "pack-map\t-4\n"},
        {1, "pack-map\t4\r\n"},
        {1, "pack-map\t65536\n"},
        {1, "pack-map\t18446744073709551620\n"},
        {2, "T\t0\t2\t1\n"},
        {2, "t\t0\t2\n"},
        {2, "t\t0\t2\t1\t\n"},
        {3, "t\t0\t3\t2\t2\n"},
        {4, "t\t65536\t1\t2\n"},
        {4, "t\t-1\t1\t2\n"},
        {5, "w\t5\n"},
        {6, "t\t0\t1\t3\n"},
        {6, "w\t2147483648\n"},
        {6, "w\t-2147483649\n"},
        {7, "w\t+3\n"},
        {7, "w\t\n"},
        {8, "w\t-0\n"},
        {8, "w\t-\n"},
        {9, "w\t1\n"},
        {9, "\n"},
        {9, "x"},
    };
    for (size_t k = 0; k < sizeof broken / sizeof *broken; k++)
        refused(with(broken[k].line, broken[k].instead), 17, broken[k].line);

    /* 1 directly after the first line. */
    refused("pack-map\t2\n", 1, 0);
    refused("pack-map\t0\nx", 1, 0);
    refused("pack-map\t257\nt\t01\n", 1, 0);
    refused("pack-map\t65535\n", 1, 0);
    refused("pack-map\t2", 17, 1);

    /* 19 before all, by one byte. */
    static char blank[TEXT_MOST + 1];
    memset(blank, '\n', sizeof blank);
    refused_bytes("16,384 bytes", blank, TEXT_MOST, 17, 1);
    refused_bytes("16,385 bytes", blank, TEXT_MOST + 1, 19, 0);
}

static void meshes_and_weights(void) {
    const int64_t none[64] = {0}, heavy[64] = {INT32_MIN};
    refused(job_text(3, ROW3, none), 3, 0);
    refused(job_text(3, ROW4, none), 4, 0);
    refused(job_text(3, ROW5, none), 5, 0);
    refused(job_text(6, ROW6, none), 6, 0);
    refused(job_text(8, ROW7, heavy), 7, 0);
    refused(job_text(9, ROW25, heavy), 25, 0);
    refused(job_text(11, ROW8, heavy), 8, 0);
    refused(with(4, "t\t65535\t1\t2\n"), 3, 0);
    refused(job_text(4, TETRA, heavy), 9, 0);
    refused(job_text(4, TETRA, (const int64_t[]){L, 1, 0}), 9, 0);
    refused(job_text(4, TETRA, (const int64_t[]){INT32_MAX, INT32_MAX, 2}), 9, 0);
}

static void stacks(size_t n) {
    static uint16_t triangles[CORNERS];
    static int64_t weights[WEIGHTS_MOST], raised[WEIGHTS_MOST], b[3 * MOST];
    for (size_t k = 0; k < DAMAGED_ROW_COUNT; k++) {
        damaged_stack(n, DAMAGED_ROWS[k], triangles);
        refused(job_text(n, triangles, weights), (uint64_t)DAMAGED_ROWS[k], 0);
    }
    stack(n, triangles);
    memset(weights, 0, sizeof weights);
    uint64_t raises = stack_raised(n, raised);
    stack_coordinates(n, raised, b);
    listed("stack, no weight", job_text(n, triangles, weights), job_listing(n, raises, b));
    weights[0] = -7;
    listed("stack, N below 1", job_text(n, triangles, weights), job_listing(n, raises, b));
    for (size_t t = 0; t < 2 * n - 5; t++)
        weights[t] = 1 + (int64_t)t * 1000;
    stack_coordinates(n, weights, b);
    listed("stack, positive weights", job_text(n, triangles, weights), job_listing(n, 0, b));
    weights[2 * n - 6] = INT32_MIN;
    refused(job_text(n, triangles, weights), 9, 0);
}

int main(void) {
    open_places();
    catch_faults();
    papers_texts();
    layout();
    meshes_and_weights();
    stacks(16);
    stacks(64);
    stacks(256);
    printf("%u calls on %u texts\n%u passed, %u failed\n", calls, passed + failed, passed, failed);
    return failed > 0;
}
