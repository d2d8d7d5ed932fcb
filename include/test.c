/*
 * The lamp through every call of mogzift.h, in both versions of the file: what is returned, what is told, and all lent
 * memory. Exits with 1 where something differs. It is C99 and C++11; include/test.sh compiles and runs it as both.
 */
#include "mogzift.h"

#include <stdio.h>
#include <string.h>

static int checks;
static int failures;

static void check(int holds, const char *fact, int line) {
    checks += 1;
    if (!holds) {
        failures += 1;
        printf("line %d: not so: %s\n", line, fact);
    }
}

#define CHECK(fact) check((fact) ? 1 : 0, #fact, __LINE__)

/* 0 at door, 1 at desk, 2 lit; walk needs 0, adds 1, deletes 0; light needs 1, adds 2; states: at the door, at the desk */
static const uint8_t LAMP[40] = {'S', 'A', 'G', 1, 0, 3, 2, 2, 1, 0, 0, 0, 2, 0, 0, 0, 1, 0, 0, 0,
                                 2,   0,   0,   0, 4, 0, 0, 0, 0, 0, 0, 0, 1, 0, 0, 0, 2, 0, 0, 0};

/*
 * The lamp in version 2, with the same graph: action 0 waits, and has no effect; action 1 goes, and its effects are the
 * walk, where one is at the door, and the light, where one is at the desk.
 */
static const uint8_t LAMP_2[51] = {'S', 'A', 'G', 2, 0, 3, 2, 2, 2, 0, 0, 0, 0, 0, 0, 0, 0, 1, 1, 0, 0, 0, 2, 0, 0, 0,
                                   1,   0,   0,   0, 1, 2, 0, 0, 0, 4, 0, 0, 0, 0, 0, 0, 0, 1, 0, 0, 0, 2, 0, 0, 0};
enum { WAIT = 0, GO = 1, FIRST_EFFECT = 17, SECOND_EFFECT = 30, FIRST_STATE = 43 };

/* its graph of depth 2 */
static const uint64_t LAMP_WORDS[48] = {
    1, 2, 0, 0, 0, 0,                            /* proposition layer 0 */
    1, 2, 1, 2, 0, 0, 1, 0, 0, 0, 0, 0, 0, 0, 0, /* action layer 0 */
    1, 3, 2, 1, 0, 0,                            /* proposition layer 1 */
    1, 3, 1, 3, 2, 1, 1, 1, 0, 1, 0, 0, 1, 0, 0, /* action layer 1 */
    1, 3, 3, 1, 1, 0                             /* proposition layer 2 */
};

/* its graph of depth 2 where it may be lit in both states */
static const uint64_t LIT_WORDS[48] = {
    1, 2, 3, 0, 0, 0,                            /* proposition layer 0 */
    1, 2, 1, 2, 3, 0, 1, 0, 0, 0, 0, 0, 0, 0, 0, /* action layer 0 */
    1, 3, 3, 1, 0, 0,                            /* proposition layer 1 */
    1, 3, 1, 3, 3, 1, 1, 1, 0, 1, 0, 0, 1, 0, 0, /* action layer 1 */
    1, 3, 3, 1, 0, 0                             /* proposition layer 2 */
};

static const char LAMP_TEXT[] = "depth 255 rest 2\n0: 0 1 2\n1: - 0 1\nall: - 1 2\n";

enum { DOOR = 1, DESK = 2, LIT = 4, WALK = 0, LIGHT = 1, BOTH = 3, MARK = 0xA5 };

/* what may hold in the lamp's states: what the file says, and that it is lit */
static const uint32_t LIT_TOO[3] = {DOOR | LIT, DESK | LIT, 0};

/* weights of the lamp's states, the same for both */
static const uint16_t EVEN[3] = {1, 1, 1};

/* a page of goals, one of which is no set of the lamp's propositions */
enum { GOALS = 5 };
static const uint32_t PAGE[GOALS] = {DOOR, DESK, 8, LIT, DOOR | LIT};

/* What is lent: marked before each call, so that what a call writes is seen. One element more than any call asks for. */
static uint8_t file[9 + 4 * 32 + 13 * 32 + 4 * 64 + 1];
static size_t file_len;
static uint64_t words[49];
static uint64_t lit[49];
static uint64_t deeper[69];
static uint64_t lit_deeper[69];
static uint64_t deepest[5361];
static uint64_t words_out[49];
static uint32_t sets_out[4];
static uint16_t levels_out[GOALS + 1];
static uint8_t text_out[MOGZIFT_TEXT_ROOM + 1];
static uint64_t answer[3];

static void put(const uint8_t *bytes, size_t len) {
    memcpy(file, bytes, len);
    file_len = len;
}

static void mark(void) {
    memset(words_out, MARK, sizeof words_out);
    memset(sets_out, MARK, sizeof sets_out);
    memset(levels_out, MARK, sizeof levels_out);
    memset(text_out, MARK, sizeof text_out);
    memset(answer, MARK, sizeof answer);
}

/* Whether the memory behind the first bytes is as it was marked. */
static int marked_from(const void *memory, size_t size, size_t first) {
    const uint8_t *bytes = (const uint8_t *)memory;
    size_t i;
    for (i = first; i < size; i++) {
        if (bytes[i] != MARK) {
            return 0;
        }
    }
    return 1;
}

/* Whether nothing but these first elements of the four outputs was written. */
static int wrote(size_t of_words, size_t of_sets, size_t of_levels, size_t of_text) {
    return marked_from(words_out, sizeof words_out, of_words * sizeof words_out[0]) &&
           marked_from(sets_out, sizeof sets_out, of_sets * sizeof sets_out[0]) &&
           marked_from(levels_out, sizeof levels_out, of_levels * sizeof levels_out[0]) &&
           marked_from(text_out, sizeof text_out, of_text);
}

static int told(uint64_t kind, uint64_t first, uint64_t second) {
    return answer[0] == kind && answer[1] == first && answer[2] == second;
}

/* Whether a call was turned away with this number and place, and wrote the answer only. */
static int refused(size_t code, size_t number, uint64_t place) {
    return code == number && told(MOGZIFT_REFUSED, number, place) && wrote(0, 0, 0, 0);
}

/* Whether a call that writes nothing but its answer was accepted with it. */
static int answered(size_t code, uint64_t kind, uint64_t first, uint64_t second) {
    return code == 0 && told(kind, first, second) && wrote(0, 0, 0, 0);
}

/* Whether a page of all goals was accepted with these levels. */
static int paged(size_t code, const uint16_t *levels) {
    return code == 0 && told(MOGZIFT_ANSWERED, GOALS, 0) && wrote(0, 0, GOALS, 0) &&
           memcmp(levels_out, levels, GOALS * sizeof levels[0]) == 0;
}

/* The calls over the file and what is lent, marked anew. */
static size_t build(size_t depth, size_t len) {
    mark();
    return mogzift_build(file, file_len, depth, words_out, len, answer);
}

static size_t build_within(const uint32_t *possible, size_t sets, size_t depth, size_t len) {
    mark();
    return mogzift_build_within(file, file_len, possible, sets, depth, words_out, len, answer);
}

static size_t rest(size_t depth, const uint64_t *graph, size_t len) {
    mark();
    return mogzift_rest(file, file_len, depth, graph, len, answer);
}

static size_t level(size_t depth, uint64_t set, uint32_t goal, const uint64_t *graph, size_t len) {
    mark();
    return mogzift_level(file, file_len, depth, set, goal, graph, len, answer);
}

static size_t level_within(size_t depth, uint64_t set, uint32_t goal, const uint64_t *possible, size_t possible_len,
                           const uint64_t *sure, size_t sure_len) {
    mark();
    return mogzift_level_within(file, file_len, depth, set, goal, possible, possible_len, sure, sure_len, answer);
}

static size_t level_share(size_t depth, uint32_t goal, const uint16_t *weights, size_t weights_len, uint16_t numerator,
                          uint16_t denominator, const uint64_t *graph, size_t len) {
    mark();
    return mogzift_level_share(file, file_len, depth, goal, weights, weights_len, numerator, denominator, graph, len,
                               answer);
}

/* a page of so many of the goals */
static size_t page(size_t depth, uint64_t set, size_t goals, const uint64_t *graph, size_t len, size_t out_len) {
    mark();
    return mogzift_page(file, file_len, depth, set, PAGE, goals, graph, len, levels_out, out_len, answer);
}

static size_t extract(size_t depth, uint64_t set, size_t len, size_t out_len) {
    mark();
    return mogzift_extract(file, file_len, depth, set, words, len, words_out, out_len, answer);
}

static size_t run(uint64_t set, const uint8_t *list, size_t len, size_t out_len) {
    mark();
    return mogzift_run(file, file_len, set, list, len, sets_out, out_len, answer);
}

/* Whether a run over the lamp's two states was accepted with so many idle steps and these sets. */
static int ran(size_t code, uint64_t idle, uint32_t first, uint32_t second) {
    return code == 0 && told(MOGZIFT_ANSWERED, 2, idle) && wrote(0, 2, 0, 0) && sets_out[0] == first &&
           sets_out[1] == second;
}

static size_t plan(size_t depth, uint64_t set, uint32_t goal, size_t len, size_t out_len) {
    mark();
    return mogzift_plan(file, file_len, depth, set, goal, words, len, sets_out, out_len, answer);
}

static size_t fitting_depth(size_t room) {
    mark();
    return mogzift_depth(file, file_len, room, answer);
}

static size_t levels_text(size_t len, size_t out_len) {
    mark();
    return mogzift_levels_text(file, len, text_out, out_len, answer);
}

static void builds(void) {
    CHECK(mogzift_words(3, 2, 2) == 48);
    CHECK(build(2, 49) == 0 && told(MOGZIFT_ANSWERED, 48, 12) && wrote(48, 0, 0, 0));
    CHECK(memcmp(words_out, LAMP_WORDS, sizeof LAMP_WORDS) == 0);
    CHECK(build(0, 6) == 0 && told(MOGZIFT_ANSWERED, 6, 0) && wrote(6, 0, 0, 0));
    CHECK(refused(build(256, 49), MOGZIFT_BAD_DEPTH, 255));
    CHECK(refused(build(2, 47), MOGZIFT_SHORT_MEMORY, 48));
    CHECK(refused(build(2, 0), MOGZIFT_SHORT_MEMORY, 48));
}

/* How many vertices and pairs the scans look at: 5 at the first step, 7 at each further one. */
static void looks(void) {
    CHECK(build(0, 49) == 0 && told(MOGZIFT_ANSWERED, 6, 0) && wrote(6, 0, 0, 0));
    CHECK(build(1, 49) == 0 && told(MOGZIFT_ANSWERED, 27, 5) && wrote(27, 0, 0, 0));
    CHECK(build(2, 49) == 0 && told(MOGZIFT_ANSWERED, 48, 12) && wrote(48, 0, 0, 0));
    CHECK(mogzift_words(3, 2, 255) == 5361);
    mark();
    CHECK(mogzift_build(file, file_len, 255, deepest, 5361, answer) == 0);
    CHECK(told(MOGZIFT_ANSWERED, 5361, 5 + 254 * 7) && wrote(0, 0, 0, 0));
    /* one that is turned away tells its place */
    CHECK(refused(build(1, 26), MOGZIFT_SHORT_MEMORY, 27));
    CHECK(refused(build(256, 49), MOGZIFT_BAD_DEPTH, 255));
}

/* Builds for two possible sets. */
static size_t build_for(uint32_t first, uint32_t second, size_t depth, size_t len) {
    uint32_t possible[2];
    size_t code;
    possible[0] = first;
    possible[1] = second;
    code = build_within(possible, 2, depth, len);
    CHECK(possible[0] == first && possible[1] == second);
    return code;
}

static void builds_within(void) {
    static uint64_t other[48];
    uint8_t *states = file + file_len - 8;
    CHECK(build_within(LIT_TOO, 2, 2, 49) == 0 && told(MOGZIFT_ANSWERED, 48, 7 + 7) && wrote(48, 0, 0, 0));
    CHECK(memcmp(words_out, LIT_WORDS, sizeof LIT_WORDS) == 0);
    CHECK(build_within(LIT_TOO, 2, 2, 48) == 0 && told(MOGZIFT_ANSWERED, 48, 7 + 7) && wrote(48, 0, 0, 0));
    CHECK(build_within(LIT_TOO, 2, 0, 6) == 0 && told(MOGZIFT_ANSWERED, 6, 0) && wrote(6, 0, 0, 0));
    CHECK(memcmp(words_out, LIT_WORDS, 6 * sizeof LIT_WORDS[0]) == 0);

    /* as a build for the file with the possible sets in the place of its states */
    states[0] = DOOR | LIT;
    states[4] = DESK | LIT;
    CHECK(mogzift_build(file, file_len, 2, other, 48, answer) == 0 && told(MOGZIFT_ANSWERED, 48, 7 + 7));
    CHECK(memcmp(other, LIT_WORDS, sizeof other) == 0);
    states[0] = DOOR;
    states[4] = DESK;
    /* with nothing possible that is not sure, as the build */
    CHECK(build_for(DOOR, DESK, 2, 49) == 0 && told(MOGZIFT_ANSWERED, 48, 12) && wrote(48, 0, 0, 0));
    CHECK(memcmp(words_out, LAMP_WORDS, sizeof LAMP_WORDS) == 0);
    /* with everything possible */
    CHECK(build_for(7, 7, 0, 49) == 0 && told(MOGZIFT_ANSWERED, 6, 0) && wrote(6, 0, 0, 0));
    CHECK(words_out[0] == BOTH && words_out[1] == BOTH && words_out[2] == BOTH);

    /* the length, which is looked at first */
    CHECK(refused(build_within(LIT_TOO, 1, 2, 49), MOGZIFT_BAD_POSSIBLE_SET, 2));
    CHECK(refused(build_within(LIT_TOO, 0, 2, 49), MOGZIFT_BAD_POSSIBLE_SET, 2));
    CHECK(refused(build_within(LIT_TOO, 3, 2, 49), MOGZIFT_BAD_POSSIBLE_SET, 2));
    CHECK(refused(build_within(LIT_TOO + 1, 1, 2, 49), MOGZIFT_BAD_POSSIBLE_SET, 2));
    /* one that lacks a sure proposition, or has bit P or above, or both; the first of two */
    CHECK(refused(build_for(LIT, DESK, 2, 49), MOGZIFT_BAD_POSSIBLE_SET, 0));
    CHECK(refused(build_for(DESK, DESK, 2, 49), MOGZIFT_BAD_POSSIBLE_SET, 0));
    CHECK(refused(build_for(DOOR, DOOR | LIT, 2, 49), MOGZIFT_BAD_POSSIBLE_SET, 1));
    CHECK(refused(build_for(DOOR, 0, 2, 49), MOGZIFT_BAD_POSSIBLE_SET, 1));
    CHECK(refused(build_for(DOOR | 8, DESK, 2, 49), MOGZIFT_BAD_POSSIBLE_SET, 0));
    CHECK(refused(build_for(DOOR, DESK | 0x80000000, 2, 49), MOGZIFT_BAD_POSSIBLE_SET, 1));
    CHECK(refused(build_for(8, DESK, 2, 49), MOGZIFT_BAD_POSSIBLE_SET, 0));
    CHECK(refused(build_for(DOOR | 8, 0, 2, 49), MOGZIFT_BAD_POSSIBLE_SET, 0));
    CHECK(refused(build_for(0, DESK | 8, 2, 49), MOGZIFT_BAD_POSSIBLE_SET, 0));

    /* behind the file's causes, and before 6 and 9 */
    CHECK(refused(build_within(LIT_TOO, 1, 256, 0), MOGZIFT_BAD_POSSIBLE_SET, 2));
    CHECK(refused(build_for(DOOR, LIT, 256, 0), MOGZIFT_BAD_POSSIBLE_SET, 1));
    CHECK(refused(build_for(DOOR | 8, DESK, 2, 0), MOGZIFT_BAD_POSSIBLE_SET, 0));
    states[4] = DESK | 8;
    CHECK(refused(build_within(LIT_TOO, 1, 256, 0), MOGZIFT_BAD_PROP_SET, file_len - 4));
    CHECK(refused(build_for(LIT, DESK | 8, 256, 0), MOGZIFT_BAD_PROP_SET, file_len - 4));
    states[4] = DESK;
    file[7] = 1;
    CHECK(refused(build_within(LIT_TOO, 2, 2, 49), MOGZIFT_BAD_LENGTH, file_len - 4));
    file[7] = 2;
    CHECK(refused(build_within(LIT_TOO, 2, 256, 0), MOGZIFT_BAD_DEPTH, 255));
    CHECK(refused(build_within(LIT_TOO, 2, 2, 47), MOGZIFT_SHORT_MEMORY, 48));
    CHECK(refused(build_within(LIT_TOO, 2, 2, 0), MOGZIFT_SHORT_MEMORY, 48));
}

/* The causes of the file's writer: a byte of the file is another, or its length. */
static size_t build_other(size_t len, size_t at, uint8_t byte) {
    size_t code;
    uint8_t kept = file[at];
    mark();
    file[at] = byte;
    code = mogzift_build(file, len, 2, words_out, 49, answer);
    file[at] = kept;
    return code;
}

static void files(void) {
    CHECK(refused(build_other(0, 0, 'S'), MOGZIFT_BAD_HEAD, 0));
    CHECK(refused(build_other(40, 2, 'H'), MOGZIFT_BAD_HEAD, 0));
    CHECK(refused(build_other(40, 3, 3), MOGZIFT_BAD_VERSION, 3));
    CHECK(refused(build_other(40, 4, 1), MOGZIFT_BAD_VERSION, 3));
    CHECK(refused(build_other(40, 5, 33), MOGZIFT_BAD_COUNT, 5));
    CHECK(refused(build_other(40, 6, 33), MOGZIFT_BAD_COUNT, 6));
    CHECK(refused(build_other(40, 7, 65), MOGZIFT_BAD_COUNT, 7));
    CHECK(refused(build_other(39, 0, 'S'), MOGZIFT_BAD_LENGTH, 40));
    CHECK(refused(build_other(40, 36, 8), MOGZIFT_BAD_PROP_SET, 36));
    CHECK(build_other(40, 36, 4) == 0);
    CHECK(build_other(40, 36, DOOR) == 0); /* states may repeat */
}

/* A file of four actions, each one of these by its letter, and one state. Of b, c and d each has one set other than a. */
enum { FOUR = 8 + 4 * 12 + 4 };
static const uint8_t NAMED[4][3] = {{1, 2, 1}, {3, 2, 1}, {1, 6, 1}, {1, 2, 0}};
static uint8_t four[FOUR];

static void put_four(const char *letters) {
    static const uint8_t head[8] = {'S', 'A', 'G', 1, 0, 3, 4, 1};
    size_t i;
    memset(four, 0, sizeof four);
    memcpy(four, head, sizeof head);
    for (i = 0; i < 12; i++) {
        four[8 + 4 * i] = NAMED[letters[i / 3] - 'a'][i % 3];
    }
}

static size_t build_four(size_t len, size_t depth) {
    mark();
    return mogzift_build(four, len, depth, words_out, 49, answer);
}

static size_t build_named(const char *letters) {
    put_four(letters);
    return build_four(FOUR, 0);
}

static void equal_actions(void) {
    static const uint8_t list[1] = {WALK};
    CHECK(build_named("abcd") == 0 && told(MOGZIFT_ANSWERED, 6, 0) && wrote(6, 0, 0, 0));
    CHECK(refused(build_named("aabc"), MOGZIFT_EQUAL_ACTION, 20));
    CHECK(refused(build_named("abac"), MOGZIFT_EQUAL_ACTION, 32));
    CHECK(refused(build_named("abca"), MOGZIFT_EQUAL_ACTION, 44));
    CHECK(refused(build_named("abcc"), MOGZIFT_EQUAL_ACTION, 44));
    /* of several the first that equals an earlier one, whichever that is */
    CHECK(refused(build_named("aabb"), MOGZIFT_EQUAL_ACTION, 20));
    CHECK(refused(build_named("abab"), MOGZIFT_EQUAL_ACTION, 32));
    CHECK(refused(build_named("abba"), MOGZIFT_EQUAL_ACTION, 32));
    CHECK(refused(build_named("aaab"), MOGZIFT_EQUAL_ACTION, 20));
    CHECK(refused(build_named("baaa"), MOGZIFT_EQUAL_ACTION, 32));
    CHECK(refused(build_named("dddd"), MOGZIFT_EQUAL_ACTION, 20));

    /* behind 1 to 5, also where their place lies behind the pair, and before 6 */
    put_four("aabc");
    CHECK(refused(build_four(FOUR, 256), MOGZIFT_EQUAL_ACTION, 20));
    CHECK(refused(build_four(FOUR - 1, 256), MOGZIFT_BAD_LENGTH, FOUR));
    four[FOUR - 4] = 8;
    CHECK(refused(build_four(FOUR, 256), MOGZIFT_BAD_PROP_SET, FOUR - 4));
    four[52] = 8; /* what the last action deletes */
    CHECK(refused(build_four(FOUR, 256), MOGZIFT_BAD_PROP_SET, 52));
    put_four("aabc");
    four[8] = four[20] = 8;
    CHECK(refused(build_four(FOUR, 256), MOGZIFT_BAD_PROP_SET, 8));

    /* every call, over the lamp with a second walk in the place of the light */
    memcpy(file + 20, file + 8, 12);
    CHECK(refused(build(2, 49), MOGZIFT_EQUAL_ACTION, 20));
    CHECK(refused(build(256, 0), MOGZIFT_EQUAL_ACTION, 20));
    CHECK(refused(build_within(LIT_TOO, 2, 2, 49), MOGZIFT_EQUAL_ACTION, 20));
    CHECK(refused(build_within(LIT_TOO, 1, 256, 0), MOGZIFT_EQUAL_ACTION, 20));
    CHECK(refused(rest(2, words, 48), MOGZIFT_EQUAL_ACTION, 20));
    CHECK(refused(rest(256, words, 0), MOGZIFT_EQUAL_ACTION, 20));
    CHECK(refused(level(2, BOTH, LIT, words, 48), MOGZIFT_EQUAL_ACTION, 20));
    CHECK(refused(level(256, 0, 8, words, 0), MOGZIFT_EQUAL_ACTION, 20));
    CHECK(refused(level_within(2, BOTH, LIT, lit, 48, words, 48), MOGZIFT_EQUAL_ACTION, 20));
    CHECK(refused(level_within(256, 0, 8, lit, 0, words, 0), MOGZIFT_EQUAL_ACTION, 20));
    CHECK(refused(level_share(2, LIT, EVEN, 2, 1, 2, words, 48), MOGZIFT_EQUAL_ACTION, 20));
    CHECK(refused(level_share(256, 8, EVEN, 1, 1, 0, words, 0), MOGZIFT_EQUAL_ACTION, 20));
    CHECK(refused(page(2, BOTH, GOALS, words, 48, GOALS), MOGZIFT_EQUAL_ACTION, 20));
    CHECK(refused(page(256, 0, GOALS, words, 0, 0), MOGZIFT_EQUAL_ACTION, 20));
    CHECK(refused(extract(2, DESK, 48, 49), MOGZIFT_EQUAL_ACTION, 20));
    CHECK(refused(extract(256, 0, 0, 0), MOGZIFT_EQUAL_ACTION, 20));
    CHECK(refused(run(DOOR, list, 1, 3), MOGZIFT_EQUAL_ACTION, 20));
    CHECK(refused(run(0, list, 1, 0), MOGZIFT_EQUAL_ACTION, 20));
    CHECK(refused(plan(2, BOTH, LIT, 48, 3), MOGZIFT_EQUAL_ACTION, 20));
    CHECK(refused(plan(256, 0, 8, 0, 0), MOGZIFT_EQUAL_ACTION, 20));
    CHECK(refused(fitting_depth(48), MOGZIFT_EQUAL_ACTION, 20));
    CHECK(refused(fitting_depth(0), MOGZIFT_EQUAL_ACTION, 20));
    CHECK(levels_text(40, MOGZIFT_TEXT_ROOM) == 0 && told(MOGZIFT_ANSWERED, 14, 0) && wrote(0, 0, 0, 14));
    CHECK(memcmp(text_out, "refused 15 20\n", 14) == 0);
    CHECK(refused(levels_text(40, 0), MOGZIFT_SHORT_OUTPUT, MOGZIFT_TEXT_ROOM));
    put(LAMP, sizeof LAMP);
}

static void rests_and_levels(void) {
    CHECK(answered(rest(2, words, 48), MOGZIFT_NONE, 0, 0));
    CHECK(answered(rest(3, deeper, 69), MOGZIFT_ANSWERED, 2, 0));
    CHECK(refused(rest(2, words, 0), MOGZIFT_SHORT_MEMORY, 48));
    CHECK(refused(rest(256, words, 48), MOGZIFT_BAD_DEPTH, 255));

    CHECK(answered(level(2, BOTH, LIT, words, 48), MOGZIFT_ANSWERED, 2, 0));
    CHECK(answered(level(2, DESK, LIT, words, 48), MOGZIFT_ANSWERED, 1, 0));
    CHECK(answered(level(2, BOTH, 0, words, 48), MOGZIFT_ANSWERED, 0, 0));
    CHECK(answered(level(2, DOOR, DOOR | LIT, words, 48), MOGZIFT_NOT_BY_DEPTH, 0, 0));
    CHECK(answered(level(3, DOOR, DOOR | LIT, deeper, 69), MOGZIFT_NEVER, 0, 0));
    CHECK(refused(level(2, 0, LIT, words, 48), MOGZIFT_BAD_STATE_SET, 0));
    CHECK(refused(level(2, 4, LIT, words, 48), MOGZIFT_BAD_STATE_SET, 0));
    CHECK(refused(level(2, BOTH, 8, words, 48), MOGZIFT_BAD_GOAL, 0));
    CHECK(refused(level(2, BOTH, LIT, words, 47), MOGZIFT_SHORT_MEMORY, 48));
}

/* Lit or not at the start: the levels lie between those with the lamp lit and those with it not lit. */
static void levels_within(void) {
    enum { NEVER = MOGZIFT_ENTRY_NEVER, NOT_YET = MOGZIFT_ENTRY_NOT_BY_DEPTH };
    CHECK(answered(level_within(2, BOTH, LIT, lit, 48, words, 48), MOGZIFT_ANSWERED, 0, 2));
    CHECK(answered(level_within(2, DESK, LIT, lit, 48, words, 48), MOGZIFT_ANSWERED, 0, 1));
    CHECK(answered(level_within(2, BOTH, DESK, lit, 48, words, 48), MOGZIFT_ANSWERED, 1, 1));
    CHECK(answered(level_within(2, BOTH, DESK | LIT, lit, 48, words, 48), MOGZIFT_ANSWERED, 1, 2));
    CHECK(answered(level_within(2, BOTH, 0, lit, 48, words, 48), MOGZIFT_ANSWERED, 0, 0));
    CHECK(answered(level_within(2, DOOR, DOOR | LIT, lit, 48, words, 48), MOGZIFT_ANSWERED, 0, NOT_YET));
    CHECK(answered(level_within(3, DOOR, DOOR | LIT, lit_deeper, 69, deeper, 69), MOGZIFT_ANSWERED, 0, NEVER));
    CHECK(answered(level_within(2, BOTH, DOOR, lit, 48, words, 48), MOGZIFT_ANSWERED, NEVER, NOT_YET));
    CHECK(answered(level_within(3, BOTH, DOOR, lit_deeper, 69, deeper, 69), MOGZIFT_ANSWERED, NEVER, NEVER));
    CHECK(answered(level_within(0, BOTH, DOOR, lit, 6, words, 6), MOGZIFT_ANSWERED, NOT_YET, NOT_YET));
    /* each in its own words: both in the same, and the other way round */
    CHECK(answered(level_within(2, BOTH, LIT, words, 48, words, 48), MOGZIFT_ANSWERED, 2, 2));
    CHECK(answered(level_within(2, BOTH, LIT, words, 48, lit, 48), MOGZIFT_ANSWERED, 2, 0));
    CHECK(answered(level_within(2, DOOR, DOOR | LIT, words, 49, lit, 49), MOGZIFT_ANSWERED, NOT_YET, 0));

    CHECK(refused(level_within(256, 0, 8, lit, 0, words, 0), MOGZIFT_BAD_DEPTH, 255));
    CHECK(refused(level_within(2, 0, 8, lit, 47, words, 47), MOGZIFT_BAD_STATE_SET, 0));
    CHECK(refused(level_within(2, 4, LIT, lit, 48, words, 48), MOGZIFT_BAD_STATE_SET, 0));
    CHECK(refused(level_within(2, BOTH, 8, lit, 47, words, 47), MOGZIFT_BAD_GOAL, 0));
    CHECK(refused(level_within(2, BOTH, LIT, lit, 47, words, 48), MOGZIFT_SHORT_MEMORY, 48));
    CHECK(refused(level_within(2, BOTH, LIT, lit, 48, words, 47), MOGZIFT_SHORT_MEMORY, 48));
    CHECK(refused(level_within(2, BOTH, LIT, lit, 47, words, 47), MOGZIFT_SHORT_MEMORY, 48));
    CHECK(refused(level_within(2, BOTH, 0, lit, 0, words, 0), MOGZIFT_SHORT_MEMORY, 48));
}

/* A share at depth 2 with these weights. */
static size_t share(uint32_t goal, uint16_t door, uint16_t desk, uint16_t numerator, uint16_t denominator) {
    uint16_t weights[2];
    size_t code;
    weights[0] = door;
    weights[1] = desk;
    code = level_share(2, goal, weights, 2, numerator, denominator, words, 48);
    CHECK(weights[0] == door && weights[1] == desk);
    return code;
}

/* Whether a share of the weight is met at this layer. */
static int met(size_t code, uint64_t layer) {
    return answered(code, MOGZIFT_ANSWERED, layer, 0);
}

/* Lit: no state in layer 0, that at the desk in layer 1, both in layer 2. */
static void levels_by_share(void) {
    static uint64_t junk[69];
    size_t i;
    uint32_t goal;
    CHECK(met(share(LIT, 1, 1, 0, 1), 0));
    CHECK(met(share(LIT, 1, 1, 1, 65535), 1));
    CHECK(met(share(LIT, 1, 1, 1, 2), 1));
    CHECK(met(share(LIT, 1, 1, 32768, 65535), 2)); /* a little above a half */
    CHECK(met(share(LIT, 1, 1, 1, 1), 2));
    CHECK(met(share(LIT, 1, 1, 65535, 65535), 2));
    CHECK(met(share(LIT, 65535, 1, 0, 1), 0));
    CHECK(met(share(LIT, 65535, 1, 1, 65535), 2)); /* 1 of 65,536 is less than that */
    CHECK(met(share(LIT, 65535, 1, 1, 2), 2));
    CHECK(met(share(LIT, 65535, 1, 1, 1), 2));
    CHECK(met(share(LIT, 65534, 1, 1, 65535), 1)); /* and 1 of 65,535 is that */
    CHECK(met(share(LIT, 1, 65535, 65534, 65535), 1));
    CHECK(met(share(LIT, 2, 65535, 65534, 65535), 2));
    CHECK(met(share(LIT, 1, 65535, 1, 1), 2));
    CHECK(met(share(LIT, 65535, 65535, 1, 2), 1));
    CHECK(met(share(LIT, 65535, 65535, 65535, 65535), 2));
    CHECK(met(share(LIT, 0, 1, 1, 1), 1));
    CHECK(met(share(LIT, 1, 0, 1, 65535), 2));
    /* at the door: one state of two, at once or never */
    CHECK(met(share(DOOR, 1, 1, 1, 2), 0));
    CHECK(met(share(DOOR, 1, 0, 1, 1), 0));
    CHECK(answered(share(DOOR, 1, 1, 1, 1), MOGZIFT_NOT_BY_DEPTH, 0, 0));
    CHECK(answered(share(DOOR, 0, 1, 1, 65535), MOGZIFT_NOT_BY_DEPTH, 0, 0));
    CHECK(answered(level_share(3, DOOR, EVEN, 2, 1, 1, deeper, 69), MOGZIFT_NEVER, 0, 0));
    /* two goals: each in some state, both in one, mutex */
    CHECK(met(share(DESK | LIT, 1, 1, 1, 2), 1));
    CHECK(met(share(DESK | LIT, 1, 1, 1, 1), 2));
    CHECK(answered(share(DOOR | DESK, 1, 1, 1, 65535), MOGZIFT_NOT_BY_DEPTH, 0, 0));
    CHECK(answered(share(DOOR | LIT, 1, 1, 1, 65535), MOGZIFT_NOT_BY_DEPTH, 0, 0));
    CHECK(answered(level_share(3, DOOR | LIT, EVEN, 2, 1, 65535, deeper, 69), MOGZIFT_NEVER, 0, 0));
    CHECK(met(share(DOOR | LIT, 1, 1, 0, 65535), 0));
    /* no goal */
    CHECK(met(share(0, 1, 1, 1, 1), 0));
    CHECK(met(level_share(0, 0, EVEN, 2, 1, 1, words, 6), 0));
    CHECK(answered(level_share(0, LIT, EVEN, 2, 1, 2, words, 6), MOGZIFT_NOT_BY_DEPTH, 0, 0));

    /* all of the weight is the level of both states */
    for (goal = 0; goal < 8; goal++) {
        uint64_t kind, layer;
        CHECK(level(2, BOTH, goal, words, 48) == 0);
        kind = answer[0];
        layer = answer[1];
        CHECK(answered(share(goal, 1, 1, 1, 1), kind, layer, 0));
        CHECK(answered(share(goal, 65535, 2, 3, 3), kind, layer, 0));
        CHECK(level(3, BOTH, goal, deeper, 69) == 0);
        kind = answer[0];
        layer = answer[1];
        CHECK(answered(level_share(3, goal, EVEN, 2, 9, 9, deeper, 69), kind, layer, 0));
    }

    /* states that do not exist hold everything, or are mutex everywhere: they weigh nothing */
    for (i = 0; i < 69; i++) {
        junk[i] = deeper[i] | ~(uint64_t)BOTH;
    }
    for (goal = 0; goal < 8; goal++) {
        uint16_t numerator;
        for (numerator = 0; numerator < 3; numerator++) {
            uint64_t kind, layer;
            CHECK(level_share(3, goal, EVEN, 2, numerator, 2, deeper, 69) == 0);
            kind = answer[0];
            layer = answer[1];
            CHECK(answered(level_share(3, goal, EVEN, 2, numerator, 2, junk, 69), kind, layer, 0));
        }
    }
    for (i = 0; i < 69; i++) {
        junk[i] = (i & 1) != 0 ? ~(uint64_t)BOTH : 0;
    }
    CHECK(met(level_share(3, LIT, EVEN, 2, 0, 1, junk, 69), 0));
    CHECK(answered(level_share(3, DESK, EVEN, 2, 1, 65535, junk, 69), MOGZIFT_NOT_BY_DEPTH, 0, 0));
    CHECK(met(level_share(3, 0, EVEN, 2, 1, 1, junk, 69), 0));
    /* what a label loses counts in that layer only */
    memcpy(junk, deeper, sizeof junk);
    junk[44] = 0; /* lit, layer 2 */
    CHECK(met(level_share(3, LIT, EVEN, 2, 1, 2, junk, 69), 1));
    CHECK(met(level_share(3, LIT, EVEN, 2, 1, 1, junk, 69), 3));

    /* each form of 18 */
    CHECK(refused(level_share(2, LIT, EVEN, 1, 1, 2, words, 48), MOGZIFT_BAD_SHARE, 0));
    CHECK(refused(level_share(2, LIT, EVEN, 0, 1, 2, words, 48), MOGZIFT_BAD_SHARE, 0));
    CHECK(refused(level_share(2, LIT, EVEN, 3, 1, 2, words, 48), MOGZIFT_BAD_SHARE, 0));
    CHECK(refused(share(LIT, 0, 0, 1, 2), MOGZIFT_BAD_SHARE, 0));
    CHECK(refused(share(LIT, 0, 0, 0, 1), MOGZIFT_BAD_SHARE, 0));
    CHECK(refused(share(LIT, 1, 1, 0, 0), MOGZIFT_BAD_SHARE, 0));
    CHECK(refused(share(LIT, 1, 1, 1, 0), MOGZIFT_BAD_SHARE, 0));
    CHECK(refused(share(LIT, 1, 1, 2, 1), MOGZIFT_BAD_SHARE, 0));
    CHECK(refused(share(LIT, 1, 1, 65535, 65534), MOGZIFT_BAD_SHARE, 0));
    CHECK(refused(share(0, 0, 0, 0, 0), MOGZIFT_BAD_SHARE, 0));
    /* behind the file's causes, 6 and 8, and before 9 */
    CHECK(refused(level_share(256, 8, EVEN, 1, 1, 0, words, 0), MOGZIFT_BAD_DEPTH, 255));
    CHECK(refused(level_share(256, LIT, EVEN, 2, 1, 2, words, 48), MOGZIFT_BAD_DEPTH, 255));
    CHECK(refused(level_share(2, 8, EVEN, 1, 1, 0, words, 0), MOGZIFT_BAD_GOAL, 0));
    CHECK(refused(level_share(2, 0x80000000, EVEN, 2, 1, 2, words, 48), MOGZIFT_BAD_GOAL, 0));
    CHECK(refused(level_share(2, LIT, EVEN, 1, 1, 2, words, 47), MOGZIFT_BAD_SHARE, 0));
    CHECK(refused(level_share(2, LIT, EVEN, 2, 2, 1, words, 0), MOGZIFT_BAD_SHARE, 0));
    CHECK(refused(level_share(2, LIT, EVEN, 2, 1, 2, words, 47), MOGZIFT_SHORT_MEMORY, 48));
    CHECK(refused(level_share(2, LIT, EVEN, 2, 0, 1, words, 0), MOGZIFT_SHORT_MEMORY, 48));
    CHECK(refused(level_share(2, 0, EVEN, 2, 1, 1, words, 0), MOGZIFT_SHORT_MEMORY, 48));
    file[7] = 1;
    CHECK(refused(level_share(256, 8, EVEN, 1, 1, 0, words, 0), MOGZIFT_BAD_LENGTH, file_len - 4));
    file[7] = 2;
}

static void pages(void) {
    enum { NEVER = MOGZIFT_ENTRY_NEVER, NOT_YET = MOGZIFT_ENTRY_NOT_BY_DEPTH, NO_GOAL = MOGZIFT_ENTRY_BAD_GOAL };
    static const uint16_t both[GOALS] = {NOT_YET, 1, NO_GOAL, 2, NOT_YET};
    static const uint16_t both_deeper[GOALS] = {NEVER, 1, NO_GOAL, 2, NEVER};
    static const uint16_t door[GOALS] = {0, 1, NO_GOAL, 2, NOT_YET};
    static const uint16_t desk_deeper[GOALS] = {NEVER, 0, NO_GOAL, 1, NEVER};
    CHECK(paged(page(2, BOTH, GOALS, words, 48, GOALS), both));
    CHECK(paged(page(3, BOTH, GOALS, deeper, 69, GOALS), both_deeper));
    CHECK(paged(page(2, DOOR, GOALS, words, 48, GOALS), door));
    CHECK(paged(page(3, DESK, GOALS, deeper, 69, GOALS), desk_deeper));

    CHECK(paged(page(2, BOTH, GOALS, words, 48, GOALS + 1), both));
    CHECK(page(2, BOTH, 2, words, 48, GOALS) == 0 && told(MOGZIFT_ANSWERED, 2, 0) && wrote(0, 0, 2, 0));
    CHECK(levels_out[0] == NOT_YET && levels_out[1] == 1);
    CHECK(answered(page(2, BOTH, 0, words, 48, GOALS), MOGZIFT_ANSWERED, 0, 0));
    CHECK(answered(page(2, BOTH, 0, words, 48, 0), MOGZIFT_ANSWERED, 0, 0));

    CHECK(refused(page(2, BOTH, GOALS, words, 48, GOALS - 1), MOGZIFT_SHORT_OUTPUT, GOALS));
    CHECK(refused(page(2, BOTH, GOALS, words, 48, 0), MOGZIFT_SHORT_OUTPUT, GOALS));
    CHECK(refused(page(256, 0, GOALS, words, 48, 0), MOGZIFT_BAD_DEPTH, 255));
    CHECK(refused(page(2, 0, GOALS, words, 47, 0), MOGZIFT_BAD_STATE_SET, 0));
    CHECK(refused(page(2, 4, 0, words, 48, 0), MOGZIFT_BAD_STATE_SET, 0));
    CHECK(refused(page(2, BOTH, GOALS, words, 47, GOALS - 1), MOGZIFT_SHORT_MEMORY, 48));
    CHECK(refused(page(2, BOTH, 0, words, 0, 0), MOGZIFT_SHORT_MEMORY, 48));
}

static void extracts(void) {
    size_t i;
    CHECK(extract(2, DESK, 48, 49) == 0 && told(MOGZIFT_ANSWERED, 48, 0) && wrote(48, 0, 0, 0));
    for (i = 0; i < 48; i++) {
        CHECK(words_out[i] == (LAMP_WORDS[i] >> 1 & 1));
    }
    CHECK(extract(2, BOTH, 48, 48) == 0 && memcmp(words_out, LAMP_WORDS, sizeof LAMP_WORDS) == 0);
    CHECK(refused(extract(2, 4, 48, 49), MOGZIFT_BAD_STATE_SET, 0));
    CHECK(refused(extract(2, DESK, 47, 49), MOGZIFT_SHORT_MEMORY, 48));
    CHECK(refused(extract(2, DESK, 48, 47), MOGZIFT_SHORT_OUTPUT, 48));
    CHECK(refused(extract(2, DESK, 48, 0), MOGZIFT_SHORT_OUTPUT, 48));
}

static void runs(void) {
    static const uint8_t list[3] = {WALK, LIGHT, 2};
    static uint8_t longest[65536];
    CHECK(run(DOOR, list, 2, 3) == 0 && told(MOGZIFT_ANSWERED, 2, 0) && wrote(0, 2, 0, 0));
    CHECK(sets_out[0] == (DESK | LIT) && sets_out[1] == DESK);
    CHECK(run(BOTH, list, 0, 2) == 0 && told(MOGZIFT_ANSWERED, 2, 0) && wrote(0, 2, 0, 0));
    CHECK(sets_out[0] == DOOR && sets_out[1] == DESK);
    CHECK(refused(run(0, list, 2, 3), MOGZIFT_BAD_STATE_SET, 0));
    CHECK(refused(run(DOOR, list, 2, 1), MOGZIFT_SHORT_OUTPUT, 2));
    CHECK(refused(run(DOOR, list, 2, 0), MOGZIFT_SHORT_OUTPUT, 2));
    CHECK(refused(run(DOOR, longest, sizeof longest, 3), MOGZIFT_BAD_SEQUENCE, 65535));
    CHECK(refused(run(DOOR, list, 3, 3), MOGZIFT_BAD_SEQUENCE, 2));
    CHECK(refused(run(BOTH, list, 1, 3), MOGZIFT_NO_PRECONDITION, 0));
    CHECK(refused(run(DOOR, longest, 2, 3), MOGZIFT_NO_PRECONDITION, 1));
    file[28] = LIT; /* a light that deletes what it adds */
    CHECK(run(DOOR, list, 2, 3) == 0 && sets_out[0] == (DESK | LIT) && sets_out[1] == DESK);
    file[28] = 0;
}

/*
 * Idle steps, which leave every state of the set as it was. What the walk needs, adds and deletes stands at 8, 12 and 16,
 * what the light does at 20, 24 and 28.
 */
static void idle_steps(void) {
    static const uint8_t list[8] = {LIGHT, LIGHT, LIGHT, WALK, WALK, LIGHT, WALK, 2};
    static const uint8_t longest[65535] = {LIGHT};
    CHECK(ran(run(BOTH, list, 0, 3), 0, DOOR, DESK));
    /* what is lit stays lit */
    CHECK(ran(run(DESK, list, 1, 3), 0, DOOR, DESK | LIT));
    CHECK(ran(run(DESK, list, 2, 3), 1, DOOR, DESK | LIT));
    CHECK(ran(run(DESK, list, 3, 3), 2, DOOR, DESK | LIT));
    /* one that is turned away tells its place, whatever was idle before */
    CHECK(refused(run(DESK, list, 4, 3), MOGZIFT_NO_PRECONDITION, 3));
    CHECK(refused(run(DESK, list, 8, 3), MOGZIFT_BAD_SEQUENCE, 7));
    CHECK(refused(run(DESK, list, 3, 1), MOGZIFT_SHORT_OUTPUT, 2));
    CHECK(refused(run(4, list, 3, 3), MOGZIFT_BAD_STATE_SET, 0));

    /* a walk from anywhere changes the state at the door, once, and never the one at the desk */
    file[8] = 0;
    CHECK(ran(run(DESK, list + 3, 1, 3), 1, DOOR, DESK));
    CHECK(ran(run(DOOR, list + 3, 1, 3), 0, DESK, DESK));
    CHECK(ran(run(BOTH, list + 3, 1, 3), 0, DESK, DESK));
    CHECK(ran(run(DESK, list + 3, 2, 3), 2, DOOR, DESK));
    CHECK(ran(run(DOOR, list + 3, 2, 3), 1, DESK, DESK));
    CHECK(ran(run(BOTH, list + 3, 2, 3), 1, DESK, DESK));
    CHECK(ran(run(BOTH, list + 3, 4, 3), 2, DESK | LIT, DESK | LIT)); /* the second walk and the third */
    CHECK(ran(run(DESK, list, 7, 3), 6, DOOR, DESK | LIT));
    CHECK(refused(run(BOTH, list + 3, 5, 3), MOGZIFT_BAD_SEQUENCE, 4));
    /* as many steps as may be: a light, and walks */
    CHECK(refused(run(BOTH, longest, sizeof longest, 3), MOGZIFT_NO_PRECONDITION, 0));
    CHECK(ran(run(BOTH, longest + 1, sizeof longest - 1, 3), 65533, DESK, DESK));
    CHECK(ran(run(DESK, longest, sizeof longest, 3), 65534, DOOR, DESK | LIT));

    file[12] = 0; /* a walk that leaves the door only */
    CHECK(ran(run(DESK, list + 3, 2, 3), 2, DOOR, DESK)); /* deletes what is not there */
    CHECK(ran(run(BOTH, list + 3, 2, 3), 1, 0, DESK));
    file[16] = 0; /* one that does nothing */
    CHECK(ran(run(BOTH, list + 3, 2, 3), 2, DOOR, DESK));
    CHECK(ran(run(DOOR, list + 3, 1, 3), 1, DOOR, DESK));
    file[12] = DESK; /* one that only comes to the desk */
    CHECK(ran(run(DESK, list + 3, 2, 3), 2, DOOR, DESK)); /* adds what is there */
    CHECK(ran(run(BOTH, list + 3, 2, 3), 1, DOOR | DESK, DESK));
    file[16] = DESK; /* and deletes what it adds */
    CHECK(ran(run(DESK, list + 3, 2, 3), 2, DOOR, DESK));
    CHECK(ran(run(BOTH, list + 3, 2, 3), 1, DOOR | DESK, DESK));
    file[8] = DOOR;
    file[12] = DESK;
    file[16] = DOOR;
    /* there and back: at the end all is as it was, and no step is idle */
    file[24] = DOOR;
    file[28] = DESK;
    CHECK(ran(run(DOOR, list + 4, 2, 3), 0, DOOR, DESK));
    file[24] = LIT;
    file[28] = 0;
}

static void plans(void) {
    CHECK(plan(2, BOTH, LIT, 48, 3) == 0 && told(MOGZIFT_ANSWERED, 2, 3) && wrote(0, 2, 0, 0));
    CHECK(sets_out[0] == (1 << WALK | 1 << LIGHT) && sets_out[1] == 1 << LIGHT);
    CHECK(plan(2, DESK, LIT, 48, 2) == 0 && told(MOGZIFT_ANSWERED, 1, 1) && wrote(0, 1, 0, 0));
    CHECK(sets_out[0] == 1 << LIGHT);
    CHECK(answered(plan(0, DOOR, DOOR, 48, 0), MOGZIFT_ANSWERED, 0, 0));
    CHECK(refused(plan(256, BOTH, LIT, 48, 3), MOGZIFT_BAD_DEPTH, 255));
    CHECK(refused(plan(2, 0, LIT, 48, 3), MOGZIFT_BAD_STATE_SET, 0));
    CHECK(refused(plan(2, BOTH, 8, 48, 3), MOGZIFT_BAD_GOAL, 0));
    CHECK(refused(plan(2, BOTH, LIT, 47, 3), MOGZIFT_SHORT_MEMORY, 48));
    CHECK(refused(plan(2, BOTH, LIT, 48, 1), MOGZIFT_SHORT_OUTPUT, 2));
    CHECK(refused(plan(2, BOTH, LIT, 48, 0), MOGZIFT_SHORT_OUTPUT, 2));
    CHECK(refused(plan(2, DOOR, DOOR | LIT, 48, 3), MOGZIFT_NO_LEVEL, 2));
    words[28] = 0; /* no state has the light in action layer 1 */
    CHECK(refused(plan(2, BOTH, LIT, 48, 3), MOGZIFT_UNCOVERED, 2));
    words[28] = LAMP_WORDS[28];
    words[0] = 0; /* no state is at the door in layer 0 */
    CHECK(refused(plan(2, BOTH, LIT, 48, 3), MOGZIFT_UNCOVERED, 0));
    words[0] = LAMP_WORDS[0];
}

static void depths(void) {
    CHECK(answered(fitting_depth(48), MOGZIFT_ANSWERED, 2, 0));
    CHECK(answered(fitting_depth(47), MOGZIFT_ANSWERED, 1, 0));
    CHECK(answered(fitting_depth((size_t)-1), MOGZIFT_ANSWERED, 255, 0));
    CHECK(refused(fitting_depth(5), MOGZIFT_SHORT_MEMORY, 6));
    CHECK(refused(fitting_depth(0), MOGZIFT_SHORT_MEMORY, 6));
}

static void texts(void) {
    size_t len = sizeof LAMP_TEXT - 1;
    CHECK(levels_text(40, MOGZIFT_TEXT_ROOM) == 0 && told(MOGZIFT_ANSWERED, len, 0) && wrote(0, 0, 0, len));
    CHECK(memcmp(text_out, LAMP_TEXT, len) == 0);
    CHECK(levels_text(39, MOGZIFT_TEXT_ROOM) == 0 && told(MOGZIFT_ANSWERED, 13, 0) && wrote(0, 0, 0, 13));
    CHECK(memcmp(text_out, "refused 4 40\n", 13) == 0);
    CHECK(levels_text(0, MOGZIFT_TEXT_ROOM) == 0 && told(MOGZIFT_ANSWERED, 12, 0) && wrote(0, 0, 0, 12));
    CHECK(memcmp(text_out, "refused 1 0\n", 12) == 0);
    CHECK(refused(levels_text(40, MOGZIFT_TEXT_ROOM - 1), MOGZIFT_SHORT_OUTPUT, MOGZIFT_TEXT_ROOM));
    CHECK(refused(levels_text(0, 0), MOGZIFT_SHORT_OUTPUT, MOGZIFT_TEXT_ROOM));
}

static void files_2(void) {
    size_t at;
    static const size_t sets[10] = {9, 13, 18, 22, 26, 31, 35, 39, 43, 47};
    CHECK(refused(build_other(8, 0, 'S'), MOGZIFT_BAD_HEAD, 0));
    CHECK(refused(build_other(8, 3, 3), MOGZIFT_BAD_VERSION, 3));
    CHECK(refused(build_other(8, 5, 33), MOGZIFT_BAD_HEAD, 0));
    CHECK(refused(build_other(9, 0, 'S'), MOGZIFT_BAD_LENGTH, 51));
    CHECK(refused(build_other(50, 0, 'S'), MOGZIFT_BAD_LENGTH, 51));
    CHECK(refused(build_other(52, 0, 'S'), MOGZIFT_BAD_LENGTH, 51));
    CHECK(refused(build_other(51, 2, 'H'), MOGZIFT_BAD_HEAD, 0));
    CHECK(refused(build_other(51, 5, 0), MOGZIFT_BAD_COUNT, 5));
    CHECK(refused(build_other(51, 6, 33), MOGZIFT_BAD_COUNT, 6));
    CHECK(refused(build_other(51, 7, 0), MOGZIFT_BAD_COUNT, 7));
    CHECK(refused(build_other(51, 8, 33), MOGZIFT_BAD_COUNT, 8));
    CHECK(refused(build_other(51, 8, 32), MOGZIFT_BAD_LENGTH, 441));
    CHECK(refused(build_other(51, 8, 0), MOGZIFT_BAD_LENGTH, 25));
    file[8] = 33; /* behind the other counts, before the length */
    CHECK(refused(build_other(51, 6, 33), MOGZIFT_BAD_COUNT, 6));
    CHECK(refused(build_other(51, 7, 65), MOGZIFT_BAD_COUNT, 7));
    CHECK(refused(build_other(9, 0, 'S'), MOGZIFT_BAD_COUNT, 8));
    file[8] = 2;
    for (at = 0; at < 10; at++) {
        CHECK(refused(build_other(51, sets[at], 8), MOGZIFT_BAD_PROP_SET, sets[at]));
    }
    CHECK(build_other(51, FIRST_STATE, DESK) == 0); /* states may repeat */
}

static void effects_of_no_action(void) {
    static const uint8_t list[1] = {GO};
    CHECK(refused(build_other(51, SECOND_EFFECT, 2), MOGZIFT_EFFECT_ACTION, SECOND_EFFECT));
    CHECK(refused(build_other(51, SECOND_EFFECT, 255), MOGZIFT_EFFECT_ACTION, SECOND_EFFECT));
    CHECK(build_other(51, SECOND_EFFECT, WAIT) == 0);

    /* of two the first; behind 1 to 5, also where their place lies behind the effect, and before 6 */
    file[FIRST_EFFECT] = 2;
    CHECK(refused(build_other(51, SECOND_EFFECT, 2), MOGZIFT_EFFECT_ACTION, FIRST_EFFECT));
    CHECK(refused(build_other(50, 0, 'S'), MOGZIFT_BAD_LENGTH, 51));
    CHECK(refused(build_other(51, FIRST_STATE, 8), MOGZIFT_BAD_PROP_SET, FIRST_STATE));
    CHECK(refused(build(2, 49), MOGZIFT_EFFECT_ACTION, FIRST_EFFECT));

    /* every call */
    CHECK(refused(build(256, 0), MOGZIFT_EFFECT_ACTION, FIRST_EFFECT));
    CHECK(refused(build_within(LIT_TOO, 1, 256, 0), MOGZIFT_EFFECT_ACTION, FIRST_EFFECT));
    CHECK(refused(rest(256, words, 0), MOGZIFT_EFFECT_ACTION, FIRST_EFFECT));
    CHECK(refused(level(256, 0, 8, words, 0), MOGZIFT_EFFECT_ACTION, FIRST_EFFECT));
    CHECK(refused(level_within(256, 0, 8, lit, 0, words, 0), MOGZIFT_EFFECT_ACTION, FIRST_EFFECT));
    CHECK(refused(level_share(256, 8, EVEN, 1, 1, 0, words, 0), MOGZIFT_EFFECT_ACTION, FIRST_EFFECT));
    CHECK(refused(page(256, 0, GOALS, words, 0, 0), MOGZIFT_EFFECT_ACTION, FIRST_EFFECT));
    CHECK(refused(extract(256, 0, 0, 0), MOGZIFT_EFFECT_ACTION, FIRST_EFFECT));
    CHECK(refused(run(0, list, 1, 0), MOGZIFT_EFFECT_ACTION, FIRST_EFFECT));
    CHECK(refused(plan(256, 0, 8, 0, 0), MOGZIFT_EFFECT_ACTION, FIRST_EFFECT));
    CHECK(refused(fitting_depth(0), MOGZIFT_EFFECT_ACTION, FIRST_EFFECT));
    CHECK(levels_text(51, MOGZIFT_TEXT_ROOM) == 0 && told(MOGZIFT_ANSWERED, 14, 0) && wrote(0, 0, 0, 14));
    CHECK(memcmp(text_out, "refused 16 17\n", 14) == 0);
    put(LAMP_2, sizeof LAMP_2);
}

static void runs_2(void) {
    static const uint8_t list[4] = {GO, WAIT, GO, 2};
    /* the walk fires in one state and the light in the other: what a step adds is no antecedent of the same step */
    CHECK(run(BOTH, list, 1, 3) == 0 && told(MOGZIFT_ANSWERED, 2, 0) && wrote(0, 2, 0, 0));
    CHECK(sets_out[0] == DESK && sets_out[1] == (DESK | LIT));
    CHECK(run(BOTH, list, 2, 2) == 0 && sets_out[0] == DESK && sets_out[1] == (DESK | LIT));
    CHECK(run(BOTH, list, 3, 2) == 0 && sets_out[0] == (DESK | LIT) && sets_out[1] == (DESK | LIT));
    CHECK(run(DOOR, list, 3, 2) == 0 && sets_out[0] == (DESK | LIT) && sets_out[1] == DESK);
    CHECK(run(BOTH, list + 1, 1, 2) == 0 && wrote(0, 2, 0, 0) && sets_out[0] == DOOR && sets_out[1] == DESK);
    CHECK(run(BOTH, list, 0, 2) == 0 && wrote(0, 2, 0, 0) && sets_out[0] == DOOR && sets_out[1] == DESK);
    CHECK(refused(run(4, list, 1, 3), MOGZIFT_BAD_STATE_SET, 0));
    CHECK(refused(run(BOTH, list, 1, 1), MOGZIFT_SHORT_OUTPUT, 2));
    CHECK(refused(run(BOTH, list, 4, 3), MOGZIFT_BAD_SEQUENCE, 3));
    file[9] = LIT; /* a wait needs the light, and only a wait */
    CHECK(refused(run(BOTH, list, 4, 3), MOGZIFT_BAD_SEQUENCE, 3));
    CHECK(refused(run(BOTH, list, 3, 3), MOGZIFT_NO_PRECONDITION, 1));
    CHECK(run(DESK, list, 3, 3) == 0 && sets_out[0] == DOOR && sets_out[1] == (DESK | LIT));
    file[9] = 0;
    file[SECOND_EFFECT + 1] = DOOR; /* the light fires where one was at the door before the walk */
    CHECK(run(BOTH, list, 1, 3) == 0 && sets_out[0] == (DESK | LIT) && sets_out[1] == DESK);
    file[FIRST_EFFECT + 9] = DOOR | LIT; /* and the walk deletes what it adds */
    CHECK(run(BOTH, list, 1, 3) == 0 && sets_out[0] == (DESK | LIT) && sets_out[1] == DESK);
    file[FIRST_EFFECT + 9] = DOOR;
    file[SECOND_EFFECT + 9] = LIT; /* and it does so itself */
    CHECK(run(BOTH, list, 1, 3) == 0 && sets_out[0] == (DESK | LIT) && sets_out[1] == DESK);
    file[SECOND_EFFECT + 9] = 0;
    file[SECOND_EFFECT + 1] = DESK;
}

/* The sets of the two effects, which are those of one action: antecedent, add, delete. */
static void set_effects(uint8_t when, uint8_t add, uint8_t del, uint8_t other_when, uint8_t other_add,
                        uint8_t other_del) {
    file[FIRST_EFFECT + 1] = when;
    file[FIRST_EFFECT + 5] = add;
    file[FIRST_EFFECT + 9] = del;
    file[SECOND_EFFECT + 1] = other_when;
    file[SECOND_EFFECT + 5] = other_add;
    file[SECOND_EFFECT + 9] = other_del;
}

static void idle_steps_2(void) {
    static const uint8_t list[7] = {WAIT, GO, GO, GO, WAIT, GO, 2};
    static const uint8_t longest[65535] = {GO}; /* and waits */
    CHECK(ran(run(BOTH, list, 0, 3), 0, DOOR, DESK));
    CHECK(ran(run(BOTH, list, 1, 3), 1, DOOR, DESK)); /* an action without effects */
    CHECK(ran(run(BOTH, list, 2, 3), 1, DESK, DESK | LIT));
    CHECK(ran(run(BOTH, list, 3, 3), 1, DESK | LIT, DESK | LIT)); /* idle in the second state, and not in the first */
    CHECK(ran(run(BOTH, list, 4, 3), 2, DESK | LIT, DESK | LIT));
    CHECK(ran(run(BOTH, list, 6, 3), 4, DESK | LIT, DESK | LIT));
    CHECK(ran(run(DOOR, list, 3, 3), 1, DESK | LIT, DESK));
    CHECK(ran(run(DESK, list, 3, 3), 2, DOOR, DESK | LIT)); /* the first state, which would change, is outside the set */
    CHECK(ran(run(BOTH, longest, sizeof longest, 3), 65534, DESK, DESK | LIT));
    CHECK(ran(run(BOTH, longest + 1, sizeof longest - 1, 3), 65534, DOOR, DESK));

    /* one that is turned away tells its place, whatever was idle before */
    CHECK(refused(run(BOTH, list, 7, 3), MOGZIFT_BAD_SEQUENCE, 6));
    CHECK(refused(run(BOTH, list, 1, 1), MOGZIFT_SHORT_OUTPUT, 2));
    CHECK(refused(run(0, list, 1, 3), MOGZIFT_BAD_STATE_SET, 0));
    file[9] = DOOR; /* a wait needs the door */
    CHECK(refused(run(DOOR, list, 5, 3), MOGZIFT_NO_PRECONDITION, 4));
    CHECK(refused(run(BOTH, list, 5, 3), MOGZIFT_NO_PRECONDITION, 0));
    CHECK(ran(run(DOOR, list, 4, 3), 2, DESK | LIT, DESK));
    file[9] = 0;

    /* what is deleted in both states is added again where it was, or where it was not */
    set_effects(0, 0, DESK, DESK, DESK, 0);
    CHECK(ran(run(BOTH, list + 1, 3, 3), 3, DOOR, DESK));
    set_effects(0, 0, DESK, DOOR, DESK, 0);
    CHECK(ran(run(BOTH, list + 1, 1, 3), 0, DOOR | DESK, 0));
    CHECK(ran(run(BOTH, list + 1, 2, 3), 1, DOOR | DESK, 0));
    /* what is deleted where one is at the door is added in both states: once there, it stays */
    set_effects(DOOR, 0, LIT, 0, LIT, 0);
    CHECK(ran(run(BOTH, list + 1, 3, 3), 2, DOOR | LIT, DESK | LIT));
    CHECK(ran(run(DOOR, list + 1, 3, 3), 2, DOOR | LIT, DESK));
    /* each fires in one state: it adds what is there, deletes what is not, or both */
    set_effects(DOOR, DOOR, 0, DESK, 0, DOOR | LIT);
    CHECK(ran(run(BOTH, list + 1, 2, 3), 2, DOOR, DESK));
    set_effects(DOOR, DOOR, DESK | LIT, DESK, DESK, DESK);
    CHECK(ran(run(BOTH, list + 1, 2, 3), 2, DOOR, DESK));
    /* neither fires, or only in the second state, and there once with a change */
    set_effects(LIT, 0, DOOR | DESK, DOOR | DESK, LIT, 0);
    CHECK(ran(run(BOTH, list + 1, 3, 3), 3, DOOR, DESK));
    set_effects(DOOR | DESK, DOOR, 0, DESK, LIT, 0);
    CHECK(ran(run(BOTH, list + 1, 3, 3), 2, DOOR, DESK | LIT));
    CHECK(ran(run(DOOR, list + 1, 3, 3), 3, DOOR, DESK));
    /* there and back: at the end all is as it was, and no step is idle */
    set_effects(DOOR, DESK, DOOR, DESK, DOOR, DESK);
    CHECK(ran(run(BOTH, list + 1, 1, 3), 0, DESK, DOOR));
    CHECK(ran(run(BOTH, list + 1, 2, 3), 0, DOOR, DESK));
    put(LAMP_2, sizeof LAMP_2);
}

/* An action is marked, not an effect of it, and once. */
static void plans_2(void) {
    CHECK(plan(2, BOTH, LIT, 48, 3) == 0 && told(MOGZIFT_ANSWERED, 2, 2) && wrote(0, 2, 0, 0));
    CHECK(sets_out[0] == 1 << GO && sets_out[1] == 1 << GO);
    CHECK(plan(2, DESK, LIT, 48, 2) == 0 && told(MOGZIFT_ANSWERED, 1, 1) && wrote(0, 1, 0, 0));
    CHECK(sets_out[0] == 1 << GO);
    CHECK(refused(plan(2, DOOR, DOOR | LIT, 48, 3), MOGZIFT_NO_LEVEL, 2));
}

static void texts_2(void) {
    size_t len = sizeof LAMP_TEXT - 1;
    CHECK(levels_text(51, MOGZIFT_TEXT_ROOM) == 0 && told(MOGZIFT_ANSWERED, len, 0) && wrote(0, 0, 0, len));
    CHECK(memcmp(text_out, LAMP_TEXT, len) == 0);
    CHECK(levels_text(8, MOGZIFT_TEXT_ROOM) == 0 && told(MOGZIFT_ANSWERED, 12, 0) && wrote(0, 0, 0, 12));
    CHECK(memcmp(text_out, "refused 1 0\n", 12) == 0);
    CHECK(levels_text(9, MOGZIFT_TEXT_ROOM) == 0 && told(MOGZIFT_ANSWERED, 13, 0) && wrote(0, 0, 0, 13));
    CHECK(memcmp(text_out, "refused 4 51\n", 13) == 0);
}

/* A version 2 file of these counts whose preconditions are empty and whose states have nothing, effects at its end. */
static void begin_2(uint8_t props, uint8_t actions, uint8_t states) {
    static const uint8_t head[5] = {'S', 'A', 'G', 2, 0};
    memset(file, 0, sizeof file);
    memcpy(file, head, sizeof head);
    file[5] = props;
    file[6] = actions;
    file[7] = states;
    file_len = 9 + 4 * (size_t)actions + 4 * (size_t)states;
}

/* One more effect, with sets of up to 8 propositions. What stands behind the effects is empty, and moves up. */
static void add_effect(uint8_t action, uint8_t when, uint8_t add, uint8_t del) {
    uint8_t *effect = file + 9 + 4 * file[6] + 13 * file[8];
    effect[0] = action;
    effect[1] = when;
    effect[5] = add;
    effect[9] = del;
    file[8] += 1;
    file_len += 13;
}

/*
 * Two effects, of which the second deletes what the first adds: of one action they do not interfere, of two they do.
 * (The lamp's walk and light are of one action and mutex at action layer 1, by their needs.)
 */
static void interference(void) {
    static const uint8_t list[1] = {0};
    begin_2(2, 2, 1);
    add_effect(0, 0, 1, 0);
    add_effect(0, 0, 2, 1);
    CHECK(mogzift_words(2, 2, 2) == 29);
    CHECK(build(2, 49) == 0 && told(MOGZIFT_ANSWERED, 29, 2) && wrote(29, 0, 0, 0)); /* a look each step: at their pair */
    CHECK(words_out[3] == 1 && words_out[4] == 1 && words_out[7] == 0);    /* the effects at action layer 0 */
    CHECK(words_out[13] == 1 && words_out[14] == 1 && words_out[15] == 0); /* the propositions at layer 1 */
    /* in a step of both, the add of the one wins over the delete of the other */
    CHECK(run(1, list, 1, 1) == 0 && told(MOGZIFT_ANSWERED, 1, 0) && wrote(0, 1, 0, 0) && sets_out[0] == 3);

    begin_2(2, 2, 1);
    add_effect(0, 0, 1, 0);
    add_effect(1, 0, 2, 1);
    CHECK(build(2, 49) == 0 && told(MOGZIFT_ANSWERED, 29, 4 + 2) && wrote(29, 0, 0, 0));
    CHECK(words_out[3] == 1 && words_out[4] == 1 && words_out[7] == 1);
    CHECK(words_out[13] == 1 && words_out[14] == 1 && words_out[15] == 1);
    CHECK(run(1, list, 1, 1) == 0 && sets_out[0] == 1);
}

/* E at the ends of its range, and repeated effects, which are taken. */
static void effect_counts(void) {
    static const uint8_t list[2] = {0, 1};
    size_t i;
    begin_2(1, 0, 1);
    CHECK(file_len == 13 && build(1, 49) == 0 && told(MOGZIFT_ANSWERED, 3, 0) && wrote(3, 0, 0, 0));
    CHECK(refused(run(1, list, 1, 1), MOGZIFT_BAD_SEQUENCE, 0));
    add_effect(0, 0, 1, 0);
    CHECK(refused(build(1, 49), MOGZIFT_EFFECT_ACTION, 9));

    begin_2(1, 2, 1);
    CHECK(build(1, 49) == 0 && told(MOGZIFT_ANSWERED, 3, 0) && wrote(3, 0, 0, 0));
    CHECK(run(1, list, 2, 1) == 0 && told(MOGZIFT_ANSWERED, 1, 2) && wrote(0, 1, 0, 0) && sets_out[0] == 0);
    for (i = 0; i < 32; i++) {
        add_effect(1, 0, 1, 0);
    }
    CHECK(mogzift_words(1, 32, 1) == 563);
    CHECK(answered(fitting_depth(563), MOGZIFT_ANSWERED, 1, 0));
    CHECK(answered(fitting_depth(562), MOGZIFT_ANSWERED, 0, 0));
    CHECK(refused(build(1, 49), MOGZIFT_SHORT_MEMORY, 563));
    CHECK(run(1, list, 1, 1) == 0 && told(MOGZIFT_ANSWERED, 1, 1) && sets_out[0] == 0);
    CHECK(run(1, list, 2, 1) == 0 && told(MOGZIFT_ANSWERED, 1, 1) && sets_out[0] == 1);
    add_effect(1, 0, 1, 0);
    CHECK(refused(fitting_depth(563), MOGZIFT_BAD_COUNT, 8));

    /* the longest file */
    begin_2(32, 32, 64);
    for (i = 0; i < 32; i++) {
        add_effect(31, 255, 255, 255);
    }
    CHECK(file_len == 809 && answered(fitting_depth(2636), MOGZIFT_ANSWERED, 0, 0));
    CHECK(answered(fitting_depth(mogzift_words(32, 32, 3)), MOGZIFT_ANSWERED, 3, 0));
    file_len += 1;
    CHECK(refused(fitting_depth(2636), MOGZIFT_BAD_LENGTH, 809));
    put(LAMP_2, sizeof LAMP_2);
}

static void messages(void) {
    size_t i, j;
    CHECK(strcmp(mogzift_message(0), "accepted") == 0);
    for (i = 0; i <= MOGZIFT_BAD_SHARE + 1; i++) {
        CHECK(strlen(mogzift_message(i)) > 0);
        for (j = 0; j < i; j++) {
            CHECK(strcmp(mogzift_message(i), mogzift_message(j)) != 0);
        }
    }
    CHECK(strcmp(mogzift_message((size_t)-1), mogzift_message(MOGZIFT_BAD_SHARE + 1)) == 0);
}

int main(void) {
    put(LAMP, sizeof LAMP);
    memset(words, MARK, sizeof words);
    memcpy(words, LAMP_WORDS, sizeof LAMP_WORDS);
    memset(lit, MARK, sizeof lit);
    memcpy(lit, LIT_WORDS, sizeof LIT_WORDS);
    /* with one layer more the graph rests */
    CHECK(mogzift_words(3, 2, 3) == 69);
    CHECK(mogzift_build(file, file_len, 3, deeper, 69, answer) == 0);
    CHECK(mogzift_build_within(file, file_len, LIT_TOO, 2, 3, lit_deeper, 69, answer) == 0);
    builds();
    looks();
    builds_within();
    files();
    equal_actions();
    rests_and_levels();
    levels_within();
    levels_by_share();
    pages();
    extracts();
    runs();
    idle_steps();
    plans();
    depths();
    texts();
    messages();
    CHECK(memcmp(file, LAMP, sizeof LAMP) == 0);

    /* the same graph in version 2 */
    put(LAMP_2, sizeof LAMP_2);
    builds();
    looks();
    builds_within();
    files_2();
    effects_of_no_action();
    rests_and_levels();
    levels_within();
    levels_by_share();
    pages();
    extracts();
    runs_2();
    idle_steps_2();
    plans_2();
    depths();
    texts_2();
    interference();
    effect_counts();
    CHECK(memcmp(file, LAMP_2, sizeof LAMP_2) == 0);

    /* what was lent for reading only */
    CHECK(memcmp(words, LAMP_WORDS, sizeof LAMP_WORDS) == 0 && marked_from(words, sizeof words, sizeof LAMP_WORDS));
    CHECK(memcmp(lit, LIT_WORDS, sizeof LIT_WORDS) == 0 && marked_from(lit, sizeof lit, sizeof LIT_WORDS));
    CHECK(LIT_TOO[0] == (DOOR | LIT) && LIT_TOO[1] == (DESK | LIT) && LIT_TOO[2] == 0);
    CHECK(EVEN[0] == 1 && EVEN[1] == 1 && EVEN[2] == 1);
    printf("the lamp through 12 calls, in both versions: %d checks, %d failed\n", checks, failures);
    return failures == 0 ? 0 : 1;
}
