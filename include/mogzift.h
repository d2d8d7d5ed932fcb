/*
 * Mogzift: one planning graph for up to 64 start states.
 *
 * Link with target/staticlib/libmogzift.a (x86-64 Linux), which `sh tools/archive.sh` writes. The crate `mogzift_c` proves
 * of each call below that what it returns, what it tells and all memory lent to it are as its rule says, for every
 * argument.
 *
 * WHAT A CALL TAKES
 *   file, file_len    the problem file's bytes: any bytes, any length
 *   depth             the depth k of the graph, 0 to 255
 *   set               a set of start states, bit s for state s
 *   goal              a set of propositions, bit p for proposition p
 *   goals, goals_len  a page of goals, each a set of propositions
 *   possible, possible_len
 *                     the possible sets, of each start state the propositions that may hold in it
 *   weights, weights_len
 *                     the weights, one for each start state, 0 to 65,535
 *   numerator, denominator
 *                     a share of the weight of all states, as a fraction
 *   words, words_len  graph memory, in 64-bit words; so are possible_words and sure_words, of possible_len and sure_len
 *   list, list_len    a sequence of action numbers, a byte each
 *   out, out_len      output, in elements
 *   room              a number of graph words
 *   answer            room for three numbers, below
 * Lengths count elements and not bytes. Values are free: nothing is asked of any number, byte or word, and graph words
 * that no build wrote are read as found. A pointer must be aligned for its type, not NULL (also where its length is 0),
 * and must refer to as many elements as the length says. What a call may write (a pointer without const) may not overlap
 * anything else that is passed to it. A call keeps no pointer and has no state: calls may run at the same time where none
 * writes what another reads or writes.
 *
 * WHAT A CALL RETURNS AND TELLS
 * It returns 0 if it is accepted, else the number of its refusal, 1 to 18. Every call writes all three numbers of the
 * answer. answer[0] is the kind:
 *   MOGZIFT_REFUSED       answer[1] is the number returned, answer[2] the place
 *   MOGZIFT_ANSWERED      answer[1] and answer[2] are the call's, as said there; 0 where nothing is said
 *   MOGZIFT_NONE          'none' of a rest, 'never' of a level; answer[1] and answer[2] are 0
 *   MOGZIFT_NOT_BY_DEPTH  of a level; answer[1] and answer[2] are 0
 *
 * WHAT A CALL WRITES
 * A call that is turned away writes the answer and nothing else: its words and its out are, byte for byte, as they were.
 * An accepted call writes the answer and the front of its words or its out, as said there, and nothing else: what lies
 * behind that stays. No call writes what it takes by a pointer to const.
 *
 * WHAT A CALL NEEDS
 * No heap, no file, no other library than the C library's memcpy, memmove and memset. Of the
 * stack, whatever the problem:
 *   mogzift_levels_text    109 KiB (64 KiB of graph words, and a build)
 *   mogzift_build, _build_within
 *                          44 KiB
 *   mogzift_page, _plan, _run
 *                          under 4 KiB
 *   each other call        under 2 KiB
 * These are measured and not proved; `cargo run --release --offline --bin stack` in rust/ measures them again. To them comes
 * what a thread needs for itself, and, in a program that looks memset up at its first use, up to 4 KiB for that: such a
 * program's build ran in a thread of 52 KiB and failed in 48, its text ran in 116 and failed in 112, when both needed 1 KiB
 * less. Give a thread MOGZIFT_STACK bytes, 256 KiB, which is more than twice the largest.
 *
 * THE PROBLEM FILE (little-endian; a set of propositions is 4 bytes)
 *   offset 0 the letters SAG; 3 version, 2 bytes, 1 or 2; 5 P propositions (1 to 32); 6 A actions (0 to 32); 7 N start
 *   states (1 to 64).
 *   Version 1: from offset 8 on A actions of 12 bytes: precondition, add, delete; then N start states of 4 bytes. Length
 *   8 + 12A + 4N. No two actions have the same three sets. Each has one effect, of its number, that fires in any state.
 *   Version 2: offset 8 E effects (0 to 32); from 9 on A preconditions of 4 bytes, one for each action; then E effects of
 *   13 bytes: number of its action (1 byte), antecedent, add, delete; then N start states of 4 bytes. Length
 *   9 + 4A + 13E + 4N. An action may have several effects, or none; preconditions and effects may repeat.
 *   Start states may repeat in both.
 *
 * THE GRAPH'S WORDS
 * Proposition layer 0, action layer 0, proposition layer 1, .., proposition layer k; in each the labels by number, then
 * the mutex words of the pairs (0,1), (0,2), .., (1,2), ..; bit s speaks of start state s. With V = E + P vertices (the
 * effects, in version 1 E = A, then a persistence for each proposition) these are (k + 1) P (P + 1) / 2 + k V (V + 1) / 2
 * words: mogzift_words below. An effect needs its action's precondition and its antecedent; effects of one action do not
 * interfere.
 *
 * REFUSALS
 * The first cause that holds, in the order of this list, of those that the call can have: rising numbers, but 16, 15 and
 * 17 behind 5, and 18 behind 8. 1 to 5, 16 and 15 are for the file's writer to mend, 17, 18 and 6 to 11 for the caller; 12
 * and 13 lie in the problem; at 14 someone altered the graph's words.
 *   number                          cause                                                        place
 *    1 MOGZIFT_BAD_HEAD             under 8 bytes, no SAG, or version 2 and under 9 bytes        0
 *    2 MOGZIFT_BAD_VERSION          a version other than 1 and 2                                 3
 *    3 MOGZIFT_BAD_COUNT            P, A, N or, in version 2, E outside its range                5, 6, 7 or 8, the lowest
 *    4 MOGZIFT_BAD_LENGTH           length                                                       the right length
 *    5 MOGZIFT_BAD_PROP_SET         a set in the file with bit P or above                        the first such set's offset
 *   16 MOGZIFT_EFFECT_ACTION        version 2: an effect with an action number of A or above     the first such one's offset
 *   15 MOGZIFT_EQUAL_ACTION         version 1: an action with the three sets of an earlier one   the first such one's offset
 *   17 MOGZIFT_BAD_POSSIBLE_SET     possible_len is not N;                                       N
 *                                   else a possible set that lacks a sure proposition or has     the first such state's
 *                                   bit P or above                                               number
 *    6 MOGZIFT_BAD_DEPTH            depth above 255                                              255
 *    7 MOGZIFT_BAD_STATE_SET        set empty, or with bit N or above                            0
 *    8 MOGZIFT_BAD_GOAL             goal with bit P or above                                     0
 *   18 MOGZIFT_BAD_SHARE            weights_len is not N, all weights are 0, denominator 0, or   0
 *                                   numerator above denominator
 *    9 MOGZIFT_SHORT_MEMORY         words_len, or a length of one of two graphs, too small       the words needed
 *   10 MOGZIFT_SHORT_OUTPUT         out_len too small                                            the elements needed
 *   11 MOGZIFT_BAD_SEQUENCE         list longer than 65,535; else an action number of A or above 65,535; else its index
 *   12 MOGZIFT_NO_PRECONDITION      a step lacks its precondition in some state of the set       the step's index
 *   13 MOGZIFT_NO_LEVEL             a plan is wanted and there is no level                       the depth
 *   14 MOGZIFT_UNCOVERED            the graph's words were altered: states are left uncovered,   that proposition's layer
 *                                   or at layer 0 a need lies outside its label                  0
 */
#ifndef MOGZIFT_H
#define MOGZIFT_H

#include <stddef.h>
#include <stdint.h>

#ifdef __cplusplus
extern "C" {
#endif

/* kinds: answer[0] */
enum {
    MOGZIFT_REFUSED = 0,
    MOGZIFT_ANSWERED = 1,
    MOGZIFT_NONE = 2,
    MOGZIFT_NEVER = 2,
    MOGZIFT_NOT_BY_DEPTH = 3
};

/* entries of a page that are no level: what mogzift_page writes beside 0 to 255. mogzift_level_within tells the first two. */
enum {
    MOGZIFT_ENTRY_NEVER = 256,
    MOGZIFT_ENTRY_NOT_BY_DEPTH = 257,
    MOGZIFT_ENTRY_BAD_GOAL = 258
};

/* refusals: what a call returns, and answer[1] */
enum {
    MOGZIFT_BAD_HEAD = 1,
    MOGZIFT_BAD_VERSION = 2,
    MOGZIFT_BAD_COUNT = 3,
    MOGZIFT_BAD_LENGTH = 4,
    MOGZIFT_BAD_PROP_SET = 5,
    MOGZIFT_BAD_DEPTH = 6,
    MOGZIFT_BAD_STATE_SET = 7,
    MOGZIFT_BAD_GOAL = 8,
    MOGZIFT_SHORT_MEMORY = 9,
    MOGZIFT_SHORT_OUTPUT = 10,
    MOGZIFT_BAD_SEQUENCE = 11,
    MOGZIFT_NO_PRECONDITION = 12,
    MOGZIFT_NO_LEVEL = 13,
    MOGZIFT_UNCOVERED = 14,
    MOGZIFT_EQUAL_ACTION = 15,
    MOGZIFT_EFFECT_ACTION = 16,
    MOGZIFT_BAD_POSSIBLE_SET = 17,
    MOGZIFT_BAD_SHARE = 18
};

/* The bytes of output that mogzift_levels_text asks for: the longest text's. */
enum { MOGZIFT_TEXT_ROOM = 8600 };

/* A thread with so many bytes of stack can make any call. */
enum { MOGZIFT_STACK = 262144 };

/*
 * The number of words of a graph of these counts and this depth: what words_len must be at least. It takes the number of
 * effects: E in version 2, and in version 1, where each action has one, A.
 */
static inline size_t mogzift_words(size_t props, size_t effects, size_t depth) {
    size_t vertices = effects + props;
    return (depth + 1) * (props * (props + 1) / 2) + depth * (vertices * (vertices + 1) / 2);
}

/* What a number that a call returned says, in words: what is wrong, and what to do. 'The place' is answer[2]. */
static inline const char *mogzift_message(size_t number) {
    switch (number) {
    case 0:
        return "accepted";
    case MOGZIFT_BAD_HEAD:
        return "not a problem file: begin it with SAG, the version and its counts, 8 bytes in all, 9 in version 2";
    case MOGZIFT_BAD_VERSION:
        return "another version: write 1 and 0, or 2 and 0, at offsets 3 and 4";
    case MOGZIFT_BAD_COUNT:
        return "a count is out of range, at the place: 1 to 32 propositions, 0 to 32 actions and effects, 1 to 64 states";
    case MOGZIFT_BAD_LENGTH:
        return "the length does not fit the counts: make it as long as the place says, or set the counts right";
    case MOGZIFT_BAD_PROP_SET:
        return "a set in the file, at the place, has bit P or above: clear the bit, or count P up";
    case MOGZIFT_BAD_DEPTH:
        return "the depth is above 255: ask for 255 at most";
    case MOGZIFT_BAD_STATE_SET:
        return "the set of states is empty or has bit N or above: name one state at least, and only 0 to N - 1";
    case MOGZIFT_BAD_GOAL:
        return "the goal has bit P or above: name only propositions 0 to P - 1";
    case MOGZIFT_SHORT_MEMORY:
        return "the graph's memory is too short: lend as many words as the place says, or ask for a smaller depth";
    case MOGZIFT_SHORT_OUTPUT:
        return "the output is too short: lend as many elements as the place says";
    case MOGZIFT_BAD_SEQUENCE:
        return "the list has over 65535 steps, or the one at the place is no action: cut it, or name only 0 to A - 1";
    case MOGZIFT_NO_PRECONDITION:
        return "the step at the place lacks its precondition in some state of the set: take another, or a smaller set";
    case MOGZIFT_NO_LEVEL:
        return "the goal has no level up to the depth, so there is no plan: build deeper, unless the level is never";
    case MOGZIFT_UNCOVERED:
        return "the graph's words were altered, seen at the layer that the place says: build the graph again";
    case MOGZIFT_EQUAL_ACTION:
        return "an action, at the place, has the same three sets as an earlier one: leave it out, and count A down";
    case MOGZIFT_EFFECT_ACTION:
        return "an effect, at the place, has an action number of A or above: name only 0 to A - 1, or count A up";
    case MOGZIFT_BAD_POSSIBLE_SET:
        return "not N possible sets, or the one at the place lacks a sure proposition or has bit P or above: mend the list";
    case MOGZIFT_BAD_SHARE:
        return "not N weights, all of them 0, denominator 0, or numerator above it: weigh each state, and ask for 1 at most";
    default:
        return "no call returns this number";
    }
}

/*
 * Builds the file's graph to the depth, into the front of words.
 * A step from one layer of propositions to the next has a scan of each two propositions p < q. It starts with what their
 * labels share in the next layer, and ends as soon as nothing is left. It looks at the vertices that add both, rising; then
 * for each vertex that adds p, rising, at its pair with each other vertex that adds q, rising. A look takes away a vertex's
 * label, or what the labels of a pair share less its mutex word. What is left at the end is the mutex word of p and q.
 * Answered: answer[1] is the number of words written, answer[2] the number of looks in all scans of all steps, 0 at depth 0.
 * Refused: 1 to 5, 16, 15, 6, 9.
 */
size_t mogzift_build(const uint8_t *file, size_t file_len, size_t depth, uint64_t *words, size_t words_len,
                     uint64_t answer[3]);

/*
 * Builds the graph for start states of which it is known only what surely holds and what may: the file's states are the
 * sure sets, and the list has, for each, the possible set, with all that is sure in it. The words and the looks are those
 * of mogzift_build for the file with the possible sets in the place of its states, and with that file each other call
 * reads them.
 * Answered: as mogzift_build. Refused: 1 to 5, 16, 15, 17, 6, 9.
 */
size_t mogzift_build_within(const uint8_t *file, size_t file_len, const uint32_t *possible, size_t possible_len,
                            size_t depth, uint64_t *words, size_t words_len, uint64_t answer[3]);

/*
 * The layer at which the graph rests: the first below the depth whose labels and mutex words are those of the next layer.
 * Answered: answer[1] is the layer. None: no layer is like that. Refused: 1 to 5, 16, 15, 6, 9.
 */
size_t mogzift_rest(const uint8_t *file, size_t file_len, size_t depth, const uint64_t *words, size_t words_len,
                    uint64_t answer[3]);

/*
 * The level of the goal for the states of the set: the first layer where each goal's label contains the set and no mutex
 * word of two goals meets it. An empty goal has level 0.
 * Answered: answer[1] is the layer. Never: there is no such layer, and the graph rests. Not by depth: there is none, and
 * the graph does not rest. Refused: 1 to 5, 16, 15, 6, 7, 8, 9.
 */
size_t mogzift_level(const uint8_t *file, size_t file_len, size_t depth, uint64_t set, uint32_t goal,
                     const uint64_t *words, size_t words_len, uint64_t answer[3]);

/*
 * The levels of the goal for the states of the set in two graphs of the file's shape and this depth: in possible_words,
 * which mogzift_build_within wrote for the possible sets, and in sure_words, which mogzift_build wrote for the file. They
 * bound what is not known. Whichever states are chosen, each with all of its sure set and nothing outside its possible
 * set, their level at this depth is no smaller than the first and no larger than the second: if the first is no layer, no
 * choice has one, and if the second is one, every choice has one. Each is told as an entry of a page is written: the layer,
 * 0 to 255; MOGZIFT_ENTRY_NEVER; or MOGZIFT_ENTRY_NOT_BY_DEPTH.
 * Answered: answer[1] is the first level, answer[2] the second. Refused: 1 to 5, 16, 15, 6, 7, 8, 9 (either memory).
 */
size_t mogzift_level_within(const uint8_t *file, size_t file_len, size_t depth, uint64_t set, uint32_t goal,
                            const uint64_t *possible_words, size_t possible_len, const uint64_t *sure_words,
                            size_t sure_len, uint64_t answer[3]);

/*
 * The first layer that holds the goal for enough of the weight: where the weight of the states that hold it, times the
 * denominator, is at least the weight of all states, times the numerator. A state holds the goal in a layer if it is in
 * each goal's label and in no mutex word of two goals; an empty goal is held by all. Bits from N up weigh nothing. With
 * share 1 and no weight 0 this is mogzift_level for all states.
 * Answered: answer[1] is the layer. Never: there is no such layer, and the graph rests. Not by depth: there is none, and
 * the graph does not rest. Refused: 1 to 5, 16, 15, 6, 8, 18, 9.
 */
size_t mogzift_level_share(const uint8_t *file, size_t file_len, size_t depth, uint32_t goal, const uint16_t *weights,
                           size_t weights_len, uint16_t numerator, uint16_t denominator, const uint64_t *words,
                           size_t words_len, uint64_t answer[3]);

/*
 * The levels of a page of goals for the states of the set. Entry i of out is what mogzift_level gives for goal i: the
 * layer, 0 to 255; MOGZIFT_ENTRY_NEVER; MOGZIFT_ENTRY_NOT_BY_DEPTH; or MOGZIFT_ENTRY_BAD_GOAL where that call is turned
 * away with 8, which leaves the other entries as they are. A page may be empty.
 * Answered: answer[1] is the number of entries written, goals_len. Refused: 1 to 5, 16, 15, 6, 7, 9, 10 (goals_len entries).
 */
size_t mogzift_page(const uint8_t *file, size_t file_len, size_t depth, uint64_t set, const uint32_t *goals,
                    size_t goals_len, const uint64_t *words, size_t words_len, uint16_t *out, size_t out_len,
                    uint64_t answer[3]);

/*
 * Writes the graph's words cut to the set into the front of out, bits closed up in order: the lowest state of the set
 * becomes bit 0. On built words this is the graph built for these states only.
 * Answered: answer[1] is the number of words written. Refused: 1 to 5, 16, 15, 6, 7, 9, 10 (as many words as the graph has).
 */
size_t mogzift_extract(const uint8_t *file, size_t file_len, size_t depth, uint64_t set, const uint64_t *words,
                       size_t words_len, uint64_t *out, size_t out_len, uint64_t answer[3]);

/*
 * Runs the sequence from each state of the set and writes the N states' sets of propositions after it into the front of
 * out; states outside the set keep their start. A step needs its action's precondition in every state of the set. Then, in
 * each, the action's effects fire whose antecedents held there before the step: all that they delete is removed, then all
 * that they add is joined, so that an add wins over a delete. An action without effects changes nothing. A step is idle if
 * it leaves every state of the set as it was; states outside the set do not count.
 * Answered: answer[1] is the number of sets written, N, answer[2] the number of idle steps, 0 for an empty sequence.
 * Refused: 1 to 5, 16, 15, 7, 10 (N sets), 11, 12.
 */
size_t mogzift_run(const uint8_t *file, size_t file_len, uint64_t set, const uint8_t *list, size_t list_len,
                   uint32_t *out, size_t out_len, uint64_t answer[3]);

/*
 * The relaxed plan that supports the goal for the states of the set. Word j of out, for j below the level, is the set of the
 * actions marked at action layer j: those of which an effect is chosen there.
 * Answered: answer[1] is the level, which is the number of words written, answer[2] how many actions are marked in all.
 * Refused: 1 to 5, 16, 15, 6, 7, 8, 9, 10 (as many words as the depth), 13, 14.
 */
size_t mogzift_plan(const uint8_t *file, size_t file_len, size_t depth, uint64_t set, uint32_t goal,
                    const uint64_t *words, size_t words_len, uint32_t *out, size_t out_len, uint64_t answer[3]);

/*
 * The greatest depth up to 255 whose graph for the file fits room words.
 * Answered: answer[1] is the depth. Refused: 1 to 5, 16, 15, 9 (not even depth 0 fits; the words that it needs).
 */
size_t mogzift_depth(const uint8_t *file, size_t file_len, size_t room, uint64_t answer[3]);

/*
 * Writes what the program `levels` prints for the file into the front of out, in ASCII and without a zero byte at the end:
 * depth and rest, the levels of each state, the levels of all states. It takes the greatest depth whose graph fits 8,192
 * words, and builds it in memory of its own. A file that is turned away has a text too, `refused`, number and place.
 * Answered: answer[1] is the number of bytes written. Refused: 10 (MOGZIFT_TEXT_ROOM bytes, whatever the file).
 */
size_t mogzift_levels_text(const uint8_t *file, size_t file_len, uint8_t *out, size_t out_len, uint64_t answer[3]);

#ifdef __cplusplus
}
#endif

#endif
