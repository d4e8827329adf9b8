/* Plan B of document 01 through every call of knowetop.h that takes a plan or two, and the one that
   makes a plan, as C11 and as C++17. The argument is the path of samples/b.plan. What is expected
   was made by hand from 01 and 02. */
#include "knowetop.h"

#undef NDEBUG
#include <assert.h>
#include <stdio.h>
#include <string.h>

/* The nodes of B: under MOOR (all of) first CAST, then COMS (any of), which is RADI or SATL. */
enum { MOOR, CAST, COMS, RADI, SATL, NODES };

/* B has two flags, so a summary has four entries of eight marks. */
enum { FLAGS = 2, SUMMARY = 16 * FLAGS, STATE = 8 + 3 * NODES, LISTING = 2048 };

/* Nothing blocked: a list of which no number is read. */
static const size_t none[] = {99};

static int same(const uint8_t *found, const uint8_t *wanted, size_t len)
{
    return memcmp(found, wanted, len) == 0;
}

/* Whether all these bytes are still the 7 that they were. */
static int kept(const uint8_t *bytes, size_t len)
{
    for (size_t i = 0; i < len; i++) {
        if (bytes[i] != 7) {
            return 0;
        }
    }
    return 1;
}

static void refusal_and_verdict(const uint8_t *plan, size_t len)
{
    assert(knowetop_refusal(plan, len) == 0);
    assert(knowetop_refusal(plan, 15) == 1);
    assert(knowetop_refusal(plan, len - 1) == 3);
    assert(knowetop_verdict(plan, len, none, 0) == KNOWETOP_CLEAR);
    assert(knowetop_verdict(plan, len - 1, none, 0) == 3);
}

static void summary(const uint8_t *plan, size_t len)
{
    static const uint8_t of_root[SUMMARY] = {
        1, 1, 1, 1, 0, 0, 0, 0, /* flag 0 clear: CAST must need it and must leave it */
        0, 0, 0, 0, 1, 1, 0, 0, /* flag 0 set: CAST must hold it */
        0, 0, 1, 1, 0, 0, 0, 0, /* flag 1 clear: RADI and SATL both leave it */
        0, 0, 0, 0, 1, 1, 0, 0, /* flag 1 set: RADI and SATL both hold it */
    };
    uint8_t out[SUMMARY + 8];
    memset(out, 7, sizeof out);
    assert(knowetop_summary(plan, len, none, 0, MOOR, out, SUMMARY - 1) == 15);
    assert(knowetop_summary(plan, len, none, 0, NODES, out, sizeof out) == 17);
    assert(kept(out, sizeof out));
    assert(knowetop_summary(plan, len, none, 0, MOOR, out, sizeof out) == 0);
    assert(same(out, of_root, SUMMARY) && kept(out + SUMMARY, sizeof out - SUMMARY));
}

/* The states of a run: flags, a byte for each node, the place of each in the order of starts. */
static const uint8_t at_first[STATE] = {0};
static const uint8_t casting[STATE] = {
    1, 0, 0, 0, 0, 0, 0, 0,
    0, 1, 0, 0, 0,
    0, 0, 1, 0, 0, 0, 0, 0, 0, 0,
};
static const uint8_t cast[STATE] = {
    0, 0, 0, 0, 0, 0, 0, 0,
    0, 2, 0, 0, 0,
    0, 0, 1, 0, 0, 0, 0, 0, 0, 0,
};
static const uint8_t calling[STATE] = {
    2, 0, 0, 0, 0, 0, 0, 0,
    0, 2, 0, 0, 1,
    0, 0, 1, 0, 0, 0, 0, 0, 2, 0,
};
static const uint8_t at_last[STATE] = {
    0, 0, 0, 0, 0, 0, 0, 0,
    0, 2, 0, 0, 2,
    0, 0, 1, 0, 0, 0, 0, 0, 2, 0,
};

/* A run from the beginning to the end, and the calls that the monitor refuses on the way. */
static void run(const uint8_t *plan, size_t len)
{
    uint8_t state[STATE];

    assert(knowetop_fresh(plan, len, none, 0, state, sizeof state) == 0);
    assert(same(state, at_first, STATE));
    assert(knowetop_start(plan, len, none, 0, state, sizeof state, COMS) == 17); /* no task */
    assert(knowetop_start(plan, len, none, 0, state, sizeof state, RADI) == 20); /* CAST comes first */
    assert(knowetop_finish(plan, len, none, 0, state, sizeof state, CAST) == 18); /* it does not run */
    assert(same(state, at_first, STATE));

    assert(knowetop_start(plan, len, none, 0, state, sizeof state, CAST) == 0);
    assert(same(state, casting, STATE));
    assert(knowetop_start(plan, len, none, 0, state, sizeof state, CAST) == 18); /* it does not wait */
    assert(knowetop_finish(plan, len, none, 0, state, sizeof state, CAST) == 0);
    assert(same(state, cast, STATE));
    assert(knowetop_status(plan, len, none, 0, state, sizeof state) == KNOWETOP_UNFINISHED);

    assert(knowetop_start(plan, len, none, 0, state, sizeof state, SATL) == 0);
    assert(same(state, calling, STATE));
    assert(knowetop_start(plan, len, none, 0, state, sizeof state, RADI) == 19); /* SATL was chosen */
    assert(knowetop_finish(plan, len, none, 0, state, sizeof state, SATL) == 0);
    assert(same(state, at_last, STATE));
    assert(knowetop_status(plan, len, none, 0, state, sizeof state) == KNOWETOP_COMPLETE);
}

/* The same with COMS optional, of kind 3: with it skipped the run is complete after CAST. */
static void optional(const uint8_t *plan, size_t len)
{
    uint8_t with_kind[82], state[STATE], skipped[STATE];
    assert(len == sizeof with_kind);
    memcpy(with_kind, plan, len);
    with_kind[16 + 4 * NODES + 4 * COMS + 1] = 3;
    plan = with_kind;
    memcpy(skipped, cast, STATE);
    skipped[8 + COMS] = 2;

    assert(knowetop_verdict(plan, len, none, 0) == KNOWETOP_CLEAR);
    assert(knowetop_fresh(plan, len, none, 0, state, sizeof state) == 0);
    assert(knowetop_skip(plan, len, none, 0, state, STATE - 1, COMS) == 15);
    assert(knowetop_skip(plan, len, none, 0, state, sizeof state, CAST) == 27); /* a task */
    assert(knowetop_skip(plan, len, none, 0, state, sizeof state, NODES) == 27); /* no node */
    assert(knowetop_skip(plan, len, none, 0, state, sizeof state, COMS) == 20); /* CAST comes first */
    assert(same(state, at_first, STATE));

    assert(knowetop_start(plan, len, none, 0, state, sizeof state, CAST) == 0);
    assert(knowetop_finish(plan, len, none, 0, state, sizeof state, CAST) == 0);
    assert(knowetop_status(plan, len, none, 0, state, sizeof state) == KNOWETOP_UNFINISHED);
    assert(knowetop_skip(plan, len, none, 0, state, sizeof state, COMS) == 0);
    assert(same(state, skipped, STATE));
    assert(knowetop_status(plan, len, none, 0, state, sizeof state) == KNOWETOP_COMPLETE);
    assert(knowetop_skip(plan, len, none, 0, state, sizeof state, COMS) == 18); /* skipped already */
    assert(knowetop_start(plan, len, none, 0, state, sizeof state, RADI) == 19); /* in a skipped group */
    assert(same(state, skipped, STATE));
}

/* The same with COMS all of: RADI and SATL run at once, and each holds flag 1 set and leaves it clear,
   so that only together do they end. */
static void finish_together(const uint8_t *plan, size_t len)
{
    static const size_t both[] = {RADI, SATL}, falling[] = {SATL, RADI}, with_group[] = {COMS, RADI};
    static const uint8_t ended[STATE] = {
        0, 0, 0, 0, 0, 0, 0, 0,
        0, 2, 0, 2, 2,
        0, 0, 1, 0, 0, 0, 2, 0, 3, 0,
    };
    uint8_t changed[82], state[STATE], before[STATE];
    assert(len == sizeof changed);
    memcpy(changed, plan, len);
    changed[16 + 4 * NODES + 4 * COMS + 1] = 1;
    plan = changed;

    assert(knowetop_verdict(plan, len, none, 0) == KNOWETOP_OPEN);
    memcpy(state, cast, STATE);
    assert(knowetop_finish_together(plan, len, none, 0, state, STATE - 1, both, 2) == 15);
    assert(knowetop_finish_together(plan, len, none, 0, state, sizeof state, both, 2) == 18); /* they wait */
    assert(knowetop_start(plan, len, none, 0, state, sizeof state, RADI) == 0);
    assert(knowetop_start(plan, len, none, 0, state, sizeof state, SATL) == 0);
    memcpy(before, state, STATE);
    assert(knowetop_finish(plan, len, none, 0, state, sizeof state, RADI) == 22);
    assert(knowetop_finish_together(plan, len, none, 0, state, sizeof state, both, 0) == 25); /* none */
    assert(knowetop_finish_together(plan, len, none, 0, state, sizeof state, falling, 2) == 25);
    assert(knowetop_finish_together(plan, len, none, 0, state, sizeof state, with_group, 2) == 17);
    assert(knowetop_finish_together(plan, len, none, 0, state, sizeof state, both, 1) == 22);

    changed[len - 2 - 2] += 64; /* the last condition: SATL leaves flag 1 set */
    assert(knowetop_finish_together(plan, len, none, 0, state, sizeof state, both, 2) == 26);
    changed[len - 2 - 2] -= 64;
    assert(same(state, before, STATE));
    assert(knowetop_finish_together(plan, len, none, 0, state, sizeof state, both, 2) == 0);
    assert(same(state, ended, STATE));
    assert(knowetop_status(plan, len, none, 0, state, sizeof state) == KNOWETOP_COMPLETE);
}

/* With RADI blocked there is only SATL: RADI stays a task, but cannot be started. */
static void blocked(const uint8_t *plan, size_t len)
{
    static const size_t radi[] = {RADI}, both[] = {RADI, SATL}, not_rising[] = {SATL, RADI}, cast_alone[] = {CAST},
                        root[] = {MOOR}, no_node[] = {RADI, NODES};
    static const uint8_t zeros[SUMMARY] = {0};
    uint8_t state[STATE], out[SUMMARY];

    assert(knowetop_verdict(plan, len, radi, 1) == KNOWETOP_CLEAR);
    assert(knowetop_verdict(plan, len - 1, root, 1) == 3);
    assert(knowetop_verdict(plan, len, not_rising, 2) == 28);
    assert(knowetop_verdict(plan, len, cast_alone, 1) == 28); /* its parent is all of */
    assert(knowetop_verdict(plan, len, root, 1) == 28);
    assert(knowetop_verdict(plan, len, both, 2) == 29); /* COMS has no branch left */
    assert(knowetop_summary(plan, len, no_node, 2, RADI, out, SUMMARY - 1) == 28);
    assert(knowetop_summary(plan, len, both, 2, RADI, out, SUMMARY - 1) == 29);
    assert(knowetop_summary(plan, len, radi, 1, RADI, out, SUMMARY - 1) == 15);
    assert(knowetop_summary(plan, len, radi, 1, RADI, out, sizeof out) == 0);
    assert(same(out, zeros, SUMMARY));

    assert(knowetop_fresh(plan, len, both, 2, state, sizeof state) == 29);
    assert(knowetop_fresh(plan, len, radi, 1, state, sizeof state) == 0);
    assert(knowetop_start(plan, len, radi, 1, state, sizeof state, COMS) == 17);
    assert(knowetop_start(plan, len, radi, 1, state, sizeof state, RADI) == 19);
    assert(knowetop_finish(plan, len, radi, 1, state, sizeof state, RADI) == 18);
    assert(knowetop_finish_together(plan, len, radi, 1, state, sizeof state, radi, 1) == 18);
    assert(knowetop_skip(plan, len, radi, 1, state, sizeof state, RADI) == 27);
    assert(same(state, at_first, STATE));
    memcpy(state, calling, STATE);
    assert(knowetop_finish(plan, len, both + 1, 1, state, sizeof state, SATL) == 16); /* SATL runs */
    assert(knowetop_finish(plan, len, radi, 1, state, sizeof state, SATL) == 0);
    assert(same(state, at_last, STATE));
    assert(knowetop_status(plan, len, radi, 1, state, sizeof state) == KNOWETOP_COMPLETE);
    assert(knowetop_status(plan, len, both + 1, 1, state, sizeof state) == 16);
}

/* States that are too short or malformed, and bytes after the state. */
static void lent_states(const uint8_t *plan, size_t len)
{
    static const size_t cast_alone = CAST;
    uint8_t state[STATE + 3];
    memset(state, 7, sizeof state);
    assert(knowetop_fresh(plan, len, none, 0, state, STATE - 1) == 15);
    assert(knowetop_status(plan, len, none, 0, state, sizeof state) == 16);
    assert(knowetop_start(plan, len, none, 0, state, sizeof state, CAST) == 16);
    assert(knowetop_finish(plan, len, none, 0, state, sizeof state, CAST) == 16);
    assert(knowetop_skip(plan, len, none, 0, state, sizeof state, COMS) == 16);
    assert(knowetop_finish_together(plan, len, none, 0, state, sizeof state, &cast_alone, 1) == 16);
    assert(kept(state, sizeof state));
    assert(knowetop_fresh(plan, len, none, 0, state, sizeof state) == 0);
    assert(kept(state + STATE, sizeof state - STATE));

    /* without a byte, and without places */
    assert(knowetop_status(plan, len, none, 0, state, STATE - 1) == 15);
    assert(knowetop_start(plan, len, none, 0, state, 8 + NODES, CAST) == 15);
    assert(knowetop_skip(plan, len, none, 0, state, sizeof state, COMS) == 27); /* any of, not optional */
    state[8 + NODES + 2 * CAST] = 1; /* a place, but CAST waits */
    assert(knowetop_start(plan, len, none, 0, state, sizeof state, CAST) == 16);
}

static void listing(const uint8_t *plan, size_t len)
{
    static const char text[] = "CLEAR 17\nRADI 12\nSATL 12\nCAST 0\n";
    size_t text_len = strlen(text);
    uint8_t out[LISTING];
    memset(out, 7, sizeof out);
    assert(knowetop_listing(plan, len, out, LISTING - 1) == 15);
    assert(kept(out, sizeof out));
    assert(knowetop_listing(plan, len, out, sizeof out) == KNOWETOP_TEXT + text_len);
    assert(memcmp(out, text, text_len) == 0 && kept(out + text_len, sizeof out - text_len));
}

/* CAST, then COMS, which the order says, and without it the numbers; with an any-of root 23; and 24
   where CAST needs flag 0 set, which it is not. */
static void sequence(const uint8_t *plan, size_t len)
{
    static const uint64_t in_order = (uint64_t)2 << 56 | COMS << 8 | CAST;
    uint8_t changed[82];

    assert(knowetop_sequence(plan, 15) == 1);
    assert(knowetop_sequence(plan, len - 1) == 3);
    assert(knowetop_sequence(plan, len) == in_order);

    assert(len == sizeof changed);
    memcpy(changed, plan, len);
    changed[4] = 0; /* no order */
    assert(knowetop_sequence(changed, len - 2) == in_order);
    changed[16 + 4 * NODES + 4 * MOOR + 1] = 2;
    assert(knowetop_sequence(changed, len - 2) == 23);
    changed[16 + 4 * NODES + 4 * MOOR + 1] = 1;
    changed[16 + 8 * NODES + 8] += 64; /* the first condition: CAST needs flag 0 set */
    assert(knowetop_sequence(changed, len - 2) == 24);
}

/* CAST and COMS come and go. Without the order RADI, of COMS, may need what CAST breaks. */
static void members(const uint8_t *plan, size_t len)
{
    static const uint8_t nobody[NODES] = {0}, both[NODES] = {0, 1, 1, 0, 0};
    uint8_t changed[82], list[NODES + 3];
    memset(list, 7, sizeof list);
    assert(knowetop_include(plan, 15, list, 0, NODES) == 1);
    assert(knowetop_include(plan, len, list, NODES - 1, CAST) == 15);
    assert(knowetop_exclude(plan, len, list, sizeof list, CAST) == 16);
    assert(kept(list, sizeof list));
    memset(list, 0, NODES);
    assert(knowetop_include(plan, len, list, sizeof list, NODES) == 17);
    assert(knowetop_include(plan, len, list, sizeof list, MOOR) == 31); /* the root */
    assert(knowetop_exclude(plan, len, list, sizeof list, RADI) == 31); /* a child of COMS */
    assert(knowetop_exclude(plan, len, list, sizeof list, CAST) == 32); /* nobody is aboard */
    assert(same(list, nobody, NODES));

    assert(knowetop_include(plan, len, list, sizeof list, CAST) == KNOWETOP_CLEAR);
    assert(knowetop_include(plan, len, list, sizeof list, CAST) == 32); /* it is aboard */
    assert(knowetop_include(plan, len, list, sizeof list, COMS) == KNOWETOP_CLEAR);
    assert(same(list, both, NODES) && kept(list + NODES, sizeof list - NODES));
    list[RADI] = 1;
    assert(knowetop_exclude(plan, len, list, sizeof list, CAST) == 16);
    list[RADI] = 0;

    assert(len == sizeof changed);
    memcpy(changed, plan, len);
    changed[4] = 0; /* no order */
    assert(knowetop_exclude(changed, len - 2, list, NODES, CAST) == KNOWETOP_CLEAR);
    assert(knowetop_include(changed, len - 2, list, NODES, CAST) == KNOWETOP_OPEN);
    changed[8] = 1; /* flag 0 set at the start, when CAST needs it clear */
    assert(knowetop_exclude(changed, len - 2, list, NODES, COMS) == KNOWETOP_DOOMED);
    assert(knowetop_exclude(changed, len - 2, list, NODES, CAST) == KNOWETOP_CLEAR);
    assert(same(list, nobody, NODES));
    changed[16 + 4 * NODES + 4 * MOOR + 1] = 2; /* an any-of root */
    assert(knowetop_exclude(changed, len - 2, list, NODES, CAST) == 31);
    assert(kept(list + NODES, sizeof list - NODES));
}

/* One group of one task: the upper halves of the states are 40505, 15472, 55975, 30943 and 5910.
   The task needs flag 7 set, which it is not at the start. */
static void generate(void)
{
    static const uint8_t wanted[] = {
        3, 0, 2, 0, 0, 0, 8, 0,
        0, 0, 0, 0, 0, 0, 0, 0,
        'S', 'O', 'A', 'K', 'G', '0', '0', '1', 'T', '0', '0', '2',
        255, 1, 0, 0, 0, 2, 0, 0, 1, 0, 52, 0, /* any of, 52 minutes */
        2, 2, 71, 0, 7, 1, /* needs flag 7 set, leaves it clear */
    };
    enum { MADE = sizeof wanted };
    uint8_t out[1462];
    memset(out, 7, sizeof out);
    assert(knowetop_generate(0, 0, 1, out, sizeof out) == 30);
    assert(knowetop_generate(0, 61, 61, out, sizeof out) == 30);
    assert(knowetop_generate(0, 2, 1, out, sizeof out) == 30);
    assert(knowetop_generate(0, 1, 61, out, 0) == 30);
    assert(knowetop_generate(0, SIZE_MAX, SIZE_MAX, out, 0) == 30);
    assert(knowetop_generate(100000, 1, 1, out, 0) == 15);
    assert(knowetop_generate(100000, 1, 1, out, MADE - 1) == 15);
    assert(kept(out, sizeof out));

    assert(knowetop_generate(100000, 1, 1, out, MADE) == KNOWETOP_PLAN + MADE);
    assert(same(out, wanted, MADE) && kept(out + MADE, sizeof out - MADE));
    assert(knowetop_refusal(out, MADE) == 0);
    assert(knowetop_verdict(out, MADE, none, 0) == KNOWETOP_DOOMED);

    assert(knowetop_generate(UINT32_MAX, 60, 60, out, sizeof out) == KNOWETOP_PLAN + 1404);
    assert(knowetop_refusal(out, 1404) == 0 && kept(out + 1404, sizeof out - 1404));
}

/* B, and a task that has flag 8 besides. Neither has anything against the other; but two of B have:
   each CAST needs flag 0 clear, and the other holds it set. */
static void merge(const uint8_t *plan, size_t len)
{
    static const uint8_t lone[] = {
        1, 0, 1, 0, 0, 0, 9, 0,
        0, 1, 0, 0, 0, 0, 0, 0, /* flag 8 is set */
        'L', 'O', 'N', 'E',
        255, 0, 7, 0,
        0, 72, 0, /* needs flag 8 set */
    };
    static const uint8_t wanted[] = {
        7, 0, 9, 0, 1, 0, 9, 0,
        0, 1, 0, 0, 0, 0, 0, 0,
        'H', 'U', 'L', 'L', 'M', 'O', 'O', 'R', 'C', 'A', 'S', 'T', 'C', 'O', 'M', 'S',
        'R', 'A', 'D', 'I', 'S', 'A', 'T', 'L', 'L', 'O', 'N', 'E',
        255, 1, 0, 0, 0, 1, 0, 0, 1, 0, 12, 0, 1, 2, 0, 0,
        3, 0, 3, 0, 3, 0, 5, 0, 0, 0, 7, 0,
        2, 2, 2, 4, 4, 4, 5, 5, 6,
        0, 0, 192, 0, 0, 1, 0, 0, 193, 0, 1, 1, 193, 0, 1, 1, 72, 0,
        2, 3,
    };
    enum { MADE = sizeof wanted, TWICE = 16 + 8 * 11 + 3 * 16 + 2 * 2 };
    uint8_t out[5136], changed[82];
    memset(out, 7, sizeof out);
    assert(len == sizeof changed);
    memcpy(changed, plan, len);
    changed[16] = 'm'; /* a name character that is not allowed */
    assert(knowetop_merge(changed, len, plan, 15, out, sizeof out) == 5);
    assert(knowetop_merge(plan, 15, changed, len, out, sizeof out) == 1);
    assert(knowetop_merge(plan, len, changed, len, out, 0) == 5);
    memcpy(changed, plan, len);
    changed[8] = 1; /* flag 0 set at the start */
    assert(knowetop_merge(plan, len, changed, len, out, 0) == 34);
    changed[8] = 4; /* flag 2, which B has not */
    assert(knowetop_merge(plan, len, changed, len, out, 0) == 4);
    assert(knowetop_merge(plan, len, lone, sizeof lone, out, MADE - 1) == 15);
    assert(kept(out, sizeof out));

    assert(knowetop_merge(plan, len, lone, sizeof lone, out, MADE) == KNOWETOP_PLAN + MADE);
    assert(same(out, wanted, MADE) && kept(out + MADE, sizeof out - MADE));
    assert(knowetop_verdict(out, MADE, none, 0) == KNOWETOP_CLEAR);
    assert(knowetop_merge(plan, len, plan, len, out, sizeof out) == KNOWETOP_PLAN + TWICE);
    assert(knowetop_refusal(out, TWICE) == 0 && kept(out + TWICE, sizeof out - TWICE));
    assert(knowetop_verdict(out, TWICE, none, 0) == KNOWETOP_OPEN);
}

/* Generated plans of 121 nodes and of 6: with HULL these are 128. With 7 instead there is one too many. */
static void merge_limit(void)
{
    enum { LARGE = 1404, SIX = 16 + 8 * 6 + 3 * 8, SEVEN = 16 + 8 * 7 + 3 * 10, MADE = LARGE + SIX - 16 + 8 };
    uint8_t large[LARGE], small[SEVEN], out[MADE + 3];
    memset(out, 7, sizeof out);
    assert(knowetop_generate(0, 60, 60, large, LARGE) == KNOWETOP_PLAN + LARGE);
    assert(knowetop_generate(0, 1, 5, small, SEVEN) == KNOWETOP_PLAN + SEVEN);
    assert(knowetop_merge(large, LARGE, small, SEVEN, out, 0) == 33);
    assert(knowetop_merge(small, SEVEN, large, LARGE, out, sizeof out) == 33);
    assert(kept(out, sizeof out));
    assert(knowetop_generate(0, 1, 4, small, SEVEN) == KNOWETOP_PLAN + SIX);
    assert(knowetop_merge(large, LARGE, small, SIX, out, sizeof out) == KNOWETOP_PLAN + MADE);
    assert(knowetop_refusal(out, MADE) == 0 && kept(out + MADE, sizeof out - MADE));
}

int main(int argc, char **argv)
{
    uint8_t plan[82 + 1], lent[82];
    FILE *file = argc == 2 ? fopen(argv[1], "rb") : NULL;
    assert(file != NULL && fread(plan, 1, sizeof plan, file) == sizeof lent);
    fclose(file);
    memcpy(lent, plan, sizeof lent);

    refusal_and_verdict(lent, sizeof lent);
    summary(lent, sizeof lent);
    run(lent, sizeof lent);
    optional(lent, sizeof lent);
    finish_together(lent, sizeof lent);
    blocked(lent, sizeof lent);
    lent_states(lent, sizeof lent);
    listing(lent, sizeof lent);
    sequence(lent, sizeof lent);
    members(lent, sizeof lent);
    generate();
    merge(lent, sizeof lent);
    merge_limit();
    assert(same(lent, plan, sizeof lent));
    return 0;
}
