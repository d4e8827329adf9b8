/* Knowetop: the calls on a plan, a byte string of plan_len bytes, one that makes a plan, and one
   that merges two. Every call makes all its checks, lowest number first but for 25 and 26 (below),
   27, which is in the place of 17, 28 and 29, which come after 14 and before 15, and 30, 33 and 34,
   which come before 15, and in a merge all of 1 to 14 of the first plan before those of the second,
   on any bytes of any length and on any numbers, and a refused call changes no lent byte. Pointers
   are not null, even where a length is 0; a slice that a call may write overlaps no other.

   Most calls take a list of blocked nodes, blocked_len numbers, and are answered as if these nodes and all that is under them were absent from the plan; with blocked_len 0 nothing is
   blocked. What can be blocked is a branch, a child of an any-of or optional group. 28: the list does not strictly rise, or names the root, no node, or a node whose parent is neither an
   any-of nor an optional group. 29: an any-of group that is neither blocked nor under a blocked node has no branch left; optional groups are not asked. The list may have any length and
   any numbers, and is never written. Blocked nodes stay nodes and tasks of the plan, and keep their numbers and their bytes in a state, which are 0. Give all calls of one run the same
   list. */
#ifndef KNOWETOP_H
#define KNOWETOP_H

#include <stddef.h>
#include <stdint.h>

#ifdef __cplusplus
extern "C" {
#endif

/* The first cause, 1 to 14, for which the plan is refused, or 0 if it is accepted. */
uint32_t knowetop_refusal(const uint8_t *plan, size_t plan_len);

/* The answer for the plan with these nodes blocked: a refusal, 1 to 14, 28 or 29, or one of these. CLEAR stays CLEAR and DOOMED stays DOOMED when more branches are
   blocked, or when orders are added to the plan. */
#define KNOWETOP_CLEAR 128
#define KNOWETOP_DOOMED 129
#define KNOWETOP_OPEN 130
uint32_t knowetop_verdict(const uint8_t *plan, size_t plan_len, const size_t *blocked, size_t blocked_len);

/* Writes the summary of a node to the first 16 V bytes of out, V the plan's number of flags, and keeps the rest: entry 2 f + sign of 8 bytes is for the literal of flag f with that
   sign; its bytes are 0 or 1: may need, must need, may leave, must leave, may hold, must hold, may clash, doom. At a blocked node and under it all are 0. Returns 0,
   or 1 to 14, 28, 29, 15 (out_len under 16 V) or 17 (no such node). */
uint32_t knowetop_summary(const uint8_t *plan, size_t plan_len, const size_t *blocked, size_t blocked_len, size_t node, uint8_t *out, size_t out_len);

/* A state is 8 bytes of flags, then a byte for each node, then 2 bytes for each node, the low one first: the place of its start among the accepted starts, from 1, or 0 if it has not
   been started. The byte of a task is 0 while it waits, 1 while it runs and 2 when it is done; that of an optional group is 2 once it is skipped, and 0 till then; that of another
   group is 0; at a blocked node and under it byte and place are 0. That is 8 + 3 N bytes, N the plan's number of nodes, and 392 at most; later bytes are never changed. Writes the state
   of a run that has not begun. Returns 0, or 1 to 14, 28, 29 or 15 (state_len under 8 + 3 N). */
uint32_t knowetop_fresh(const uint8_t *plan, size_t plan_len, const size_t *blocked, size_t blocked_len, uint8_t *state, size_t state_len);

/* Start and finish of a task. Returns 0, and the task's byte and its literals are written, for a start its place too; or 1 to 14, 28, 29, 15, 16 (malformed state), 17 (no task), 18
   (start: not waiting; finish: not running, as no blocked task is), for a start 19 (another branch of a choice above is taken, or an optional group above is skipped, or the task is
   blocked or under a blocked node), 20 (an order's earlier node is not complete), 21 (a need is unmet), and 22 (a hold of another running task would be broken). */
uint32_t knowetop_start(const uint8_t *plan, size_t plan_len, const size_t *blocked, size_t blocked_len, uint8_t *state, size_t state_len, size_t task);
uint32_t knowetop_finish(const uint8_t *plan, size_t plan_len, const size_t *blocked, size_t blocked_len, uint8_t *state, size_t state_len, size_t task);

/* Finish of tasks_len tasks in one step, listed in rising order. Returns 0, and the tasks' bytes and what they leave are written; or, each over the whole list and in this order, 1 to
   14, 28, 29, 15, 16 (malformed state), 25 (the list is empty or does not strictly rise), 17 (a number that is no task), 18 (a task that is not running), 26 (two of the tasks leave a
   flag opposite ways) or 22 (a hold of a running task that is not listed would be broken; holds of the listed ones are not tried). A list of one task is a finish. The list may have any
   length and any numbers, and is never written. */
uint32_t knowetop_finish_together(const uint8_t *plan, size_t plan_len, const size_t *blocked, size_t blocked_len, uint8_t *state, size_t state_len, const size_t *tasks, size_t tasks_len);

/* Skip of an optional group, which completes it. Returns 0, and the group's byte is written; or 1 to 14, 28, 29, 15, 16 (malformed state), 27 (no optional group), 18 (skipped already, or
   a branch of it is taken), 19 (another branch of a choice above is taken, or an optional group above is skipped, or the group is blocked or under a blocked node) or 20 (an order's earlier
   node is not complete). A branch is taken when a task in it runs or is done, or an optional group that is it or stands in it is skipped. A group whose branches are all blocked is
   completed by its skip alone. */
uint32_t knowetop_skip(const uint8_t *plan, size_t plan_len, const size_t *blocked, size_t blocked_len, uint8_t *state, size_t state_len, size_t group);

/* Whether the root is complete: a refusal, 1 to 14, 28, 29, 15 or 16, or one of these. */
#define KNOWETOP_COMPLETE 128
#define KNOWETOP_UNFINISHED 129
uint32_t knowetop_status(const uint8_t *plan, size_t plan_len, const size_t *blocked, size_t blocked_len, const uint8_t *state, size_t state_len);

/* Writes the listing from the first byte of out and keeps the rest: verdict and the root's length, then each task, the longest wait first, ties by name in byte order.
   Returns 256 + the length of the text, or 1 to 14 or 15 (out_len under 2,048). It takes no list of blocked nodes, as the refusal does not: both are about the whole plan. */
#define KNOWETOP_TEXT 256
uint32_t knowetop_listing(const uint8_t *plan, size_t plan_len, uint8_t *out, size_t out_len);

/* Looks for the first sequence of all the root's children, each once and each wholly before the next, that agrees with the plan's orders and under which the answer for the plan is CLEAR:
   for an OPEN plan, in what order its parts may be done. The first is so in dictionary order of node numbers: a plan has one answer. Returns count * 2^56 + the sum of node i * 2^(8 i), i from
   0, the first node in the lowest byte; bytes without a node are 0. So word >> 56 is the count, 1 to 7, and word >> 8 * i & 255 is node i. Or a refusal, in which the count is 0: 1 to 14,
   23 (the root is not an all-of group, or has more than seven children) or 24 (there is no such sequence). 24 is never returned for a CLEAR plan, nor a sequence for a DOOMED one. Nothing
   is written. It takes no list of blocked nodes. */
uint64_t knowetop_sequence(const uint8_t *plan, size_t plan_len);

/* Who is a member: which children of an all-of root are aboard. The list, members, is N bytes,
   N the plan's number of nodes: 1 for a child of the root that is aboard, 0 for all else, so
   that N zeros are nobody. Later bytes are neither looked at nor changed. Include brings a
   child of the root aboard, exclude takes one off. The child's byte is written and nothing
   else, and returned is the answer for those aboard after the call: KNOWETOP_CLEAR,
   KNOWETOP_DOOMED or KNOWETOP_OPEN, as if the other children of the root, all that is under
   them and every order that names one of them were absent from the plan. An order through an
   absent child does not tie its neighbours. With nobody aboard the answer is CLEAR, with
   everybody that of knowetop_verdict with nothing blocked; no answer is sure to stay when one
   comes or goes. Or a refusal, in this order: 1 to 14, 15 (members_len under N), 16 (a byte
   over 1, or a 1 at a node that is no child of the root), 17 (no such node), 31 (the root is
   not an all-of group, or the node is not its child) or 32 (include: the child is aboard
   already; exclude: it is not aboard). They take no list of blocked nodes. */
uint32_t knowetop_include(const uint8_t *plan, size_t plan_len, uint8_t *members, size_t members_len, size_t node);
uint32_t knowetop_exclude(const uint8_t *plan, size_t plan_len, uint8_t *members, size_t members_len, size_t node);

/* Generates a plan for the soak bench: writes it from the first byte of out and keeps the rest. The
   same seed, g (groups) and t (tasks) give the same bytes everywhere, and every plan so made is
   accepted. Node 0 is SOAK, an all-of group; then come g groups under it and t tasks, task j from 0
   under node 1 + j mod g. Names are G or T and the node number in three digits. There are 8 flags,
   all clear at the start. The rest is drawn: a state of 32 bits begins as the seed, and a draw
   below k adds 2,654,435,769 to it, modulo 2^32, and gives (state / 65,536, whole) mod k. Drawn
   are, in this order: for each group, below 2, whether it is all-of (0) or any-of (1); for each
   task its minutes below 60, a flag below 8, and below 2 the sign of its need of that flag, then
   that of its leaving; for each group but the last, below 2, whether it is before the next (1).
   Returns 256 + the length of the plan; or 30 (g is not 1 to 60, or t is not g to 60), whatever
   out_len is, or 15 (out_len under the length; 1,462 are always enough). It takes no plan. */
#define KNOWETOP_PLAN 256
uint32_t knowetop_generate(uint32_t seed, size_t groups, size_t tasks, uint8_t *out, size_t out_len);

/* Merges two plans, as two books are pooled: writes the merged plan from the first byte of out and
   keeps the rest. Node 0 is HULL, an all-of group; then come the nodes of the first plan and those
   of the second, the two roots under HULL. Their numbers are higher by 1 and by 1 + N, N the first
   plan's number of nodes; names, kinds and minutes stay, and conditions and orders are in rising
   order. Flags with the same number are the same flag: there are as many as in the plan that has
   more, and each starts as in the plan that has it. The merged plan is accepted. It is CLEAR
   exactly when both plans are, no literal that is needed or held in one is held or left opposite in
   the other, and the two leave no flag opposite ways. Returns 256 (KNOWETOP_PLAN) + the length of
   the merged plan; or a refusal, in this order: 1 to 14 of the first plan, 1 to 14 of the second,
   33 (together more than 128 nodes, HULL counted, 1,024 conditions or 512 orders), 34 (a flag that
   both plans have starts differently) or 15 (out_len under the length; 5,136 are always enough).
   The plans are never written, and may be the same bytes. It takes no list of blocked nodes. */
uint32_t knowetop_merge(const uint8_t *first, size_t first_len, const uint8_t *second,
                        size_t second_len, uint8_t *out, size_t out_len);

#ifdef __cplusplus
}
#endif

#endif
