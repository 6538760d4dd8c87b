/* Plans of changes, their Petri nets, steps and run records: the calls of the
 * proved library, libexports.a.
 *
 * Each call tells its answer as numbers at the front of a lent array, `answer`.
 * The first is the number of the refusal, the second what the refusal carries;
 * both are 0 where nothing is refused. What follows is 0 on refusal. A call
 * returns true, but false where `answer` is too short for its numbers, and then
 * it has touched nothing.
 *
 * A table is a pointer and the number of its elements. No pointer is null, also
 * where that number is 0, and each is aligned for its type. What a call may
 * write overlaps nothing else that it is lent. Beyond that every value is
 * allowed everywhere: a call never fails but by its answer. No call keeps a
 * pointer or a state, so calls that write to different tables may run at the
 * same time.
 *
 * Work room is on the stack: 160 KiB are enough for every call (measured, not
 * proved: compile 99 KiB, replay 143 KiB, fire and enabled 5 KiB). */
#ifndef FUUQIDHEL_H
#define FUUQIDHEL_H

#include <stdbool.h>
#include <stddef.h>
#include <stdint.h>

#ifdef __cplusplus
extern "C" {
#endif

/* How many numbers each call tells. */
enum {
    FUUQIDHEL_COMPILE_NUMBERS = 7,
    FUUQIDHEL_FIRE_NUMBERS = 2,
    FUUQIDHEL_ENABLED_NUMBERS = 4,
    FUUQIDHEL_REPLAY_NUMBERS = 4
};

/* Room in which the net of every plan fits: bytes of kinds, numbers of rows and
 * of arcs. A marking has as many bytes as the kinds. */
enum {
    FUUQIDHEL_KINDS = 2048,
    FUUQIDHEL_ROWS = 6144,
    FUUQIDHEL_ARCS = 16384
};

/* Compiles a plan into three tables: a byte for each place (1 entry, 2 internal,
 * 3 exit); six numbers for each transition (label, first action, second action
 * or 65,535, start in the arcs, input count, output count); and the arcs, place
 * numbers, inputs then outputs. What lies behind the net's part is not written,
 * and nothing is on refusal. Answer: refusal, carried, places, transitions,
 * arcs, and how many of the places are entries and how many internals. Refusals:
 * 1 to 14. */
bool fuuqidhel_compile(const uint8_t *plan, size_t plan_length,
                       uint8_t *kinds, size_t kinds_length,
                       uint16_t *rows, size_t rows_length,
                       uint16_t *arcs, size_t arcs_length,
                       size_t *answer, size_t answer_length);

/* Fires one step field at a marking, a byte for each place: 0 or 1 token. On
 * refusal the marking stays as it was, and what lies behind the net's `places`
 * is never touched. Answer: refusal, carried. Refusals: 30, 35, 21 to 24, 31,
 * 32, 33, 36. */
bool fuuqidhel_fire(const uint8_t *kinds, size_t kinds_length,
                    const uint16_t *rows, size_t rows_length,
                    const uint16_t *arcs, size_t arcs_length,
                    size_t places, size_t transitions, size_t arc_count,
                    uint8_t *marking, size_t marking_length,
                    const uint8_t *step, size_t step_length,
                    size_t *answer, size_t answer_length);

/* Writes the numbers of the transitions whose input places are all marked to
 * the front of `list`, rising; on refusal nothing is written. Answer: refusal,
 * carried, how many, and 1 where the net is stuck: there are none, and some exit
 * place is unmarked. Where there are none and all exit places are marked, the
 * run is over, and both are 0. Refusals: 30, 35, 14. */
bool fuuqidhel_enabled(const uint8_t *kinds, size_t kinds_length,
                       const uint16_t *rows, size_t rows_length,
                       const uint16_t *arcs, size_t arcs_length,
                       size_t places, size_t transitions, size_t arc_count,
                       const uint8_t *marking, size_t marking_length,
                       uint16_t *list, size_t list_length,
                       size_t *answer, size_t answer_length);

/* Replays a record against a plan, from the plan's entry marking. The marking
 * afterwards is the one after the accepted steps; what it held before does not
 * matter. It is not written where the plan, its own length or the record's
 * length is refused. Answer: refusal, carried, accepted steps, and 1 where all
 * exit places are marked. Refusals: 1 to 13, 35, 20, 21 to 24, 31 to 33. */
bool fuuqidhel_replay(const uint8_t *plan, size_t plan_length,
                      const uint8_t *record, size_t record_length,
                      uint8_t *marking, size_t marking_length,
                      size_t *answer, size_t answer_length);

#ifdef __cplusplus
}
#endif

#endif
