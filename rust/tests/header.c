/* Calls the library through its header, as a C program does. Prints what is
 * not as it should be, and answers how much that is. */
#include <stdio.h>
#include <string.h>

#include "fuuqidhel.h"

static int wrong;

static void expect(bool holds, const char *what)
{
    if (!holds) {
        printf("%s\n", what);
        wrong++;
    }
}

/* (a || b) ; c and its net. */
static const uint8_t plan[] = {2, 0, 15, 4, 0, 8, 1, 0, 1, 1, 1, 0, 1, 2, 1, 0, 1, 3};
static const uint8_t kinds[] = {1, 1, 2, 2, 3};
static const uint16_t rows[] = {1, 0, 65535, 0, 1, 1, 2, 1, 65535, 2, 1, 1, 3, 2, 65535, 4, 2, 1};
static const uint16_t arcs[] = {0, 2, 1, 3, 2, 3, 4};
#define NET kinds, 5, rows, 18, arcs, 7, 5, 3, 7

static void compiling(void)
{
    uint8_t k[FUUQIDHEL_KINDS];
    uint16_t r[FUUQIDHEL_ROWS], a[FUUQIDHEL_ARCS];
    size_t answer[FUUQIDHEL_COMPILE_NUMBERS];
    static const size_t made[] = {0, 0, 5, 3, 7, 2, 2};

    expect(!fuuqidhel_compile(plan, 18, k, 5, r, 18, a, 7, answer, 6), "a short answer");
    expect(fuuqidhel_compile(plan, 18, k, 5, r, 18, a, 7, answer, 7), "answered");
    expect(!memcmp(answer, made, sizeof made), "the counts of the net");
    expect(!memcmp(k, kinds, sizeof kinds), "the kinds of the net");
    expect(!memcmp(r, rows, sizeof rows), "the transitions of the net");
    expect(!memcmp(a, arcs, sizeof arcs), "the arcs of the net");
    expect(fuuqidhel_compile(plan, 17, k, 5, r, 18, a, 7, answer, 7), "answered");
    expect(answer[0] == 2 && answer[1] == 0 && answer[2] == 0, "a cut plan is 2");
}

static void firing(void)
{
    static const uint8_t both[] = {0x20, 0, 8, 0x21, 0, 1, 0, 0x21, 0, 1, 1};
    static const uint8_t last[] = {0x20, 0, 4, 0x21, 0, 1, 2};
    uint8_t marking[] = {1, 1, 0, 0, 0, 9};
    size_t answer[] = {5, 5, 5};

    expect(!fuuqidhel_fire(NET, marking, 6, both, sizeof both, answer, 1), "a short answer");
    expect(answer[0] == 5 && marking[0] == 1, "a short answer touches nothing");
    expect(fuuqidhel_fire(NET, marking, 6, last, sizeof last, answer, 2), "answered");
    expect(answer[0] == 32 && answer[1] == 0 && answer[2] == 5, "c first is 32");
    expect(fuuqidhel_fire(NET, marking, 6, both, sizeof both, answer, 2), "answered");
    expect(answer[0] == 0 && answer[1] == 0, "a and b fire");
    expect(!memcmp(marking, (uint8_t[]){0, 0, 1, 1, 0, 9}, 6), "the tokens of a and b move");
    expect(fuuqidhel_fire(NET, marking, 6, last, sizeof last, answer, 2), "answered");
    expect(!memcmp(marking, (uint8_t[]){0, 0, 0, 0, 1, 9}, 6), "the tokens of c move");
    expect(fuuqidhel_fire(NET, marking, 4, last, sizeof last, answer, 2), "answered");
    expect(answer[0] == 35, "a short marking is 35");
}

static void listing(void)
{
    static const uint8_t marking[] = {1, 1, 0, 0, 0};
    static const uint8_t halfway[] = {0, 0, 1, 0, 0}, end[] = {0, 0, 0, 0, 1};
    uint16_t list[] = {7, 7, 7};
    size_t answer[] = {5, 5, 5, 5, 5};
    static const size_t untouched[] = {5, 5, 5, 5, 5}, room[] = {14, 0, 0, 0, 5};
    static const size_t two[] = {0, 0, 2, 0, 5}, stuck[] = {0, 0, 0, 1, 5};
    static const size_t over[] = {0, 0, 0, 0, 5};

    expect(FUUQIDHEL_ENABLED_NUMBERS == 4, "four numbers");
    expect(!fuuqidhel_enabled(NET, marking, 5, list, 3, answer, 3), "a short answer");
    expect(!memcmp(answer, untouched, sizeof answer), "a short answer is not touched");
    expect(list[0] == 7, "a short answer touches no list");
    expect(fuuqidhel_enabled(NET, marking, 5, list, 1, answer, 4), "answered");
    expect(!memcmp(answer, room, sizeof answer) && list[0] == 7, "a short list is 14");
    expect(fuuqidhel_enabled(NET, marking, 5, list, 3, answer, 4), "answered");
    expect(!memcmp(answer, two, sizeof answer), "two are enabled");
    expect(list[0] == 0 && list[1] == 1 && list[2] == 7, "a and b are listed");
    expect(fuuqidhel_enabled(NET, halfway, 5, list, 0, answer, 4), "answered");
    expect(!memcmp(answer, stuck, sizeof answer), "none and the exit unmarked is stuck");
    expect(fuuqidhel_enabled(NET, end, 5, list, 0, answer, 4), "answered");
    expect(!memcmp(answer, over, sizeof answer), "none and the exit marked is not stuck");
}

static void replaying(void)
{
    static const uint8_t record[] = {0x20, 0, 8,    0x21, 0, 1,    0, 0x21, 0,
                                     1,    1, 0x20, 0,    4, 0x21, 0, 1,    2};
    uint8_t marking[] = {9, 9, 9, 9, 9, 9};
    size_t answer[FUUQIDHEL_REPLAY_NUMBERS];
    static const size_t finished[] = {0, 0, 2, 1}, unfinished[] = {0, 0, 1, 0};
    static const size_t refused[] = {21, 11, 1, 0};

    expect(!fuuqidhel_replay(plan, 18, record, 18, marking, 6, answer, 3), "a short answer");
    expect(fuuqidhel_replay(plan, 18, record, 18, marking, 6, answer, 4), "answered");
    expect(!memcmp(answer, finished, sizeof finished), "two steps, finished");
    expect(!memcmp(marking, (uint8_t[]){0, 0, 0, 0, 1, 9}, 6), "the exit is marked");
    expect(fuuqidhel_replay(plan, 18, record, 11, marking, 6, answer, 4), "answered");
    expect(!memcmp(answer, unfinished, sizeof unfinished), "one step, unfinished");
    expect(fuuqidhel_replay(plan, 18, record, 17, marking, 6, answer, 4), "answered");
    expect(!memcmp(answer, refused, sizeof refused), "a cut step is 21");
}

int main(void)
{
    compiling();
    firing();
    listing();
    replaying();
    return wrong;
}
