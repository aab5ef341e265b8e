/*
 * Calls the converter, the explainer and the check from C, as the header says, on a stack that was painted before:
 * `from_c FILE...`. Prints for each file how much of the stack was used. Status 1 if that is not less than the header says,
 * or if they do not agree.
 */
#define _XOPEN_SOURCE 700
#include "milursake.h"
#include <pthread.h>
#include <stdio.h>
#include <stdlib.h>
#include <string.h>

enum { STACK = 1 << 20, PAINT = 0xA5, GSI = 1024, BLOCK = 128, SET = 241, MOST = 99999, ROOM = 1 << 24, LUMP = 1000 };

enum what { CONVERT, EXPLAIN, CHECK, WHATS };

static const char *const done[] = {"converted", "explained", "checked"};

struct call {
    const uint8_t *file;
    size_t length;
    enum what what;
    uint64_t number, answer[8];
    size_t used;
};

static _Alignas(4096) uint8_t stack[STACK];
static uint8_t file[GSI + MOST * BLOCK], out[ROOM], store[MILURSAKE_CHECK_STORE];

/* The reason for the answer: a file is named by its length where it is accepted. */
static uint64_t explain(const struct call *call)
{
    uint64_t reason[5];
    uint64_t number = milursake_explain(call->file, call->length, 1, sizeof out, reason, 5);
    if (reason[0] != number || (number == 0 && (reason[2] != call->length || reason[3] != 0)))
        exit(1);
    return number;
}

/* The check for a buffer as long as that of the converter; the store is what the check before it left. */
static uint64_t check(struct call *call)
{
    milursake_check_open(store, sizeof store, 1, sizeof out);
    for (size_t at = 0; at < call->length; at += LUMP)
        milursake_check_feed(store, sizeof store, call->file + at, call->length - at < LUMP ? call->length - at : LUMP);
    return milursake_check_close(store, sizeof store, call->answer, 8);
}

static uint64_t answer(struct call *call)
{
    if (call->what == EXPLAIN)
        return explain(call);
    if (call->what == CHECK)
        return check(call);
    return milursake_convert(call->file, call->length, 1, out, sizeof out, call->answer, 8);
}

/* Paints the stack below its own frame, calls, and looks how far the paint is gone. */
static void *run(void *given)
{
    struct call *call = given;
    uint8_t *here = __builtin_frame_address(0), *deepest = stack;
    for (volatile uint8_t *byte = stack; byte < here - 512; byte++)
        *byte = PAINT;
    call->number = answer(call);
    while (*deepest == PAINT)
        deepest++;
    call->used = (size_t)(here - deepest);
    return NULL;
}

static struct call called(size_t length, enum what what)
{
    struct call call = {.file = file, .length = length, .what = what};
    pthread_attr_t attributes;
    pthread_t thread;
    if (pthread_attr_init(&attributes) || pthread_attr_setstack(&attributes, stack, sizeof stack) ||
        pthread_create(&thread, &attributes, run, &call) || pthread_join(thread, NULL))
        exit(2);
    return call;
}

static void fits(const char *name, const struct call *call)
{
    printf("%s: %s, number %d, %zu bytes of stack\n", name, done[call->what], (int)call->number, call->used);
    if (call->used >= MILURSAKE_STACK)
        exit(1);
}

/* The calls over what stands in `file`, one of each. */
struct calls {
    struct call of[WHATS];
};

/* The numbers are one, and all eight of the converter and the check. */
static struct calls all(const char *name, size_t length)
{
    struct calls calls;
    for (int what = 0; what < WHATS; what++) {
        calls.of[what] = called(length, what);
        fits(name, &calls.of[what]);
        if (calls.of[what].number != calls.of[CONVERT].number)
            exit(1);
    }
    if (memcmp(calls.of[CHECK].answer, calls.of[CONVERT].answer, sizeof calls.of[CONVERT].answer))
        exit(1);
    return calls;
}

static size_t read_file(const char *name)
{
    FILE *from = fopen(name, "rb");
    size_t length = from ? fread(file, 1, sizeof file, from) : 0;
    if (!from || ferror(from))
        exit(2);
    fclose(from);
    return length;
}

/* Byte i of a text of 23 rows of 64 cells, all accent pairs but for the colours: a composed letter, a letter and a mark,
   a space and a mark in turn; 8Fh after it. */
static uint8_t text_byte(int i)
{
    static const uint8_t letters[] = {'e', 'q', ' '};
    int row = i / 126, column = i % 126;
    if (row >= 23 || (row == 22 && column == 125))
        return 0x8F;
    if (column == 125)
        return 0x8A;
    return column == 0 ? 0x01 : column == 1 ? 0x1D : column == 2 ? 0x03 : column % 2 ? 0xC2 : letters[column / 2 % 3];
}

/* Sets of as many blocks as a set can have, with as many cells as a subtitle can have. */
static size_t longest_sets(int sets)
{
    char tnb[6];
    memset(file, ' ', GSI);
    memcpy(file + 3, "STL25.01100", 11);
    snprintf(tnb, sizeof tnb, "%05d", sets * SET);
    memcpy(file + 238, tnb, 5);
    for (int k = 0; k < sets * SET; k++) {
        uint8_t *block = file + GSI + k * BLOCK;
        int set = k / SET, place = k % SET;
        memset(block, 0, 16);
        memset(block + 16, 0x8F, 112);
        block[1] = set % 256;
        block[2] = set / 256;
        block[3] = place == SET - 1 ? 0xFF : place;
        block[12] = 1;
        block[13] = 1;
        for (int i = 0; i < 13; i++)
            block[16 + i] = text_byte(13 * place + i);
    }
    return GSI + (size_t)sets * SET * BLOCK;
}

/* Both are accepted, and the longer file needs no more of the stack. */
static int alike(const struct call *one, const struct call *many)
{
    return one->number == 0 && many->number == 0 && one->used == many->used;
}

int main(int count, char **names)
{
    for (int i = 1; i < count; i++)
        all(names[i], read_file(names[i]));
    struct calls one = all("a set of 241 blocks", longest_sets(1)), many = all("414 such sets", longest_sets(MOST / SET));
    return !alike(&one.of[CONVERT], &many.of[CONVERT]) || !alike(&one.of[CHECK], &many.of[CHECK]);
}
