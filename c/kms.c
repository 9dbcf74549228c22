/* `kms` again, in C over the library: the words one, replay, verdicts, suspend, legacy and audit, with the options of the program.
 *
 * usage: kms one|replay [--trace] [--ppm] | verdicts | suspend | legacy | audit     the input is read from standard input */
#include "kms.h"

#include <stdio.h>
#include <stdlib.h>
#include <string.h>

/* What is not written of it takes no memory. A text that needs more costs a second call, which executes the script again. */
enum { FIRST_ROOM = 1 << 20 };

struct bytes {
    uint8_t *at;
    size_t size;
};

static void need(int true_, const char *what) {
    if (true_) return;
    fprintf(stderr, "kms: %s\n", what);
    exit(KMS_MEMORY);
}

/* All that a file has, in a memory that doubles. */
static struct bytes read_all(FILE *from) {
    struct bytes all = {malloc(1), 0};
    for (size_t room = 1;;) {
        need(all.at != NULL, "out of memory");
        all.size += fread(all.at + all.size, 1, room - all.size, from);
        if (all.size < room) return all;
        room *= 2;
        all.at = realloc(all.at, room);
    }
}

static void call(const char *word, struct bytes script, uint32_t options, struct bytes out, struct kms_told *told) {
    if (!strcmp(word, "one")) kms_one(script.at, script.size, options, out.at, out.size, told);
    else if (!strcmp(word, "replay")) kms_replay(script.at, script.size, options, out.at, out.size, told);
    else if (!strcmp(word, "verdicts")) kms_verdicts(script.at, script.size, out.at, out.size, told);
    else if (!strcmp(word, "suspend")) kms_suspend(script.at, script.size, out.at, out.size, told);
    else if (!strcmp(word, "legacy")) kms_legacy(script.at, script.size, out.at, out.size, told);
    else if (!strcmp(word, "audit")) kms_audit(script.at, script.size, told);
    else told->status = KMS_OPTIONS;
}

static const char *const whys[] = {"", "bytes", "cut", "form", "label", "limit"};

static void say(const struct kms_told *told) {
    switch (told->status) {
    case KMS_OPTIONS: fputs("kms: usage: kms one, replay, verdicts, suspend, legacy, audit\n", stderr); break;
    case KMS_FAULT: fprintf(stderr, "kms: line %u: %s\n", told->line, whys[told->why]); break;
    case KMS_STALLED: fputs("kms: stalled\n", stderr); break;
    case KMS_MEMORY: fputs("kms: out of memory\n", stderr); break;
    case KMS_ILLEGAL: fprintf(stderr, "kms: event %llu is not legal\n", (unsigned long long)told->place); break;
    case KMS_OPEN: fputs("kms: open\n", stderr); break;
    case KMS_WRONG: fprintf(stderr, "kms: audit: line %u\n", told->line); break;
    case KMS_CLOSED: fprintf(stderr, "kms: closed %u\n", told->object); break;
    }
}

/* The options that words name, each at most once; UINT32_MAX where they name none. */
static uint32_t options_of(int count, char **words) {
    uint32_t options = 0;
    for (int i = 0; i < count; i++) {
        uint32_t one = !strcmp(words[i], "--trace") ? KMS_TRACE : !strcmp(words[i], "--ppm") ? KMS_PPM : 0;
        if (one == 0 || (options & one)) return UINT32_MAX;
        options |= one;
    }
    return options;
}

int main(int count, char **words) {
    struct kms_told told = {.status = KMS_OPTIONS};
    uint32_t options = count < 2 ? UINT32_MAX : options_of(count - 2, words + 2);
    int plain = count == 2 || (count > 2 && (!strcmp(words[1], "one") || !strcmp(words[1], "replay")));
    if (plain && options != UINT32_MAX) {
        struct bytes script = read_all(stdin), out = {malloc(FIRST_ROOM), FIRST_ROOM};
        need(out.at != NULL, "out of memory");
        call(words[1], script, options, out, &told);
        if (told.status == KMS_ROOM) {
            out.at = realloc(out.at, out.size = told.length);
            need(out.at != NULL, "out of memory");
            call(words[1], script, options, out, &told);
        }
        fwrite(out.at, 1, told.length, stdout);
        if (told.status == KMS_RIGHT && !strcmp(words[1], "audit")) puts("audit yes");
        free(out.at);
        free(script.at);
    }
    say(&told);
    return (int)told.status;
}
