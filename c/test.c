/* Tests of the library: a fault of each kind, options that are not known, each room from 0 to the text's length, bytes behind
 * the room, audits with each line of the report wrong, and several threads at once.
 *
 * usage: test SCRIPT REPORT      a script, and its report as `kms one` writes it */
#include "kms.h"

#include <pthread.h>
#include <stdio.h>
#include <stdlib.h>
#include <string.h>

static int failed;

static void expect(int true_, const char *what, unsigned long where) {
    if (true_) return;
    failed++;
    fprintf(stderr, "test: %s (%lu)\n", what, where);
}

struct text {
    uint8_t *at;
    size_t size;
};

static struct text read_file(const char *name) {
    FILE *from = fopen(name, "rb");
    struct text text = {malloc(1 << 20), 0};
    if (!from || !text.at) {
        perror(name);
        exit(2);
    }
    text.size = fread(text.at, 1, 1 << 20, from);
    fclose(from);
    return text;
}

static struct kms_told one(struct text script, uint32_t options, uint8_t *out, size_t room) {
    struct kms_told told;
    memset(&told, 0xa5, sizeof told);
    kms_one(script.at, script.size, options, out, room, &told);
    return told;
}

static int all_are(const uint8_t *at, size_t size, uint8_t byte) {
    for (size_t i = 0; i < size; i++)
        if (at[i] != byte) return 0;
    return 1;
}

/* Each room: the text is put where it fits, and only there; no byte behind the room or behind the text changes. */
static void each_room(struct text script, struct text report) {
    size_t most = report.size + 40;
    uint8_t *out = malloc(most);
    for (size_t room = 0; room <= report.size + 20; room++) {
        memset(out, 0x5a, most);
        struct kms_told told = one(script, 0, out, room);
        int fits = room >= report.size;
        expect(told.length == report.size, "the length", room);
        expect(told.status == (fits ? KMS_DRAINED : KMS_ROOM), "the status", room);
        expect(!told.line && !told.why && !told.object && !told.place, "numbers that say nothing are 0", room);
        size_t put = fits ? report.size : 0;
        expect(!memcmp(out, report.at, put), "the text", room);
        expect(all_are(out + put, most - put, 0x5a), "bytes behind the text", room);
    }
    free(out);
}

static void one_fault(const char *script, uint32_t line, uint32_t why) {
    struct text text = {malloc(strlen(script)), strlen(script)};
    memcpy(text.at, script, text.size);
    uint8_t out[8];
    memset(out, 0x5a, sizeof out);
    struct kms_told told = one(text, 0, out, sizeof out);
    expect(told.status == KMS_FAULT && told.line == line && told.why == why, script, told.why);
    expect(told.length == 0 && all_are(out, sizeof out, 0x5a), "nothing is put at a fault", line);
    free(text.at);
}

static void each_fault(void) {
    one_fault("kms 1\ndevice 1 1\001\n", 2, KMS_BYTES);
    one_fault("kms 1", 1, KMS_CUT);
    one_fault("nothing\n", 1, KMS_FORM);
    one_fault("kms 2\ncrtcs 1\nplane primary 0 XR24\nconn 0\nclient\nbuffer a 4 4 XR24 solid 00ffffff\n"
              "buffer a 4 4 XR24 solid 00ffffff\n", 7, KMS_LABEL);
    one_fault("kms 2\ncrtcs 1\nplane primary 0 XR24\nconn 0\nconn 0\nconn 0\nconn 0\nconn 0\nconn 0\nconn 0\nconn 0\nconn 0\n",
              12, KMS_LIMIT);
}

static void unknown_options(struct text script) {
    uint8_t out[8];
    memset(out, 0x5a, sizeof out);
    for (uint32_t options = 4; options != 0; options <<= 1) {
        struct kms_told told = one(script, options, out, sizeof out);
        expect(told.status == KMS_OPTIONS && told.length == 0, "options that are not known", options);
        expect(all_are(out, sizeof out, 0x5a), "nothing is put", options);
    }
}

/* The replies are the lines of the report that begin with R. */
static void verdicts(struct text script, struct text report) {
    uint8_t *out = malloc(report.size), *wanted = malloc(report.size);
    size_t size = 0;
    struct kms_told told;
    for (size_t from = 0, end; from < report.size; from = end) {
        end = from + (size_t)((uint8_t *)memchr(report.at + from, '\n', report.size - from) - (report.at + from)) + 1;
        if (report.at[from] != 'R') continue;
        memcpy(wanted + size, report.at + from, end - from);
        size += end - from;
    }
    kms_verdicts(script.at, script.size, out, report.size, &told);
    expect(told.status == KMS_DRAINED && told.length == size && !memcmp(out, wanted, size), "the replies", told.length);
    free(out);
    free(wanted);
}

/* What an audit tells of an input in parts. */
static void one_audit(const char *what, struct text script, struct text word, struct text report, struct kms_told wanted) {
    struct text input = {malloc(script.size + word.size + report.size), script.size + word.size + report.size};
    memcpy(input.at, script.at, script.size);
    memcpy(input.at + script.size, word.at, word.size);
    memcpy(input.at + script.size + word.size, report.at, report.size);
    struct kms_told told;
    memset(&told, 0xa5, sizeof told);
    kms_audit(input.at, input.size, &told);
    expect(told.status == wanted.status && told.line == wanted.line && told.why == wanted.why, what, told.line);
    expect(!told.object && !told.place && !told.length, "numbers that say nothing of an audit are 0", told.line);
    free(input.at);
}

/* A right report; each of its lines with a letter of no report in front; a report without its last line; inputs with no report. */
static void audits(struct text script, struct text report) {
    struct text word = {(uint8_t *)"report\n", 7}, none = {(uint8_t *)"", 0};
    uint32_t lines = 0, line = 0;
    for (size_t i = 0; i < script.size; i++) lines += script.at[i] == '\n';
    one_audit("a right report", script, word, report, (struct kms_told){.status = KMS_RIGHT});
    size_t last = 0;
    for (size_t from = 0; from < report.size; line++) {
        uint8_t letter = report.at[last = from];
        report.at[from] = '-';
        one_audit("a wrong line", script, word, report, (struct kms_told){.status = KMS_WRONG, .line = line + 1});
        report.at[from] = letter;
        from += (size_t)((uint8_t *)memchr(report.at + from, '\n', report.size - from) - (report.at + from)) + 1;
    }
    struct text cut = {report.at, last};
    one_audit("a report that ends too early", script, word, cut, (struct kms_told){.status = KMS_WRONG, .line = line});
    one_audit("a fault of the script", word, word, report, (struct kms_told){.status = KMS_FAULT, .line = 1, .why = KMS_FORM});
    struct kms_told missing = {.status = KMS_FAULT, .line = lines + 1, .why = KMS_FORM};
    one_audit("no report", script, none, none, missing);
}

struct job {
    struct text script, report;
    int alike;
};

static void *calls(void *given) {
    struct job *job = given;
    uint8_t *out = malloc(job->report.size);
    for (int i = 0; i < 20; i++) {
        struct kms_told told = one(job->script, 0, out, job->report.size);
        job->alike += told.status == KMS_DRAINED && !memcmp(out, job->report.at, job->report.size);
    }
    free(out);
    return NULL;
}

static void at_once(struct text script, struct text report) {
    enum { THREADS = 8 };
    pthread_t threads[THREADS];
    struct job jobs[THREADS];
    for (int i = 0; i < THREADS; i++) {
        jobs[i] = (struct job){script, report, 0};
        if (pthread_create(&threads[i], NULL, calls, &jobs[i])) exit(2);
    }
    for (int i = 0; i < THREADS; i++) {
        pthread_join(threads[i], NULL);
        expect(jobs[i].alike == 20, "calls of several threads at once", (unsigned long)i);
    }
}

int main(int count, char **words) {
    if (count != 3) {
        fputs("usage: test SCRIPT REPORT\n", stderr);
        return 2;
    }
    struct text script = read_file(words[1]), report = read_file(words[2]);
    each_room(script, report);
    each_fault();
    unknown_options(script);
    verdicts(script, report);
    audits(script, report);
    at_once(script, report);
    free(script.at);
    free(report.at);
    printf("test: %s\n", failed ? "failed" : "passed");
    return failed != 0;
}
