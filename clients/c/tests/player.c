/* Plays calls of the client that stand on standard input, a line each, and prints what came of each:
 *
 *     event NAME, refusal NAME NAME .., status, next, expected PLACE, identify SEAT, patience MILLISECONDS, judged
 *
 * In a name `\n` is an LF and `\s` a blank. tests/test_client.py drives it.
 */
#include "../cspwatch_client.h"

#include <inttypes.h>
#include <stdio.h>
#include <stdlib.h>
#include <string.h>

#define LONGEST 10000

static const char *const RESULTS[] = {"answered", "fault",         "no reply",     "bad reply",
                                      "bad name", "out of memory", "not connected", "verdict lost",
                                      "other reports"};

/* Replaces `\n` and `\s` in the text. */
static void unescape(char *text) {
    char *to = text;
    for (; *text != '\0'; text++)
        if (*text == '\\' && text[1] != '\0')
            *to++ = *++text == 'n' ? '\n' : ' ';
        else
            *to++ = *text;
    *to = '\0';
}

static void print_result(const cspwatch_client *client, enum cspwatch_result result) {
    struct cspwatch_fault fault = cspwatch_last_fault(client);
    if (result == CSPWATCH_FAULT)
        printf("fault %d %s\n", fault.code, fault.word);
    else
        printf("%s\n", RESULTS[result]);
}

static void print_verdict(const cspwatch_client *client, enum cspwatch_result result, struct cspwatch_verdict verdict) {
    if (result == CSPWATCH_ANSWERED)
        printf("%s %" PRIu64 "\n", verdict.accepted ? "accepted" : "rejected", verdict.place);
    else
        print_result(client, result);
}

static void event(cspwatch_client *client, char *name) {
    struct cspwatch_verdict verdict = {0, 0};
    enum cspwatch_result result;
    unescape(name);
    result = cspwatch_event(client, name, &verdict);
    print_verdict(client, result, verdict);
}

static void refusal(cspwatch_client *client, char *text) {
    const char *names[LONGEST];
    struct cspwatch_verdict verdict = {0, 0};
    enum cspwatch_result result;
    char *name = *text == ' ' ? text + 1 : NULL;
    size_t count = 0;
    while (name != NULL) {
        char *end = strchr(name, ' ');
        if (end != NULL)
            *end = '\0';
        unescape(name);
        names[count++] = name;
        name = end == NULL ? NULL : end + 1;
    }
    result = cspwatch_refusal(client, names, count, &verdict);
    print_verdict(client, result, verdict);
}

static void status(cspwatch_client *client) {
    struct cspwatch_counts counts = {0, 0, 0, 0, 0};
    enum cspwatch_result result = cspwatch_status(client, &counts);
    if (result != CSPWATCH_ANSWERED) {
        print_result(client, result);
        return;
    }
    printf("%" PRIu64 " %" PRIu64 " %" PRIu64 " %" PRIu64 " %s\n", counts.judged, counts.events, counts.refusals,
           counts.rejected, counts.closed ? "closed" : "open");
}

static void next(cspwatch_client *client) {
    const char *const *names = NULL;
    size_t at, count = 0;
    enum cspwatch_result result = cspwatch_next(client, &names, &count);
    if (result != CSPWATCH_ANSWERED) {
        print_result(client, result);
        return;
    }
    printf("next");
    for (at = 0; at < count; at++)
        printf(" %s", names[at]);
    printf("\n");
}

/* What could have come in place of the report at this place. */
static void expected(cspwatch_client *client, const char *place) {
    struct cspwatch_verdict verdict = {0, (uint64_t)atoi(place)};
    const char *const *names = NULL;
    size_t at, count = 0;
    enum cspwatch_result result = cspwatch_expected(client, &verdict, &names, &count);
    if (result != CSPWATCH_ANSWERED) {
        print_result(client, result);
        return;
    }
    printf(names == NULL ? "not known" : "expected");
    for (at = 0; at < count; at++)
        printf(" %s", names[at]);
    printf("\n");
}

/* Plays one line; answers 0 where there is no such call. */
static int play(cspwatch_client *client, char *line) {
    if (strncmp(line, "event ", 6) == 0)
        event(client, line + 6);
    else if (strncmp(line, "refusal", 7) == 0)
        refusal(client, line + 7);
    else if (strcmp(line, "status") == 0)
        status(client);
    else if (strcmp(line, "next") == 0)
        next(client);
    else if (strncmp(line, "expected ", 9) == 0)
        expected(client, line + 9);
    else if (strncmp(line, "identify ", 9) == 0)
        print_result(client, cspwatch_identify(client, (unsigned)atoi(line + 9)));
    else if (strncmp(line, "patience ", 9) == 0)
        cspwatch_set_patience(client, (unsigned)atoi(line + 9));
    else if (strcmp(line, "judged") == 0)
        printf("judged %" PRIu64 "\n", cspwatch_judged(client));
    else
        return 0;
    return 1;
}

int main(int count, char **words) {
    static char line[LONGEST];
    cspwatch_client *client = NULL;
    enum cspwatch_result result;
    if (count != 4)
        return 2;
    result = cspwatch_connect(words[1], words[2], (unsigned)atoi(words[3]), &client);
    if (result != CSPWATCH_ANSWERED) {
        printf("%s\n", RESULTS[result]);
        return 0;
    }
    while (fgets(line, sizeof line - 1, stdin) != NULL) {
        line[strcspn(line, "\n")] = '\0';
        if (!play(client, line))
            return 2;
        fflush(stdout);
    }
    cspwatch_close(client);
    cspwatch_close(NULL);
    return 0;
}
