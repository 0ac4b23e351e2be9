/* Reports the two events of `P = a -> b -> P` to a server, and asks what may come next.
 *
 *     cc -o example example.c cspwatch_client.c
 *     ./example 127.0.0.1 4050
 */
#include "cspwatch_client.h"

#include <stdio.h>

static void report(cspwatch_client *client, const char *name) {
    struct cspwatch_verdict verdict;
    struct cspwatch_fault fault;
    switch (cspwatch_event(client, name, &verdict)) {
    case CSPWATCH_ANSWERED:
        printf("%s: %s, report %llu\n", name, verdict.accepted ? "accepted" : "rejected",
               (unsigned long long)verdict.place);
        break;
    case CSPWATCH_FAULT:
        fault = cspwatch_last_fault(client);
        printf("%s: not judged: %d %s\n", name, fault.code, fault.word);
        break;
    default:
        printf("%s: no answer\n", name);
    }
}

int main(int count, char **words) {
    cspwatch_client *client;
    const char *const *names;
    size_t at, may_come;
    if (count != 3) {
        fprintf(stderr, "usage: example HOST PORT\n");
        return 2;
    }
    if (cspwatch_connect(words[1], words[2], 5000, &client) != CSPWATCH_ANSWERED) {
        fprintf(stderr, "%s:%s: no connection\n", words[1], words[2]);
        return 1;
    }
    report(client, "a");
    report(client, "b");
    if (cspwatch_next(client, &names, &may_come) == CSPWATCH_ANSWERED) {
        printf("next:");
        for (at = 0; at < may_come; at++)
            printf(" %s", names[at]);
        printf("\n");
    }
    cspwatch_close(client);
    return 0;
}
