/* A client of cspwatch in C99 over POSIX sockets: reports events and refusals of a running system, and reads the
 * verdicts. Compile cspwatch_client.c with your program; nothing else is needed.
 *
 *     cspwatch_client *client;
 *     struct cspwatch_verdict verdict;
 *     if (cspwatch_connect("127.0.0.1", "4050", 5000, &client) != CSPWATCH_ANSWERED) ..
 *     if (cspwatch_event(client, "approach", &verdict) == CSPWATCH_ANSWERED && !verdict.accepted) ..
 *     cspwatch_close(client);
 *
 * A client is one connection, for one thread at a time. Components that run side by side each take a client of their
 * own: the server judges the reports of one client in their order, after what all clients have reported before.
 */
#ifndef CSPWATCH_CLIENT_H
#define CSPWATCH_CLIENT_H

#include <stddef.h>
#include <stdint.h>

#ifdef __cplusplus
extern "C" {
#endif

/* The version of this header. */
#define CSPWATCH_CLIENT_VERSION "0.7.0-dev"

/* The most bytes that a line may have before its LF. */
#define CSPWATCH_LINE_LIMIT 4096

/* The most bytes that a reply may have, with its LF: a longer one isn't one of the protocol's. A server's longest has the names of
 * 256 events, of at most 4,096 bytes each. */
#define CSPWATCH_REPLY_LIMIT 1052672

/* The greatest number of a seat that a client may be. */
#define CSPWATCH_SEATS 1000

/* The most bytes of a fault's word that are kept. */
#define CSPWATCH_WORD_LIMIT 31

/* How a call ended. Each but CSPWATCH_ANSWERED leaves what the call was to fill in as it was. */
enum cspwatch_result {
    /* The server has answered. */
    CSPWATCH_ANSWERED = 0,
    /* The server answered `ERR code word` (cspwatch_last_fault has them): what was asked was not answered, and a report
     * was not judged. The connection goes on, except after CSPWATCH_FAULT_LINE, CSPWATCH_FAULT_SEATS and
     * CSPWATCH_FAULT_READER, and where a new connection or a seat is refused. */
    CSPWATCH_FAULT,
    /* No whole reply came: the connection ended or failed, or the time was over. Whether the report was judged is not
     * known. From now on each call ends like this. */
    CSPWATCH_NO_REPLY,
    /* The reply isn't one of the protocol's. From now on each call ends by CSPWATCH_NO_REPLY. */
    CSPWATCH_BAD_REPLY,
    /* A name has an LF, or in a refusal a blank, or the line would be longer than CSPWATCH_LINE_LIMIT, or there is no
     * such seat. Nothing was sent. */
    CSPWATCH_BAD_NAME,
    /* Out of memory. Whether a report was judged is not known. From now on each call ends by CSPWATCH_NO_REPLY. */
    CSPWATCH_OUT_OF_MEMORY,
    /* There is no connection; errno may say why. Only cspwatch_connect ends like this. */
    CSPWATCH_NOT_CONNECTED,
    /* The report was judged, and its verdict was lost with the connection; `cspwatch show` has it. Don't report it again.
     * The client goes on. Only a client with patience ends a call like this. */
    CSPWATCH_VERDICT_LOST,
    /* The history has other reports of the seat than those of this client: someone else has reported as this seat, or the
     * server has another journal. From now on each call ends by CSPWATCH_NO_REPLY. Only a client with patience ends a call
     * like this. */
    CSPWATCH_OTHER_REPORTS
};

/* The codes of faults. A later server may have more. CSPWATCH_FAULT_BEHIND is a code of sessions, and no server
 * answers it. */
enum {
    CSPWATCH_FAULT_COMMAND = 10,
    CSPWATCH_FAULT_EVENT = 11,
    CSPWATCH_FAULT_LINE = 12,
    CSPWATCH_FAULT_DEPTH = 20,
    CSPWATCH_FAULT_STATES = 21,
    CSPWATCH_FAULT_SEATS = 22,
    CSPWATCH_FAULT_HISTORY = 23,
    CSPWATCH_FAULT_TURN = 24,
    CSPWATCH_FAULT_BEHIND = 25,
    CSPWATCH_FAULT_READER = 26,
    CSPWATCH_FAULT_TAKEN = 27,
    CSPWATCH_FAULT_JOURNAL = 30,
    CSPWATCH_FAULT_CLOSED = 31,
    CSPWATCH_FAULT_MEMORY = 40
};

/* The answer to a report that was judged. */
struct cspwatch_verdict {
    int accepted;   /* 1 where the specification allows what was reported, else 0 */
    uint64_t place; /* the place of the report in the history of all clients, counted from 1 */
};

/* How many reports were judged so far, and how. */
struct cspwatch_counts {
    uint64_t judged;   /* all reports that were judged */
    uint64_t events;   /* the accepted events */
    uint64_t refusals; /* the accepted refusals */
    uint64_t rejected; /* the rejected reports, of both kinds */
    int closed;        /* 1 where the session takes no more reports, else 0 */
};

/* A fault that the server has answered. */
struct cspwatch_fault {
    int code;
    char word[CSPWATCH_WORD_LIMIT + 1];
};

typedef struct cspwatch_client cspwatch_client;

/* What the host is called of a server that listens at a socket in the file system; its path comes after it. */
#define CSPWATCH_UNIX "unix:"

/* Connects to the server at the host and the port, and fills in the client. With the host "unix:PATH" that is the socket
 * at this path of the file system, and the port, which may be empty, isn't looked at.
 *
 * timeout -- how many milliseconds the connection, and then each call, may take; 0 for ever.
 *
 * It ends by CSPWATCH_ANSWERED, CSPWATCH_NOT_CONNECTED or CSPWATCH_OUT_OF_MEMORY. A server without a free seat takes the
 * connection, and answers the first call by a fault. */
enum cspwatch_result cspwatch_connect(const char *host, const char *port, unsigned timeout, cspwatch_client **client);

/* Says which seat the client is, from 1 to CSPWATCH_SEATS, to a server that gives seats by number. It has to be the
 * client's first call, cspwatch_set_patience apart.
 *
 * Where it ends by CSPWATCH_FAULT the server doesn't give the seat: CSPWATCH_FAULT_TAKEN while another connection has it,
 * CSPWATCH_FAULT_COMMAND where seats have no numbers to ask for. The client's reports would then be those of another seat,
 * so each further call ends by CSPWATCH_NO_REPLY. */
enum cspwatch_result cspwatch_identify(cspwatch_client *client, unsigned seat);

/* How many reports of the client's seat were judged: those of this client, and of a seat by number also earlier ones. */
uint64_t cspwatch_judged(const cspwatch_client *client);

/* From now on a client that has said which seat it is comes back: where its connection is lost it opens another one, as the
 * same seat, and goes on. Each report is judged once: after a lost connection the server says how many reports of the seat
 * stand in the history, so one that was lost on its way is sent again, and one that was judged isn't; its call ends by
 * CSPWATCH_VERDICT_LOST. A question is asked again.
 *
 * patience -- for how many milliseconds it tries to come back, and to get its seat; 0 for never, as at first. After that
 *             the call ends by CSPWATCH_NO_REPLY, or by CSPWATCH_FAULT, and so does each further one. */
void cspwatch_set_patience(cspwatch_client *client, unsigned patience);

/* Reports that the event happened. `_tick` is termination. */
enum cspwatch_result cspwatch_event(cspwatch_client *client, const char *name, struct cspwatch_verdict *verdict);

/* Reports that the system refuses all of these events now; there may be none. A repeated name counts once. */
enum cspwatch_result cspwatch_refusal(cspwatch_client *client, const char *const *names, size_t count,
                                      struct cspwatch_verdict *verdict);

/* How many reports of all clients were judged so far, and how. All reports that this client was answered are counted; a
 * report that another one was answered just now may not be. */
enum cspwatch_result cspwatch_status(cspwatch_client *client, struct cspwatch_counts *counts);

/* The events that may come next, in the order of the script's channels, `_tick` last. The names belong to the client, and
 * stay until its next call. */
enum cspwatch_result cspwatch_next(cspwatch_client *client, const char *const **names, size_t *count);

/* What could have come when the report was rejected that was answered by this verdict, in the order of the script's
 * channels, `_tick` last. It asks what may come next and how many reports were judged, so it has to be the client's next
 * call. Where another client has reported since, it isn't known, and *names is NULL. The names belong to the client, and
 * stay until its next call. */
enum cspwatch_result cspwatch_expected(cspwatch_client *client, const struct cspwatch_verdict *verdict,
                                       const char *const **names, size_t *count);

/* The fault of the last call that ended by CSPWATCH_FAULT. */
struct cspwatch_fault cspwatch_last_fault(const cspwatch_client *client);

/* Sends `Q`, closes the connection and frees the client. The client may be NULL. */
void cspwatch_close(cspwatch_client *client);

#ifdef __cplusplus
}
#endif

#endif
