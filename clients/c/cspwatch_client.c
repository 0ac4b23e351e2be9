/* cspwatch_client.h says what each call does. */
#define _POSIX_C_SOURCE 200809L

#include "cspwatch_client.h"

#include <errno.h>
#include <inttypes.h>
#include <limits.h>
#include <netdb.h>
#include <netinet/in.h>
#include <netinet/tcp.h>
#include <poll.h>
#include <stdio.h>
#include <stdlib.h>
#include <string.h>
#include <sys/socket.h>
#include <sys/time.h>
#include <sys/un.h>
#include <time.h>
#include <unistd.h>

/* How long a client waits between two attempts to come back, in milliseconds: each time twice as long as before, up to the
 * longest. */
#define FIRST_PAUSE 10
#define LONGEST_PAUSE 1000

struct cspwatch_client {
    int socket; /* -1 once the connection is closed */
    char *host;
    char *port;
    unsigned timeout;
    uint64_t latest; /* by when the call has to be over, where it may not take for ever */
    unsigned patience; /* 0 where the client doesn't come back */
    unsigned seat;     /* 0 where it hasn't said which one it is */
    uint64_t judged;
    struct cspwatch_fault fault;
    char line[CSPWATCH_LINE_LIMIT + 1]; /* the line to send, with its LF */
    size_t length;
    char *input; /* what was read: the last reply, and what came after it */
    size_t capacity;
    size_t filled;
    size_t reply; /* how many bytes of the input the last reply has, with its LF */
    const char **names;
    size_t names_capacity;
};

/* ---- the connection ---- */

/* Milliseconds of a clock that only goes forward. */
static uint64_t now(void) {
    struct timespec time;
    clock_gettime(CLOCK_MONOTONIC, &time);
    return (uint64_t)time.tv_sec * 1000 + (uint64_t)time.tv_nsec / 1000000;
}

/* Waits until the connection can be read or written, and tells whether that was in time. */
static int is_ready(const cspwatch_client *client, short events) {
    struct pollfd asked;
    int count;
    if (client->timeout == 0)
        return 1;
    asked.fd = client->socket;
    asked.events = events;
    do {
        uint64_t moment = now();
        if (moment >= client->latest)
            return 0;
        asked.revents = 0;
        count = poll(&asked, 1, client->latest - moment > INT_MAX ? INT_MAX : (int)(client->latest - moment));
    } while (count < 0 && errno == EINTR);
    return count > 0;
}

static void drop(cspwatch_client *client) {
    if (client->socket >= 0)
        close(client->socket);
    client->socket = -1;
}

static int set_options(int link, int family, unsigned timeout) {
    struct timeval wait;
    int on = 1;
    wait.tv_sec = (time_t)(timeout / 1000);
    wait.tv_usec = (suseconds_t)(timeout % 1000 * 1000);
    if (family != AF_UNIX && setsockopt(link, IPPROTO_TCP, TCP_NODELAY, &on, sizeof on) != 0)
        return -1;
    if (timeout == 0)
        return 0;
    if (setsockopt(link, SOL_SOCKET, SO_RCVTIMEO, &wait, sizeof wait) != 0)
        return -1;
    return setsockopt(link, SOL_SOCKET, SO_SNDTIMEO, &wait, sizeof wait);
}

/* A socket that is connected to the address, or -1. */
static int connected(const struct addrinfo *address, unsigned timeout) {
    int cause;
    int link = socket(address->ai_family, address->ai_socktype, address->ai_protocol);
    if (link < 0)
        return -1;
    if (set_options(link, address->ai_family, timeout) == 0 && connect(link, address->ai_addr, address->ai_addrlen) == 0)
        return link;
    cause = errno;
    close(link);
    errno = cause;
    return -1;
}

/* The same of the socket at this path of the file system. */
static int connected_to_path(const char *path, unsigned timeout) {
    struct sockaddr_un place;
    struct addrinfo address;
    if (strlen(path) >= sizeof place.sun_path)
        return -1;
    memset(&place, 0, sizeof place);
    place.sun_family = AF_UNIX;
    strcpy(place.sun_path, path);
    memset(&address, 0, sizeof address);
    address.ai_family = AF_UNIX;
    address.ai_socktype = SOCK_STREAM;
    address.ai_addr = (struct sockaddr *)&place;
    address.ai_addrlen = sizeof place;
    return connected(&address, timeout);
}

static int connected_to_any(const char *host, const char *port, unsigned timeout) {
    struct addrinfo hints, *list, *address;
    int link = -1;
    if (strncmp(host, CSPWATCH_UNIX, strlen(CSPWATCH_UNIX)) == 0)
        return connected_to_path(host + strlen(CSPWATCH_UNIX), timeout);
    memset(&hints, 0, sizeof hints);
    hints.ai_family = AF_UNSPEC;
    hints.ai_socktype = SOCK_STREAM;
    if (getaddrinfo(host, port, &hints, &list) != 0)
        return -1;
    for (address = list; address != NULL && link < 0; address = address->ai_next)
        link = connected(address, timeout);
    freeaddrinfo(list);
    return link;
}

static void free_client(cspwatch_client *client) {
    free(client->host);
    free(client->port);
    free(client->names);
    free(client->input);
    free(client);
}

enum cspwatch_result cspwatch_connect(const char *host, const char *port, unsigned timeout, cspwatch_client **client) {
    int cause;
    cspwatch_client *made = calloc(1, sizeof *made);
    if (made == NULL)
        return CSPWATCH_OUT_OF_MEMORY;
    made->host = strdup(host);
    made->port = strdup(port);
    made->timeout = timeout;
    if (made->host == NULL || made->port == NULL) {
        free_client(made);
        return CSPWATCH_OUT_OF_MEMORY;
    }
    made->socket = connected_to_any(host, port, timeout);
    if (made->socket < 0) {
        cause = errno;
        free_client(made);
        errno = cause;
        return CSPWATCH_NOT_CONNECTED;
    }
    *client = made;
    return CSPWATCH_ANSWERED;
}

/* ---- lines ---- */

/* Adds bytes to the line; the last place is kept for the LF. */
static int put(cspwatch_client *client, const char *text, size_t length) {
    if (length > CSPWATCH_LINE_LIMIT - client->length)
        return -1;
    memcpy(client->line + client->length, text, length);
    client->length += length;
    return 0;
}

/* Adds a blank and a name to the line. */
static int put_name(cspwatch_client *client, const char *name) {
    if (strchr(name, '\n') != NULL || put(client, " ", 1) != 0)
        return -1;
    return put(client, name, strlen(name));
}

static void begin(cspwatch_client *client, char word) {
    client->line[0] = word;
    client->length = 1;
}

/* A server without a free seat sends its reason and closes at once, so a write that fails is no end: the reason, or the
 * end, is read after it. */
static void send_line(cspwatch_client *client, const char *line, size_t length) {
    size_t sent = 0;
    int flags = client->timeout == 0 ? MSG_NOSIGNAL : MSG_NOSIGNAL | MSG_DONTWAIT;
    while (sent < length && is_ready(client, POLLOUT)) {
        ssize_t count = send(client->socket, line + sent, length - sent, flags);
        if (count < 0 && (errno == EINTR || errno == EAGAIN))
            continue;
        if (count < 0)
            return;
        sent += (size_t)count;
    }
}

/* ---- replies ---- */

/* Room for at least one more byte of input. */
static int grow(cspwatch_client *client) {
    size_t wanted;
    char *grown;
    if (client->filled < client->capacity)
        return 0;
    wanted = client->capacity == 0 ? 256 : client->capacity * 2;
    grown = wanted > client->capacity ? realloc(client->input, wanted) : NULL;
    if (grown == NULL)
        return -1;
    client->input = grown;
    client->capacity = wanted;
    return 0;
}

/* Forgets the last reply. */
static void forget(cspwatch_client *client) {
    client->filled -= client->reply;
    if (client->filled > 0)
        memmove(client->input, client->input + client->reply, client->filled);
    client->reply = 0;
}

/* Reads until the input has a whole line, and makes it a text without its LF. */
static enum cspwatch_result read_reply(cspwatch_client *client) {
    size_t seen = 0;
    forget(client);
    for (;;) {
        ssize_t count;
        char *end = client->filled > seen ? memchr(client->input + seen, '\n', client->filled - seen) : NULL;
        if (end != NULL) {
            *end = '\0';
            client->reply = (size_t)(end - client->input) + 1;
            return CSPWATCH_ANSWERED;
        }
        seen = client->filled;
        if (seen >= CSPWATCH_REPLY_LIMIT)
            return CSPWATCH_BAD_REPLY;
        if (grow(client) != 0)
            return CSPWATCH_OUT_OF_MEMORY;
        if (!is_ready(client, POLLIN))
            return CSPWATCH_NO_REPLY;
        do
            count = recv(client->socket, client->input + seen, client->capacity - seen, 0);
        while (count < 0 && errno == EINTR);
        if (count <= 0)
            return CSPWATCH_NO_REPLY;
        client->filled += (size_t)count;
    }
}

/* Where the text begins with the word, what follows it, else NULL. */
static const char *after(const char *text, const char *word) {
    size_t length = strlen(word);
    return strncmp(text, word, length) == 0 ? text + length : NULL;
}

/* A decimal without leading zeros that fits into 64 bits: where it ends, else NULL. */
static const char *after_number(const char *text, uint64_t *number) {
    const char *at = text;
    uint64_t value = 0;
    while (*at >= '0' && *at <= '9') {
        uint64_t digit = (uint64_t)(*at - '0');
        if (value > (UINT64_MAX - digit) / 10)
            return NULL;
        value = value * 10 + digit;
        at++;
    }
    if (at == text || (*text == '0' && at != text + 1))
        return NULL;
    *number = value;
    return at;
}

/* Whether the text is one or more printing bytes without a blank, up to an end. */
static int is_word(const char *text, const char *end) {
    const char *at;
    for (at = text; at < end; at++)
        if (*at <= ' ' || *at > '~')
            return 0;
    return end > text;
}

static const char *reply_end(const cspwatch_client *client) {
    return client->input + client->reply - 1;
}

/* Whether the reply is a fault, which is kept. */
static int is_fault(cspwatch_client *client) {
    uint64_t code;
    size_t length;
    const char *text = after(client->input, "ERR ");
    const char *end = text == NULL ? NULL : after_number(text, &code);
    if (end == NULL || *end != ' ' || code > 999999999 || !is_word(end + 1, reply_end(client)))
        return 0;
    length = (size_t)(reply_end(client) - (end + 1));
    if (length > CSPWATCH_WORD_LIMIT)
        length = CSPWATCH_WORD_LIMIT;
    client->fault.code = (int)code;
    memcpy(client->fault.word, end + 1, length);
    client->fault.word[length] = '\0';
    return 1;
}

/* From now on each call ends by CSPWATCH_NO_REPLY. */
static enum cspwatch_result ended(cspwatch_client *client, enum cspwatch_result result) {
    drop(client);
    client->patience = 0;
    return result;
}

static enum cspwatch_result bad_reply(cspwatch_client *client) {
    return ended(client, CSPWATCH_BAD_REPLY);
}

/* Sends the line, which has its LF, and reads its reply. Where that fails the connection is closed: a reply that came late
 * would be taken for that to the next line. */
static enum cspwatch_result exchange(cspwatch_client *client, const char *line, size_t length) {
    enum cspwatch_result result;
    if (client->socket < 0)
        return CSPWATCH_NO_REPLY;
    client->latest = now() + client->timeout;
    send_line(client, line, length);
    result = read_reply(client);
    if (result == CSPWATCH_OUT_OF_MEMORY || result == CSPWATCH_BAD_REPLY)
        return ended(client, result);
    if (result != CSPWATCH_ANSWERED) {
        drop(client);
        return result;
    }
    return is_fault(client) ? CSPWATCH_FAULT : CSPWATCH_ANSWERED;
}

/* ---- seats ---- */

/* Says on a new connection which seat the client is. */
static enum cspwatch_result identify(cspwatch_client *client) {
    char line[16];
    int length = snprintf(line, sizeof line, "I %u\n", client->seat);
    enum cspwatch_result result = exchange(client, line, (size_t)length);
    uint64_t seat, judged;
    const char *text;
    if (result == CSPWATCH_FAULT)
        drop(client);
    if (result != CSPWATCH_ANSWERED)
        return result;
    text = after(client->input, "I ");
    text = text == NULL ? NULL : after_number(text, &seat);
    text = text == NULL || *text != ' ' || seat != client->seat ? NULL : after_number(text + 1, &judged);
    if (text != reply_end(client))
        return bad_reply(client);
    client->judged = judged;
    return CSPWATCH_ANSWERED;
}

static enum cspwatch_result identify_anew(cspwatch_client *client) {
    drop(client);
    client->filled = 0;
    client->reply = 0;
    client->socket = connected_to_any(client->host, client->port, client->timeout);
    return client->socket < 0 ? CSPWATCH_NOT_CONNECTED : identify(client);
}

/* Whether the connection may be given later. One that was lost may have the seat a little longer. */
static int is_passing(const cspwatch_client *client, enum cspwatch_result result) {
    int code = client->fault.code;
    if (result == CSPWATCH_FAULT)
        return code == CSPWATCH_FAULT_SEATS || code == CSPWATCH_FAULT_READER || code == CSPWATCH_FAULT_TAKEN ||
               code == CSPWATCH_FAULT_MEMORY;
    return result == CSPWATCH_NO_REPLY || result == CSPWATCH_NOT_CONNECTED;
}

static void wait_for(unsigned milliseconds) {
    struct timespec time;
    time.tv_sec = (time_t)(milliseconds / 1000);
    time.tv_nsec = (long)(milliseconds % 1000) * 1000000;
    nanosleep(&time, NULL);
}

/* After an attempt to get the seat that came to this: makes further ones, as long as the client has patience. */
static enum cspwatch_result come_back(cspwatch_client *client, enum cspwatch_result result) {
    uint64_t latest = now() + client->patience;
    unsigned pause = FIRST_PAUSE;
    while (is_passing(client, result) && now() + pause <= latest) {
        wait_for(pause);
        pause = pause * 2 < LONGEST_PAUSE ? pause * 2 : LONGEST_PAUSE;
        result = identify_anew(client);
    }
    if (result == CSPWATCH_ANSWERED)
        return result;
    return ended(client, result == CSPWATCH_NOT_CONNECTED ? CSPWATCH_NO_REPLY : result);
}

enum cspwatch_result cspwatch_identify(cspwatch_client *client, unsigned seat) {
    enum cspwatch_result result;
    if (seat == 0 || seat > CSPWATCH_SEATS)
        return CSPWATCH_BAD_NAME;
    client->seat = seat;
    result = identify(client);
    return result == CSPWATCH_ANSWERED ? result : come_back(client, result);
}

uint64_t cspwatch_judged(const cspwatch_client *client) {
    return client->judged;
}

void cspwatch_set_patience(cspwatch_client *client, unsigned patience) {
    client->patience = patience;
}

/* Sends the client's line and reads its reply. Where the connection is lost, a client with patience comes back and sends the
 * line again, unless the history has more reports of the seat than the client knows of. */
static enum cspwatch_result ask(cspwatch_client *client) {
    uint64_t known = client->judged;
    size_t length = client->length;
    enum cspwatch_result result;
    client->line[length] = '\n';
    result = exchange(client, client->line, length + 1);
    while (result == CSPWATCH_NO_REPLY && client->patience > 0 && client->seat > 0) {
        result = come_back(client, identify_anew(client));
        if (result != CSPWATCH_ANSWERED)
            return result;
        if (client->judged != known)
            return CSPWATCH_VERDICT_LOST;
        result = exchange(client, client->line, length + 1);
    }
    return result;
}

/* The same for a question, which adds nothing to the history. */
static enum cspwatch_result ask_question(cspwatch_client *client) {
    enum cspwatch_result result = ask(client);
    return result == CSPWATCH_VERDICT_LOST ? ended(client, CSPWATCH_OTHER_REPORTS) : result;
}

/* ---- reports ---- */

static enum cspwatch_result report(cspwatch_client *client, struct cspwatch_verdict *verdict) {
    uint64_t known = client->judged;
    enum cspwatch_result result = ask(client);
    const char *accepted, *place, *end;
    uint64_t number;
    if (result == CSPWATCH_VERDICT_LOST && client->judged != known + 1)
        return ended(client, CSPWATCH_OTHER_REPORTS);
    if (result != CSPWATCH_ANSWERED)
        return result;
    accepted = after(client->input, "OK ");
    place = accepted != NULL ? accepted : after(client->input, "NO ");
    end = place == NULL ? NULL : after_number(place, &number);
    if (end != reply_end(client) || number == 0)
        return bad_reply(client);
    client->judged++;
    verdict->accepted = accepted != NULL;
    verdict->place = number;
    return CSPWATCH_ANSWERED;
}

enum cspwatch_result cspwatch_event(cspwatch_client *client, const char *name, struct cspwatch_verdict *verdict) {
    begin(client, 'E');
    if (put_name(client, name) != 0)
        return CSPWATCH_BAD_NAME;
    return report(client, verdict);
}

enum cspwatch_result cspwatch_refusal(cspwatch_client *client, const char *const *names, size_t count,
                                      struct cspwatch_verdict *verdict) {
    size_t at;
    begin(client, 'R');
    for (at = 0; at < count; at++)
        if (strchr(names[at], ' ') != NULL || put_name(client, names[at]) != 0)
            return CSPWATCH_BAD_NAME;
    return report(client, verdict);
}

/* ---- questions ---- */

enum cspwatch_result cspwatch_status(cspwatch_client *client, struct cspwatch_counts *counts) {
    uint64_t number[4];
    enum cspwatch_result result;
    const char *text;
    size_t at;
    begin(client, 'S');
    result = ask_question(client);
    if (result != CSPWATCH_ANSWERED)
        return result;
    text = after(client->input, "S ");
    for (at = 0; at < 4 && text != NULL; at++) {
        text = after_number(text, &number[at]);
        text = text != NULL && *text == ' ' ? text + 1 : NULL;
    }
    if (text == NULL || (strcmp(text, "open") != 0 && strcmp(text, "closed") != 0) ||
        text + strlen(text) != reply_end(client))
        return bad_reply(client);
    counts->judged = number[0];
    counts->events = number[1];
    counts->refusals = number[2];
    counts->rejected = number[3];
    counts->closed = strcmp(text, "closed") == 0;
    return CSPWATCH_ANSWERED;
}

/* Room for this many names. */
static int make_room(cspwatch_client *client, size_t count) {
    const char **grown;
    if (count <= client->names_capacity)
        return 0;
    grown = count <= SIZE_MAX / sizeof *grown ? realloc(client->names, count * sizeof *grown) : NULL;
    if (grown == NULL)
        return -1;
    client->names = grown;
    client->names_capacity = count;
    return 0;
}

/* Cuts the text up to the end, each name after a blank, into names; answers 0 where it isn't made of such names. */
static int cut_names(cspwatch_client *client, char *text, const char *end) {
    size_t count = 0;
    while (text < end) {
        char *name = text + 1;
        char *next = memchr(name, ' ', (size_t)(end - name));
        if (next == NULL)
            next = name + (end - name);
        if (!is_word(name, next))
            return 0;
        *text = '\0';
        client->names[count++] = name;
        text = next;
    }
    return 1;
}

enum cspwatch_result cspwatch_next(cspwatch_client *client, const char *const **names, size_t *count) {
    enum cspwatch_result result;
    const char *at, *end;
    size_t blanks = 0;
    begin(client, 'N');
    result = ask_question(client);
    if (result != CSPWATCH_ANSWERED)
        return result;
    end = reply_end(client);
    for (at = client->input; at < end; at++)
        blanks += *at == ' ';
    if (client->input[0] != 'N' || (end > client->input + 1 && client->input[1] != ' '))
        return bad_reply(client);
    if (make_room(client, blanks + 1) != 0)
        return ended(client, CSPWATCH_OUT_OF_MEMORY);
    if (!cut_names(client, client->input + 1, end))
        return bad_reply(client);
    *names = client->names;
    *count = blanks;
    return CSPWATCH_ANSWERED;
}

/* ---- the rest ---- */

enum cspwatch_result cspwatch_expected(cspwatch_client *client, const struct cspwatch_verdict *verdict,
                                       const char *const **names, size_t *count) {
    struct cspwatch_counts counts;
    char *input, *rest;
    size_t capacity, reply, more;
    enum cspwatch_result result = cspwatch_next(client, names, count);
    if (result != CSPWATCH_ANSWERED)
        return result;
    /* The names are in the reply, so the next one is read to another place, with what has come of it by now. */
    more = client->filled - client->reply;
    rest = malloc(more + 1);
    if (rest == NULL)
        return ended(client, CSPWATCH_OUT_OF_MEMORY);
    memcpy(rest, client->input + client->reply, more);
    input = client->input;
    capacity = client->capacity;
    reply = client->reply;
    client->input = rest;
    client->capacity = more + 1;
    client->filled = more;
    client->reply = 0;
    result = cspwatch_status(client, &counts);
    free(client->input);
    client->input = input;
    client->capacity = capacity;
    client->filled = client->reply = reply;
    if (result == CSPWATCH_ANSWERED && counts.judged != verdict->place) {
        *names = NULL;
        *count = 0;
    }
    return result;
}

struct cspwatch_fault cspwatch_last_fault(const cspwatch_client *client) {
    return client->fault;
}

void cspwatch_close(cspwatch_client *client) {
    if (client == NULL)
        return;
    exchange(client, "Q\n", 2);
    drop(client);
    free_client(client);
}
