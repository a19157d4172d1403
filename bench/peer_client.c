/* A client of bench/peers: it subscribes, publishes or reads by the client libraries of Debian, and
 * notes what came in a file that the measuring program has mapped too.
 *
 *   peer_client sub KIND PORT NAME FILE FOLDER     subscribes until it is killed
 *   peer_client pub KIND PORT FIRST COUNT MS       publishes these numbers, while so many ms are
 *                                                  not over; prints when it began, and the number
 *                                                  after the last one
 *   peer_client pub KIND PORT each                 a number on each line of the standard input
 *   peer_client get jetstream PORT                 prints the settings that a new client is given
 *   peer_client follow FILE FOLDER COMMAND..       runs a client that prints settings
 *   peer_client session COMMAND..                  runs a hub or an agent in a session of its own
 *   peer_client observe lines FILE PIPE..          notes what agents say in their journals that
 *                                                  they received
 *   peer_client observe files FILE FOLDER..        and what moves into its place in their folders
 *
 * What came is put into a file of its own in FOLDER: written beside, and moved. With - it is not.
 *
 * KIND is mqtt, nats, jetstream, redis or stream; numbers are also published by the KIND folder,
 * where PORT is a folder whose files are the settings, and root, where it is the control socket of
 * a root. The value of a setting is a number in 16 digits, and its key is k and the number modulo
 * PEER_KEYS: 100 where that is not set, and at most 1000. PEER_TLS names a folder with an
 * authority, a client's certificate, and its key.
 */
#define _GNU_SOURCE
#include <err.h>
#include <errno.h>
#include <fcntl.h>
#include <hiredis/hiredis.h>
#include <mosquitto.h>
#include <nats/nats.h>
#include <poll.h>
#include <sched.h>
#include <signal.h>
#include <stdint.h>
#include <stdio.h>
#include <stdlib.h>
#include <string.h>
#include <sys/epoll.h>
#include <sys/inotify.h>
#include <sys/mman.h>
#include <sys/prctl.h>
#include <sys/socket.h>
#include <sys/un.h>
#include <time.h>
#include <unistd.h>

enum { MOST = 1000, DIGITS = 16, WINDOW = 500 };

/* What bench/peers reads: all numbers are little-endian, as the machine has them. */
struct notes {
    int64_t process;        /* that of the agent or client */
    int64_t came;           /* how many values came */
    int64_t last_at;        /* when the last one did, in ns of the monotonic clock */
    int64_t frame_at;       /* of an agent: when it last said that it received an item */
    int64_t frame;          /* and that item's sequence number */
    int64_t values[MOST];   /* the last value of each key, and 1 more: 0 is none */
};

static struct notes *notes;
static int keys = 100, folder = -1;

static int64_t now(void)
{
    struct timespec it;
    clock_gettime(CLOCK_MONOTONIC, &it);
    return it.tv_sec * 1000000000LL + it.tv_nsec;
}

/* A session of its own, of the priority that bench/peers has, on the processor of PEER_CPU. */
static void own_session(void)
{
    const char *nice = getenv("PEER_NICE");
    cpu_set_t set;
    CPU_ZERO(&set);
    if (getenv("PEER_CPU")) {
        CPU_SET(atoi(getenv("PEER_CPU")), &set);
        if (sched_setaffinity(0, sizeof set, &set)) warn("PEER_CPU");
    }
    setsid();
    int file = open("/proc/self/autogroup", O_WRONLY);
    if (nice && file >= 0 && write(file, nice, strlen(nice)) < 0) warn("autogroup");
    close(file);
}

static void open_notes(const char *path)
{
    int file = open(path, O_RDWR);
    notes = mmap(NULL, sizeof *notes, PROT_READ | PROT_WRITE, MAP_SHARED, file, 0);
    if (notes == MAP_FAILED) err(1, "%s", path);
    close(file);
}

static void open_folder(const char *path)
{
    if (strcmp(path, "-") == 0) return;
    folder = open(path, O_RDONLY | O_DIRECTORY);
    if (folder < 0) err(1, "%s", path);
}

static void put_file(int key, const char *value, size_t length)
{
    char name[32];
    snprintf(name, sizeof name, "k%d", key);
    int file = openat(folder, ".new", O_WRONLY | O_CREAT | O_TRUNC, 0640);
    if (file < 0 || write(file, value, length) != (ssize_t)length) err(1, "%s", name);
    close(file);
    if (renameat(folder, ".new", folder, name)) err(1, "%s", name);
}

static void note(const char *text, size_t length)
{
    char whole[DIGITS + 1] = "";
    char *end;
    if (length != DIGITS) return;
    memcpy(whole, text, DIGITS);
    int64_t number = strtoll(whole, &end, 10);
    if (*end || number < 0) return;
    if (folder >= 0) put_file(number % keys, text, length);
    notes->values[number % keys] = number + 1;
    notes->came++;
    __atomic_store_n(&notes->last_at, now(), __ATOMIC_RELEASE);
}

/* The numbers to publish: from the command line, or line by line. */
static struct { int64_t first, next, end, until; int each; } numbers;
/* The name of a setting, its value, and how long that is. */
static char name[32], value[DIGITS + 1];
static int length;

static void print(int64_t number)
{
    printf("%lld\n", (long long)number);
    fflush(stdout);
}

/* Whether there is a next setting, whose name has this form; says when the first one begins, or
 * each. */
static int has_next(const char *form)
{
    char line[64];
    int64_t number = numbers.next;
    if (numbers.each ? !fgets(line, sizeof line, stdin)
                     : number >= numbers.end || now() >= numbers.until) return 0;
    if (numbers.each) number = strtoll(line, NULL, 10);
    else numbers.next++;
    snprintf(name, sizeof name, form, (int)(number % keys));
    length = snprintf(value, sizeof value, "%0*lld", DIGITS, (long long)number);
    if (numbers.each || number == numbers.first) print(now());
    return 1;
}

/* ---- MQTT */

static int in_flight, is_up;

static void mqtt_up(struct mosquitto *it, void *what, int code)
{
    (void)what;
    if (code) errx(1, "mqtt: %s", mosquitto_connack_string(code));
    if (notes) mosquitto_subscribe(it, NULL, "s/#", 1);
    __atomic_store_n(&is_up, 1, __ATOMIC_RELEASE);
}

static void mqtt_message(struct mosquitto *it, void *what, const struct mosquitto_message *message)
{
    (void)it, (void)what;
    note(message->payload, message->payloadlen);
}

static void mqtt_done(struct mosquitto *it, void *what, int id)
{
    (void)it, (void)what, (void)id;
    __atomic_sub_fetch(&in_flight, 1, __ATOMIC_ACQ_REL);
}

static struct mosquitto *mqtt_connect(int port, const char *name)
{
    mosquitto_lib_init();
    struct mosquitto *it = mosquitto_new(name, name == NULL, NULL);
    mosquitto_int_option(it, MOSQ_OPT_TCP_NODELAY, 1);
    mosquitto_connect_callback_set(it, mqtt_up);
    mosquitto_message_callback_set(it, mqtt_message);
    mosquitto_publish_callback_set(it, mqtt_done);
    while (mosquitto_connect(it, "127.0.0.1", port, 60) != MOSQ_ERR_SUCCESS) usleep(100000);
    return it;
}

static void mqtt_publish(int port)
{
    struct mosquitto *it = mqtt_connect(port, NULL);
    mosquitto_loop_start(it);
    while (!__atomic_load_n(&is_up, __ATOMIC_ACQUIRE)) usleep(1000);
    while (has_next("s/k%d")) {
        while (__atomic_load_n(&in_flight, __ATOMIC_ACQUIRE) >= WINDOW) usleep(100);
        __atomic_add_fetch(&in_flight, 1, __ATOMIC_ACQ_REL);
        if (mosquitto_publish(it, NULL, name, length, value, 1, true)) errx(1, "mqtt: publish");
    }
    while (__atomic_load_n(&in_flight, __ATOMIC_ACQUIRE) > 0) usleep(1000);
    mosquitto_disconnect(it);
    mosquitto_loop_stop(it, false);
}

/* ---- NATS and JetStream's store of keys and values */

static natsConnection *nats_connect(int port)
{
    natsConnection *it = NULL;
    natsOptions *options = NULL;
    char url[64];
    snprintf(url, sizeof url, "nats://127.0.0.1:%d", port);
    natsOptions_Create(&options);
    natsOptions_SetURL(options, url);
    natsOptions_SetMaxReconnect(options, -1);
    natsOptions_SetReconnectWait(options, 100);
    natsOptions_SetMaxPendingMsgs(options, 1 << 20);
    if (getenv("PEER_TLS")) {
        if (chdir(getenv("PEER_TLS"))) err(1, "PEER_TLS");
        natsOptions_SetSecure(options, true);
        natsOptions_LoadCATrustedCertificates(options, "ca.crt");
        natsOptions_LoadCertificatesChain(options, "client.crt", "client.key");
    }
    while (natsConnection_Connect(&it, options) != NATS_OK) usleep(100000);
    return it;
}

static void nats_message(natsConnection *it, natsSubscription *sub, natsMsg *message, void *what)
{
    (void)it, (void)sub, (void)what;
    note(natsMsg_GetData(message), natsMsg_GetDataLength(message));
    natsMsg_Destroy(message);
}

static kvStore *bucket(natsConnection *it)
{
    jsCtx *context = NULL;
    kvStore *store = NULL;
    kvConfig config;
    natsStatus status;
    if (natsConnection_JetStream(&context, it, NULL) != NATS_OK) errx(1, "jetstream: context");
    for (int tries = 0; tries < 50; tries++) {
        status = js_KeyValue(&store, context, "S");
        if (status == NATS_OK) return store;
        if (status == NATS_NOT_FOUND) {
            kvConfig_Init(&config);
            config.Bucket = "S";
            if (js_CreateKeyValue(&store, context, &config) == NATS_OK) return store;
        }
        usleep(100000);
    }
    errx(1, "jetstream: %s", natsStatus_GetText(status));
}

static void jetstream_watch(int port, int until_known)
{
    kvWatcher *watcher = NULL;
    kvEntry *entry = NULL;
    kvStore *store = bucket(nats_connect(port));
    if (kvStore_WatchAll(&watcher, store, NULL) != NATS_OK) errx(1, "jetstream: watch");
    for (;;) {
        natsStatus status = kvWatcher_Next(&entry, watcher, 3600000);
        if (status != NATS_OK && until_known) errx(1, "jetstream: %s", natsStatus_GetText(status));
        if (status != NATS_OK) {
            /* (the watcher is no more: a new one begins with the last values) */
            kvWatcher_Destroy(watcher);
            while (kvStore_WatchAll(&watcher, store, NULL) != NATS_OK) usleep(100000);
            continue;
        }
        if (entry == NULL) {
            if (until_known) return;
            continue;
        }
        if (until_known) printf("%s %s\n", kvEntry_Key(entry), kvEntry_ValueString(entry));
        else note(kvEntry_Value(entry), kvEntry_ValueLen(entry));
        kvEntry_Destroy(entry);
    }
}

static void nats_publish(int port, int is_jetstream)
{
    natsConnection *it = nats_connect(port);
    jsCtx *context = NULL;
    jsOptions options;
    if (is_jetstream) {
        bucket(it);
        jsOptions_Init(&options);
        options.PublishAsync.MaxPending = WINDOW;
        if (natsConnection_JetStream(&context, it, &options) != NATS_OK) errx(1, "jetstream");
    }
    natsConnection_FlushTimeout(it, 5000);
    while (has_next(is_jetstream ? "$KV.S.k%d" : "s.k%d")) {
        natsStatus status;
        /* (a time-out: so many are on their way already) */
        if (is_jetstream) do status = js_PublishAsync(context, name, value, length, NULL);
            while (status == NATS_TIMEOUT);
        else status = natsConnection_Publish(it, name, value, length);
        if (status != NATS_OK) errx(1, "nats: %s", natsStatus_GetText(status));
        if (numbers.each) natsConnection_FlushTimeout(it, 5000);
    }
    if (is_jetstream) js_PublishAsyncComplete(context, NULL);
    else natsConnection_FlushTimeout(it, 60000);
}

/* ---- Redis */

static redisContext *redis_connect(int port)
{
    for (;;) {
        redisContext *it = redisConnect("127.0.0.1", port);
        if (it && !it->err) return it;
        if (it) redisFree(it);
        usleep(100000);
    }
}

static void redis_subscribe(int port)
{
    for (;;) {
        redisContext *it = redis_connect(port), *other = redis_connect(port);
        redisReply *reply = redisCommand(it, "SUBSCRIBE s");
        if (reply) freeReplyObject(reply);
        /* (the keys and values that there are) */
        reply = redisCommand(other, "HGETALL settings");
        for (size_t at = 1; reply && at < reply->elements; at += 2)
            note(reply->element[at]->str, reply->element[at]->len);
        if (reply) freeReplyObject(reply);
        redisFree(other);
        while (redisGetReply(it, (void **)&reply) == REDIS_OK) {
            if (reply->elements == 3 && reply->element[2]->type == REDIS_REPLY_STRING)
                note(reply->element[2]->str, reply->element[2]->len);
            freeReplyObject(reply);
        }
        redisFree(it);
    }
}

/* Reads the stream from its beginning, or from where a lost connection was. */
static void stream_read(int port)
{
    char last[64] = "0";
    for (;;) {
        redisContext *it = redis_connect(port);
        redisReply *reply;
        while ((reply = redisCommand(it, "XREAD COUNT 500 BLOCK 0 STREAMS S %s", last))) {
            redisReply *items = reply->elements ? reply->element[0]->element[1] : reply;
            for (size_t at = 0; at < items->elements; at++) {
                redisReply *value = items->element[at]->element[1]->element[1];
                snprintf(last, sizeof last, "%s", items->element[at]->element[0]->str);
                note(value->str, value->len);
            }
            freeReplyObject(reply);
        }
        redisFree(it);
    }
}

static void redis_publish(int port, int is_stream)
{
    redisContext *it = redis_connect(port);
    redisReply *reply;
    int waiting = 0;
    while (has_next("k%d")) {
        if (is_stream) redisAppendCommand(it, "XADD S * %s %s", name, value);
        else {
            redisAppendCommand(it, "HSET settings %s %s", name, value);
            redisAppendCommand(it, "PUBLISH s %s", value);
        }
        waiting += is_stream ? 1 : 2;
        while (waiting >= (numbers.each ? 1 : WINDOW)) {
            if (redisGetReply(it, (void **)&reply) != REDIS_OK) errx(1, "redis: %s", it->errstr);
            freeReplyObject(reply);
            waiting--;
        }
    }
    while (waiting-- > 0 && redisGetReply(it, (void **)&reply) == REDIS_OK) freeReplyObject(reply);
}

/* ---- Programs that apply settings in a folder, or print them */

/* Runs a client that prints what came, in a session of its own, until that ends. */
static void follow(const char *path, char **command)
{
    char *line = NULL;
    size_t room = 0;
    ssize_t got;
    int ends[2];
    if (pipe(ends)) err(1, "pipe");
    open_folder(path);
    pid_t child = fork();
    if (child == 0) {
        own_session();
        prctl(PR_SET_PDEATHSIG, SIGKILL);
        dup2(ends[1], 1);
        close(ends[0]), close(ends[1]);
        execvp(command[0], command);
        err(1, "%s", command[0]);
    }
    close(ends[1]);
    notes->process = child;
    FILE *from = fdopen(ends[0], "r");
    while ((got = getline(&line, &room, from)) > 0) note(line, got - 1);
}

/* Notes the file of a key. */
static void file_in(int from, int key)
{
    snprintf(name, sizeof name, "k%d", key);
    int file = openat(from, name, O_RDONLY);
    if (file < 0) return;
    ssize_t got = read(file, value, sizeof value);
    close(file);
    if (got > 0) note(value, got);
}

/* Notes what moved into its place in a folder: of each key what is there now. */
static void files_in(int from, int watch)
{
    static char events[1 << 16];
    char moved[MOST] = "";
    ssize_t got = read(watch, events, sizeof events);
    for (char *at = events; got > 0 && at < events + got;) {
        struct inotify_event *event = (struct inotify_event *)at;
        int key = event->len && event->name[0] == 'k' ? atoi(event->name + 1) : -1;
        if (key >= 0 && key < keys) moved[key] = 1;
        /* (what happened after the system's room for events was full is in the folder) */
        if (event->mask & IN_Q_OVERFLOW) memset(moved, 1, sizeof moved);
        at += sizeof *event + event->len;
    }
    for (int key = 0; key < keys; key++)
        if (moved[key]) file_in(from, key);
}

/* Notes what the whole lines of a text say that was received: what is left of it. */
static size_t lines_of(char *text, size_t length)
{
    char *start = text, *end;
    for (; (end = memchr(start, '\n', text + length - start)); start = end + 1) {
        if (end - start <= 9 || memcmp(start, "received ", 9)) continue;
        notes->frame_at = now();
        __atomic_store_n(&notes->frame, strtoll(start + 9, NULL, 10), __ATOMIC_RELEASE);
    }
    memmove(text, start, text + length - start);
    return text + length - start;
}

/* One process sees to all agents, so that little is measured besides them. */
static void observe(int files, int count, char **words)
{
    struct agent { struct notes *notes; int from, folder; size_t length; char text[1 << 12]; };
    struct agent *all = calloc(count, sizeof *all);
    struct epoll_event events[64];
    int any = epoll_create1(0), ready;
    own_session();
    for (int at = 0; at < count; at++) {
        struct agent *it = &all[at];
        struct epoll_event event = {EPOLLIN, {.ptr = it}};
        char *path = words[2 * at + 1];
        open_notes(words[2 * at]);
        it->notes = notes;
        it->from = files ? inotify_init1(IN_NONBLOCK) : open(path, O_RDWR | O_NONBLOCK);
        it->folder = files ? open(path, O_RDONLY | O_DIRECTORY) : -1;
        if (it->from < 0 || (files && inotify_add_watch(it->from, path, IN_MOVED_TO) < 0) ||
            epoll_ctl(any, EPOLL_CTL_ADD, it->from, &event)) err(1, "%s", path);
    }
    while ((ready = epoll_wait(any, events, 64, -1)) > 0 || errno == EINTR) {
        for (int at = 0; at < ready; at++) {
            struct agent *it = events[at].data.ptr;
            notes = it->notes;
            if (files) {
                files_in(it->folder, it->from);
                continue;
            }
            ssize_t got = read(it->from, it->text + it->length, sizeof it->text - it->length);
            it->length = lines_of(it->text, it->length + (got > 0 ? got : 0));
            if (it->length == sizeof it->text) it->length = 0;
        }
    }
    err(1, "epoll");
}

static void folder_publish(const char *path)
{
    open_folder(path);
    while (has_next("k%d")) put_file(atoi(name + 1), value, length);
}

/* Asks a root for the next change, or closes the connection where there is none. */
static int ask(int to)
{
    char hex[2 * DIGITS + 1] = "";
    if (!has_next("k%d")) return close(to), -1;
    for (int at = 0; at < length; at++) sprintf(hex + 2 * at, "%02x", value[at]);
    dprintf(to, "{\"do\":\"publish\",\"key\":\"%s\",\"value\":\"%s\"}\n", name, hex);
    return to;
}

/* Asks over some connections to its control socket, each for one change after the other. Each is
 * published before the next one of its key is asked for. Prints the last sequence number too. */
static void root_publish(const char *path)
{
    enum { TOGETHER = 15 };
    static const char answer_is[] = "{\"published\":";
    struct pollfd of[TOGETHER];
    struct sockaddr_un to = {.sun_family = AF_UNIX};
    long long last = 0;
    int left = TOGETHER;
    snprintf(to.sun_path, sizeof to.sun_path, "%s", path);
    for (int at = 0; at < TOGETHER; at++) {
        of[at] = (struct pollfd){socket(AF_UNIX, SOCK_STREAM, 0), POLLIN, 0};
        if (connect(of[at].fd, (struct sockaddr *)&to, sizeof to)) err(1, "%s", path);
    }
    for (int at = 0; at < TOGETHER; at++) left -= (of[at].fd = ask(of[at].fd)) < 0;
    while (left > 0) {
        if (poll(of, TOGETHER, 60000) <= 0) errx(1, "%s: no answer", path);
        for (int at = 0; at < TOGETHER; at++) {
            char answer[512] = "";
            if (of[at].fd < 0 || !of[at].revents) continue;
            /* (an answer is short, so it comes whole) */
            if (read(of[at].fd, answer, sizeof answer - 1) < 0 ||
                strncmp(answer, answer_is, strlen(answer_is))) errx(1, "refused: %s", answer);
            long long sequence = strtoll(answer + strlen(answer_is), NULL, 10);
            if (sequence > last) last = sequence;
            left -= (of[at].fd = ask(of[at].fd)) < 0;
        }
    }
    print(last);
}

static int is(const char *word, const char *other) { return strcmp(word, other) == 0; }

int main(int count, char **words)
{
    const char *what = count > 2 ? words[1] : "", *kind = count > 3 ? words[2] : "";
    int port = count > 3 ? atoi(words[3]) : 0, is_jetstream = is(kind, "jetstream");
    prctl(PR_SET_PDEATHSIG, SIGKILL);
    if (is(what, "session")) {
        own_session();
        execvp(words[2], words + 2);
        err(1, "%s", words[2]);
    }
    if (getenv("PEER_KEYS")) keys = atoi(getenv("PEER_KEYS"));
    if (is(what, "follow") && count > 4) {
        open_notes(words[2]);
        follow(words[3], words + 4);
    } else if (is(what, "observe")) {
        observe(is(kind, "files"), (count - 3) / 2, words + 3);
    } else if (is(what, "sub") && count == 7) {
        own_session();
        open_notes(words[5]);
        open_folder(words[6]);
        notes->process = getpid();
        if (is(kind, "mqtt")) {
            struct mosquitto *it = mqtt_connect(port, words[4]);
            mosquitto_reconnect_delay_set(it, 1, 1, false);
            mosquitto_loop_forever(it, -1, 1);
        } else if (is(kind, "nats")) {
            natsSubscription *sub = NULL;
            natsConnection_Subscribe(&sub, nats_connect(port), "s.>", nats_message, NULL);
            for (;;) pause();
        } else if (is_jetstream) jetstream_watch(port, 0);
        else if (is(kind, "stream")) stream_read(port);
        else redis_subscribe(port);
    } else if (is(what, "pub") && (count == 5 || count == 7)) {
        numbers.each = count == 5;
        if (count == 7) {
            numbers.first = numbers.next = strtoll(words[4], NULL, 10);
            numbers.end = numbers.next + strtoll(words[5], NULL, 10);
            numbers.until = now() + strtoll(words[6], NULL, 10) * 1000000;
        }
        if (is(kind, "folder")) folder_publish(words[3]);
        else if (is(kind, "root")) root_publish(words[3]);
        else if (is(kind, "mqtt")) mqtt_publish(port);
        else if (is(kind, "nats") || is_jetstream) nats_publish(port, is_jetstream);
        else redis_publish(port, is(kind, "stream"));
        if (!numbers.each) print(numbers.next);
    } else if (is(what, "get") && is_jetstream) {
        jetstream_watch(port, 1);
    } else {
        errx(2, "its first comment says which words it takes");
    }
    return 0;
}
