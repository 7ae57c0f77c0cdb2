/*
 * Records what the kernel and a FUSE server say to each other. The command fuse-record loads this into a server of its own accord, or
 * traces one that is linked statically or makes its system calls itself. Such a server may instead include this file in one of its
 * files: it links with -pthread, is started by fuse-record too, and receives and sends each message by
 *
 *     fuse_record(FUSE_RECORD_READ, device, parts, count)      instead of readv(device, parts, count)
 *     fuse_record(FUSE_RECORD_WRITE, device, parts, count)     instead of writev(device, parts, count)
 *
 * Started without fuse-record, these do what readv and writev do. README.md says what is recorded and what is changed.
 */
#ifndef FUSE_RECORD_H
#define FUSE_RECORD_H

#include <endian.h>
#include <errno.h>
#include <fcntl.h>
#include <inttypes.h>
#include <linux/fuse.h>
#include <linux/futex.h>
#include <poll.h>
#include <pthread.h>
#include <signal.h>
#include <stdarg.h>
#include <stdbool.h>
#include <stdint.h>
#include <stdio.h>
#include <stdlib.h>
#include <string.h>
#include <sys/mman.h>
#include <sys/stat.h>
#include <sys/syscall.h>
#include <sys/uio.h>
#include <time.h>
#include <unistd.h>

enum fuse_record_way { FUSE_RECORD_READ, FUSE_RECORD_WRITE };

/*
 * The section by which fuse-record sees that a program has this text in itself, and records without its help. A text of before has
 * an older mark: the one does not tell what is held back from a stream, and serves where there is none; the other writes no times
 * either, and is not handed a capture.
 */
#define FUSE_RECORD_MARK "fuse_record_held"
#define FUSE_RECORD_TIMED_MARK "fuse_record_timed"
#define FUSE_RECORD_OLDER_MARK "fuse_record"
__attribute__((used, section(FUSE_RECORD_MARK))) static const char fuse_record_mark[] = FUSE_RECORD_MARK;

/* How the device is read and written: by system calls, so that a library which is loaded too does not record them again. */
#ifndef FUSE_RECORD_READV
#define FUSE_RECORD_READV(device, parts, count) syscall(SYS_readv, device, parts, count)
#define FUSE_RECORD_WRITEV(device, parts, count) syscall(SYS_writev, device, parts, count)
#endif

/*
 * What a capture begins with, and what a record has before its message: the direction, the time (CLOCK_MONOTONIC, in nanoseconds) but
 * in a plain capture, and the length. Its limits: all bytes but those of times count.
 */
#define FUSE_RECORD_MAGIC "FUSECAP2"
#define FUSE_RECORD_PLAIN_MAGIC "FUSECAP1"
#define FUSE_RECORD_DIRECTION 1u
#define FUSE_RECORD_TIME 8u
#define FUSE_RECORD_LENGTH 4u
#define FUSE_RECORD_HEAD (FUSE_RECORD_DIRECTION + FUSE_RECORD_TIME + FUSE_RECORD_LENGTH)
#define FUSE_RECORD_MAX_BYTES 268435456u
#define FUSE_RECORD_MAX_MESSAGE 2097152u
#define FUSE_RECORD_MAX_MESSAGES 16777216u
/* The longest path of a capture, with its zero byte, and the most parts of a message that are written without a copy. */
#define FUSE_RECORD_PATH 4096
#define FUSE_RECORD_PARTS 16
/* How many requests are kept to tell which one an answer was for that the kernel refused. */
#define FUSE_RECORD_ASKED 4096u
/* How many messages may be held back from a stream at once: each needs a thread that is writing it. */
#define FUSE_RECORD_HELD 1024u
/*
 * Servers made with go-fuse look up a name in their root when they have mounted, and find a file of their own there, which no tree has.
 * What is said of it is left out. How many such nodes may be alive, and how many requests are kept for their answers.
 */
#define FUSE_RECORD_OWN_NAME ".go-fuse-epoll-hack"
#define FUSE_RECORD_OWN_NODES 8u
#define FUSE_RECORD_OWN_REQUESTS 64u

/* Protocol 7.31, and its flags of INIT without the two that this profile refuses. */
#define FUSE_RECORD_MINOR 31u
#define FUSE_RECORD_FLAGS (((1u << 27) - 1) & ~(uint32_t)(FUSE_WRITEBACK_CACHE | FUSE_POSIX_ACL))
/* The bytes of the struct that stands before the name in SETXATTR. */
#define FUSE_RECORD_SETXATTR 8u
/*
 * Servers from this minor on know all requests that the kernel sends to one of minor 31, or may answer them by ENOSYS. BATCH_FORGET is
 * the one that is to have no answer: a server below minor 16, as bazil's for Go, may not know it and answer all the same, and the
 * kernel refuses to take that.
 */
#define FUSE_RECORD_LEAST_MINOR 12u

/* The operations by their numbers. Those up to the last of 7.31 are the server's. */
#define FUSE_RECORD_LAST_OPERATION 47u
static const char *const fuse_record_names[] = {
    [1] = "LOOKUP", [2] = "FORGET", [3] = "GETATTR", [4] = "SETATTR", [5] = "READLINK", [6] = "SYMLINK", [8] = "MKNOD",
    [9] = "MKDIR", [10] = "UNLINK", [11] = "RMDIR", [12] = "RENAME", [13] = "LINK", [14] = "OPEN", [15] = "READ", [16] = "WRITE",
    [17] = "STATFS", [18] = "RELEASE", [20] = "FSYNC", [21] = "SETXATTR", [22] = "GETXATTR", [23] = "LISTXATTR",
    [24] = "REMOVEXATTR", [25] = "FLUSH", [26] = "INIT", [27] = "OPENDIR", [28] = "READDIR", [29] = "RELEASEDIR",
    [30] = "FSYNCDIR", [31] = "GETLK", [32] = "SETLK", [33] = "SETLKW", [34] = "ACCESS", [35] = "CREATE", [36] = "INTERRUPT",
    [37] = "BMAP", [38] = "DESTROY", [39] = "IOCTL", [40] = "POLL", [41] = "NOTIFY_REPLY", [42] = "BATCH_FORGET",
    [43] = "FALLOCATE", [44] = "READDIRPLUS", [45] = "RENAME2", [46] = "LSEEK", [47] = "COPY_FILE_RANGE", [48] = "SETUPMAPPING",
    [49] = "REMOVEMAPPING", [50] = "SYNCFS", [51] = "TMPFILE", [52] = "STATX", [53] = "COPY_FILE_RANGE_64",
};

static const char *fuse_record_name(uint32_t operation)
{
    const size_t known = sizeof fuse_record_names / sizeof *fuse_record_names;
    const char *name = operation < known ? fuse_record_names[operation] : NULL;
    return name ? name : "unknown operation";
}

/* A file that is written to. Its descriptor may be closed by the server, which knows nothing of it. */
struct fuse_record_file {
    char path[FUSE_RECORD_PATH];
    int flags;
    int descriptor;
    dev_t device;
    ino_t inode;
};

/* A request that was recorded, and how many answers to it. */
struct fuse_record_asked {
    uint64_t unique, node;
    uint32_t operation, answers;
};

/* A node that look-ups gave which were left out, and how many of them the kernel has not forgotten; 0 where it is no node. */
struct fuse_record_own_node {
    uint64_t node, lookups;
};

/* A request that was left out. It is kept when it has its answer, for what comes late. */
struct fuse_record_own_request {
    uint64_t unique;
    bool waits, looks_up;
};

/* How far the recording is, in memory that a process shares with those that fork from it. All of it is used under the lock. */
struct fuse_record_progress {
    pthread_mutex_t lock;
    uint64_t length;   /* of the capture up to its last whole record */
    uint32_t messages; /* its records */
    bool ended;        /* nothing is recorded any more */
    uint64_t init;     /* the unique of the INIT that waits for its answer */
    uint32_t minor;    /* of the kernel, as its INIT said */
    struct fuse_record_asked asked[FUSE_RECORD_ASKED]; /* the latest requests, each at a place by its unique */
    struct fuse_record_own_node own_nodes[FUSE_RECORD_OWN_NODES];
    struct fuse_record_own_request own_requests[FUSE_RECORD_OWN_REQUESTS]; /* in turn */
    uint32_t own_turn;
};

/*
 * What fuse-record has to know to hand a capture on while it grows, in memory that it shares with the server. A message that is not
 * written to the device yet may be taken out of the capture: it is held, and nothing is handed on from there.
 */
struct fuse_record_stream {
    uint64_t length;                 /* of the capture up to its last whole record. A record is held before it counts here */
    uint64_t held[FUSE_RECORD_HELD]; /* where the records begin that are held, in no order; 0 where there is none */
    uint32_t sleeps;                 /* fuse-record waits for more: a futex */
};

/* What fuse-record handed over, by the environment. */
static struct {
    char name[FUSE_RECORD_PATH]; /* of the capture, for people. It may be kept elsewhere */
    struct fuse_record_file capture;
    struct fuse_record_file log;
    struct fuse_record_progress *progress; /* NULL: nothing is recorded */
    struct fuse_record_stream *stream;     /* NULL: nothing is handed on */
    uint64_t refused;                      /* the operations that are answered in the server's place, a bit each */
    bool plain;                            /* records have no times */
    bool keeps_init;
    bool keeps_refused;
    bool keeps_own;
} fuse_record_setup;

/* Where a record stands; offset 0 says that there is none. */
struct fuse_record_place {
    uint64_t offset;
    uint32_t message;
    uint64_t *held; /* where a stream has it as held; NULL where it is not */
};

/* Opens a file again where its descriptor is no longer its own, and answers the descriptor, or -1. */
static int fuse_record_descriptor(struct fuse_record_file *file)
{
    struct stat found;
    if (file->descriptor >= 0 && fstat(file->descriptor, &found) == 0 && found.st_dev == file->device &&
        found.st_ino == file->inode)
        return file->descriptor;
    int opened = open(file->path, file->flags | O_CLOEXEC);
    if (opened < 0)
        return file->descriptor = -1;
    /* Not a low number, which a server takes for its own streams. */
    file->descriptor = fcntl(opened, F_DUPFD_CLOEXEC, 100);
    if (file->descriptor < 0)
        file->descriptor = opened;
    else
        close(opened);
    if (fstat(file->descriptor, &found) == 0) {
        file->device = found.st_dev;
        file->inode = found.st_ino;
    }
    return file->descriptor;
}

/*
 * One write, at an offset or where the file is. To pass the limit of a file (RLIMIT_FSIZE), or to write to a pipe that nobody
 * reads, is an error and no signal.
 */
static ssize_t fuse_record_write(int descriptor, const struct iovec *parts, int count, int64_t offset)
{
    sigset_t caught, before;
    sigemptyset(&caught);
    sigaddset(&caught, SIGXFSZ);
    sigaddset(&caught, SIGPIPE);
    pthread_sigmask(SIG_BLOCK, &caught, &before);
    ssize_t written;
    do
        written = offset < 0 ? syscall(SYS_writev, descriptor, parts, count) : pwritev(descriptor, parts, count, (off_t)offset);
    while (written < 0 && errno == EINTR);
    int error = errno, raised = error == EFBIG ? SIGXFSZ : SIGPIPE;
    sigemptyset(&caught);
    sigaddset(&caught, raised);
    if (written < 0 && (error == EFBIG || error == EPIPE) && !sigismember(&before, raised))
        sigtimedwait(&caught, NULL, &(struct timespec){0, 0});
    pthread_sigmask(SIG_SETMASK, &before, NULL);
    errno = error;
    return written;
}

/* Where a process ended while it held the lock, what it had written of a record is taken off. */
static void fuse_record_lock(void)
{
    struct fuse_record_progress *progress = fuse_record_setup.progress;
    if (pthread_mutex_lock(&progress->lock) != EOWNERDEAD)
        return;
    pthread_mutex_consistent(&progress->lock);
    if (ftruncate(fuse_record_descriptor(&fuse_record_setup.capture), (off_t)progress->length) < 0)
        progress->ended = true;
}

static void fuse_record_unlock(void)
{
    pthread_mutex_unlock(&fuse_record_setup.progress->lock);
}

/* Writes one line to the log, at its end. A log that can't be written is no reason to disturb the server. */
__attribute__((format(printf, 1, 2))) static void fuse_record_note(const char *format, ...)
{
    char line[512];
    va_list words;
    va_start(words, format);
    int length = vsnprintf(line, sizeof line - 1, format, words);
    va_end(words);
    if (length < 0)
        return;
    if ((size_t)length > sizeof line - 2)
        length = sizeof line - 2;
    line[length] = '\n';
    struct iovec part = {line, (size_t)length + 1};
    fuse_record_lock();
    fuse_record_write(fuse_record_descriptor(&fuse_record_setup.log), &part, 1, -1);
    fuse_record_unlock();
}

/* Says a line on standard error, where that takes it at once. */
static void fuse_record_say(const char *line)
{
    struct pollfd error = {.fd = STDERR_FILENO, .events = POLLOUT};
    struct iovec part = {(void *)line, strlen(line)};
    if (poll(&error, 1, 0) == 1 && error.revents & POLLOUT)
        fuse_record_write(STDERR_FILENO, &part, 1, -1);
}

/* Says why the recording has ended with this many messages, on standard error and in the log. */
static void fuse_record_tell_end(const char *cause, uint32_t messages)
{
    char line[512];
    snprintf(line, sizeof line, "fuse-record: %.300s: %s: the recording ends with %" PRIu32 " messages\n",
             fuse_record_setup.name, cause, messages);
    fuse_record_say(line);
    fuse_record_note("%s: the recording ends with %" PRIu32 " messages", cause, messages);
}

/* Ends the recording, which tells why if it had not ended before. */
static void fuse_record_stop(const char *cause)
{
    struct fuse_record_progress *progress = fuse_record_setup.progress;
    fuse_record_lock();
    bool ended = progress->ended;
    uint32_t messages = progress->messages;
    progress->ended = true;
    fuse_record_unlock();
    if (!ended)
        fuse_record_tell_end(cause, messages);
}

/* Copies the first bytes of a message from its parts, or back to them. */
static void fuse_record_copy(void *bytes, size_t length, const struct iovec *parts, int count, bool back)
{
    unsigned char *at = bytes;
    for (int i = 0; i < count && length > 0; i++) {
        size_t taken = parts[i].iov_len < length ? parts[i].iov_len : length;
        if (back)
            memcpy(parts[i].iov_base, at, taken);
        else
            memcpy(at, parts[i].iov_base, taken);
        at += taken;
        length -= taken;
    }
}

/* The bytes of so many records' times. */
static uint64_t fuse_record_times(uint64_t messages)
{
    return fuse_record_setup.plain ? 0 : FUSE_RECORD_TIME * messages;
}

/* The bytes of a record before its message. */
static size_t fuse_record_head_size(void)
{
    return FUSE_RECORD_DIRECTION + (size_t)fuse_record_times(1) + FUSE_RECORD_LENGTH;
}

/* Writes what stands before a message of this length, with the time that it is now. */
static void fuse_record_put_head(unsigned char head[FUSE_RECORD_HEAD], enum fuse_record_way way, size_t length)
{
    struct timespec now = {0};
    uint32_t stated = htole32((uint32_t)length);
    head[0] = way == FUSE_RECORD_WRITE;
    if (!fuse_record_setup.plain) {
        clock_gettime(CLOCK_MONOTONIC, &now);
        uint64_t time = htole64((uint64_t)now.tv_sec * 1000000000 + (uint64_t)now.tv_nsec);
        memcpy(head + FUSE_RECORD_DIRECTION, &time, sizeof time);
    }
    memcpy(head + fuse_record_head_size() - sizeof stated, &stated, sizeof stated);
}

/* Wakes fuse-record where it waits for more of the capture. */
static void fuse_record_wake(void)
{
    struct fuse_record_stream *stream = fuse_record_setup.stream;
    if (__atomic_load_n(&stream->sleeps, __ATOMIC_SEQ_CST) != 0 && __atomic_exchange_n(&stream->sleeps, 0, __ATOMIC_SEQ_CST) != 0)
        syscall(SYS_futex, &stream->sleeps, FUTEX_WAKE, 1, NULL, NULL, 0);
}

/* Holds the next record of the capture back from the stream, before it is written. Answers NULL where no more can be. The lock is held. */
static uint64_t *fuse_record_hold(void)
{
    uint64_t *held = fuse_record_setup.stream->held;
    for (size_t i = 0; i < FUSE_RECORD_HELD; i++)
        if (__atomic_load_n(&held[i], __ATOMIC_SEQ_CST) == 0) {
            __atomic_store_n(&held[i], fuse_record_setup.progress->length, __ATOMIC_SEQ_CST);
            return &held[i];
        }
    return NULL;
}

/* Lets a stream have the record at this place, if it was held: it is taken out no more. */
static void fuse_record_let_go(struct fuse_record_place place)
{
    if (!place.held)
        return;
    __atomic_store_n(place.held, 0, __ATOMIC_SEQ_CST);
    fuse_record_wake();
}

/* Adds a record to the capture by one write, or tells why there is none. What was written of it is then taken off. */
static const char *fuse_record_add(const struct iovec *record, int count, size_t length)
{
    struct fuse_record_progress *progress = fuse_record_setup.progress;
    uint64_t messages = progress->messages;
    if (length > fuse_record_head_size() + FUSE_RECORD_MAX_MESSAGE)
        return "a message is longer than a capture may have";
    if (messages == FUSE_RECORD_MAX_MESSAGES ||
        progress->length + length - fuse_record_times(messages + 1) > FUSE_RECORD_MAX_BYTES)
        return "a capture may have no more";
    struct stat found;
    int capture = fuse_record_descriptor(&fuse_record_setup.capture);
    if (capture < 0 || fstat(capture, &found) != 0)
        return strerror(errno);
    if (found.st_size != (off_t)progress->length)
        return "another process has written to it";
    ssize_t written = fuse_record_write(capture, record, count, (int64_t)progress->length);
    if (written == (ssize_t)length) {
        progress->length += length;
        progress->messages++;
        return NULL;
    }
    /* A write that came short tells its cause where it is to go on. */
    struct iovec more = {record->iov_base, 1};
    if (written >= 0)
        written = fuse_record_write(capture, &more, 1, (int64_t)progress->length + written);
    const char *cause = strerror(written < 0 ? errno : EIO);
    return ftruncate(capture, (off_t)progress->length) < 0 ? strerror(errno) : cause;
}

/* Where a request with this unique is kept. An INTERRUPT has that of the request it is to interrupt, but for its last bit. */
static struct fuse_record_asked *fuse_record_asked(uint64_t unique)
{
    return &fuse_record_setup.progress->asked[(unique >> 1) % FUSE_RECORD_ASKED];
}

/* Keeps a request that was recorded, or that one was answered. The lock is held. */
static void fuse_record_follow(enum fuse_record_way way, const struct iovec *parts, int count, size_t length)
{
    struct fuse_in_header request;
    struct fuse_out_header answer;
    if (way == FUSE_RECORD_READ && length >= sizeof request) {
        fuse_record_copy(&request, sizeof request, parts, count, false);
        if (request.opcode != FUSE_INTERRUPT)
            *fuse_record_asked(request.unique) = (struct fuse_record_asked){request.unique, request.nodeid, request.opcode, 0};
    } else if (way == FUSE_RECORD_WRITE && length >= sizeof answer) {
        fuse_record_copy(&answer, sizeof answer, parts, count, false);
        if (fuse_record_asked(answer.unique)->unique == answer.unique)
            fuse_record_asked(answer.unique)->answers++;
    }
}

/* Records the first bytes of the parts as one message, and answers where. */
static struct fuse_record_place fuse_record_parts(enum fuse_record_way way, const struct iovec *parts, int count, size_t length)
{
    unsigned char head[FUSE_RECORD_HEAD];
    struct iovec record[1 + FUSE_RECORD_PARTS] = {{head, fuse_record_head_size()}};
    size_t left = length;
    for (int i = 0; i < count; i++) {
        size_t taken = parts[i].iov_len < left ? parts[i].iov_len : left;
        record[1 + i] = (struct iovec){parts[i].iov_base, taken};
        left -= taken;
    }
    struct fuse_record_progress *progress = fuse_record_setup.progress;
    struct fuse_record_stream *stream = fuse_record_setup.stream;
    bool may_be_refused = stream && way == FUSE_RECORD_WRITE && !fuse_record_setup.keeps_refused;
    const char *cause = NULL;
    fuse_record_lock();
    struct fuse_record_place place = {progress->length, progress->messages, NULL};
    fuse_record_put_head(head, way, length);
    if (!progress->ended && may_be_refused && !(place.held = fuse_record_hold()))
        cause = "too many messages are written at once";
    else if (!progress->ended)
        cause = fuse_record_add(record, 1 + count, record->iov_len + length);
    progress->ended |= cause != NULL;
    if (!progress->ended) {
        fuse_record_follow(way, parts, count, length);
        if (stream)
            __atomic_store_n(&stream->length, progress->length, __ATOMIC_SEQ_CST);
    } else {
        fuse_record_let_go(place);
        place = (struct fuse_record_place){0, place.message, NULL};
    }
    fuse_record_unlock();
    if (stream && !place.held)
        fuse_record_wake();
    if (cause)
        fuse_record_tell_end(cause, place.message);
    return place;
}

/* The same for as many parts as there may be. */
static struct fuse_record_place fuse_record_message(enum fuse_record_way way, const struct iovec *parts, int count, size_t length)
{
    if (count <= FUSE_RECORD_PARTS)
        return fuse_record_parts(way, parts, count, length);
    struct iovec joined = {malloc(length), length};
    if (!joined.iov_base) {
        fuse_record_stop(strerror(ENOMEM));
        return (struct fuse_record_place){0, 0, NULL};
    }
    fuse_record_copy(joined.iov_base, length, parts, count, false);
    struct fuse_record_place place = fuse_record_parts(way, &joined, 1, length);
    free(joined.iov_base);
    return place;
}

/* The node of this number that look-ups gave which were left out, or NULL. The lock is held. */
static struct fuse_record_own_node *fuse_record_own_node(uint64_t node)
{
    struct fuse_record_own_node *nodes = fuse_record_setup.progress->own_nodes;
    for (size_t i = 0; i < FUSE_RECORD_OWN_NODES; i++)
        if (nodes[i].lookups > 0 && nodes[i].node == node)
            return &nodes[i];
    return NULL;
}

/* Adds one look-up of a node that was left out. False where there is no room for the node. The lock is held. */
static bool fuse_record_add_own_node(uint64_t node)
{
    struct fuse_record_own_node *nodes = fuse_record_setup.progress->own_nodes, *place = fuse_record_own_node(node);
    for (size_t i = 0; !place && i < FUSE_RECORD_OWN_NODES; i++)
        if (nodes[i].lookups == 0)
            place = &nodes[i];
    if (place)
        *place = (struct fuse_record_own_node){node, place->lookups + 1};
    return place;
}

/* The request with this unique that was left out, or NULL. The lock is held. */
static struct fuse_record_own_request *fuse_record_own_request(uint64_t unique)
{
    struct fuse_record_own_request *requests = fuse_record_setup.progress->own_requests;
    for (size_t i = 0; unique != 0 && i < FUSE_RECORD_OWN_REQUESTS; i++)
        if (requests[i].unique == unique)
            return &requests[i];
    return NULL;
}

/* Keeps a request that is left out, in the place of one that waits no more. False where all wait. The lock is held. */
static bool fuse_record_add_own_request(uint64_t unique, bool looks_up)
{
    struct fuse_record_progress *progress = fuse_record_setup.progress;
    for (uint32_t tried = 0; tried < FUSE_RECORD_OWN_REQUESTS; tried++) {
        struct fuse_record_own_request *place = &progress->own_requests[progress->own_turn++ % FUSE_RECORD_OWN_REQUESTS];
        if (place->waits)
            continue;
        *place = (struct fuse_record_own_request){unique, true, looks_up};
        return true;
    }
    return false;
}

/*
 * Takes look-ups that the kernel forgets off a node: first those that were left out. Answers the rest, which the recording has. The lock
 * is held.
 */
static uint64_t fuse_record_forget_own(uint64_t node, uint64_t lookups)
{
    struct fuse_record_own_node *own = fuse_record_own_node(node);
    uint64_t taken = !own ? 0 : own->lookups < lookups ? own->lookups : lookups;
    if (own)
        own->lookups -= taken;
    return lookups - taken;
}

/* What of a request is recorded: all, all but what is said of nodes that were left out, or nothing. */
enum fuse_record_share { FUSE_RECORD_WHOLE, FUSE_RECORD_PART, FUSE_RECORD_NOTHING };

/* What of a FORGET is recorded. It is in memory, and becomes what is to be recorded. The lock is held. */
static enum fuse_record_share fuse_record_share_of_forget(struct iovec *message)
{
    struct fuse_in_header header;
    struct fuse_forget_in forget;
    unsigned char *body = (unsigned char *)message->iov_base + sizeof header;
    memcpy(&header, message->iov_base, sizeof header);
    memcpy(&forget, body, sizeof forget);
    uint64_t rest = fuse_record_forget_own(header.nodeid, forget.nlookup);
    if (rest == forget.nlookup)
        return FUSE_RECORD_WHOLE;
    forget.nlookup = rest;
    memcpy(body, &forget, sizeof forget);
    return rest == 0 ? FUSE_RECORD_NOTHING : FUSE_RECORD_PART;
}

/* The same of a BATCH_FORGET. */
static enum fuse_record_share fuse_record_share_of_batch(struct iovec *message)
{
    struct fuse_in_header header;
    struct fuse_batch_forget_in batch;
    struct fuse_forget_one item;
    unsigned char *start = message->iov_base, *const items = start + sizeof header + sizeof batch, *kept = items;
    bool changed = false;
    memcpy(&header, start, sizeof header);
    memcpy(&batch, start + sizeof header, sizeof batch);
    for (const unsigned char *at = items; (size_t)(start + message->iov_len - at) >= sizeof item; at += sizeof item) {
        memcpy(&item, at, sizeof item);
        uint64_t rest = fuse_record_forget_own(item.nodeid, item.nlookup);
        changed |= rest != item.nlookup;
        if (rest == 0 && item.nlookup != 0)
            continue;
        item.nlookup = rest;
        memcpy(kept, &item, sizeof item);
        kept += sizeof item;
    }
    if (!changed)
        return FUSE_RECORD_WHOLE;
    message->iov_len = (size_t)(kept - start);
    header.len = (uint32_t)message->iov_len;
    batch.count = (uint32_t)((size_t)(kept - items) / sizeof item);
    memcpy(start, &header, sizeof header);
    memcpy(start + sizeof header, &batch, sizeof batch);
    return kept == items ? FUSE_RECORD_NOTHING : FUSE_RECORD_PART;
}

/* Whether a request that forgets no node is left out. The lock is held. */
static bool fuse_record_is_own(const struct fuse_in_header *header, const struct iovec *parts, int count, size_t length)
{
    unsigned char start[sizeof *header + sizeof FUSE_RECORD_OWN_NAME] = {0};
    const unsigned char *body = start + sizeof *header;
    uint64_t interrupted;
    fuse_record_copy(start, length < sizeof start ? length : sizeof start, parts, count, false);
    memcpy(&interrupted, body, sizeof interrupted);
    if (header->opcode == FUSE_INTERRUPT)
        return fuse_record_own_request(interrupted);
    bool is_name = length == sizeof start && memcmp(body, FUSE_RECORD_OWN_NAME, sizeof FUSE_RECORD_OWN_NAME) == 0;
    return (header->opcode == FUSE_LOOKUP && header->nodeid == FUSE_ROOT_ID && is_name) || fuse_record_own_node(header->nodeid);
}

/* What of a request is recorded. Of a part the copy has what that is, in memory to be freed. */
static enum fuse_record_share fuse_record_share(const struct fuse_in_header *header, const struct iovec *parts, int count, size_t length,
                                                struct iovec *copy)
{
    enum fuse_record_share share = FUSE_RECORD_WHOLE;
    bool is_forget = header->opcode == FUSE_FORGET, is_batch = header->opcode == FUSE_BATCH_FORGET;
    const char *cause = NULL;
    if (fuse_record_setup.keeps_own)
        return share;
    if ((is_forget || is_batch) && length >= sizeof *header + sizeof(struct fuse_forget_in)) {
        *copy = (struct iovec){malloc(length), length};
        if (copy->iov_base)
            fuse_record_copy(copy->iov_base, length, parts, count, false);
        else
            cause = strerror(ENOMEM);
    }
    fuse_record_lock();
    if (copy->iov_base) {
        share = is_batch ? fuse_record_share_of_batch(copy) : fuse_record_share_of_forget(copy);
    } else if (!is_forget && !is_batch && fuse_record_is_own(header, parts, count, length)) {
        share = FUSE_RECORD_NOTHING;
        bool is_answered = header->opcode != FUSE_INTERRUPT && header->opcode != FUSE_NOTIFY_REPLY;
        if (is_answered && !fuse_record_add_own_request(header->unique, header->opcode == FUSE_LOOKUP))
            cause = "too many requests for go-fuse's own file wait";
    }
    fuse_record_unlock();
    if (cause)
        fuse_record_stop(cause);
    return share;
}

/* Records a request, or what of it is to be recorded, and answers where. Offset 0 stands for nothing. */
static struct fuse_record_place fuse_record_asks(const struct fuse_in_header *header, const struct iovec *parts, int count, size_t length)
{
    struct iovec copy = {NULL, 0};
    struct fuse_record_place place = {0, 0, NULL};
    enum fuse_record_share share = fuse_record_share(header, parts, count, length, &copy);
    if (share == FUSE_RECORD_WHOLE)
        place = fuse_record_message(FUSE_RECORD_READ, parts, count, length);
    else if (share == FUSE_RECORD_PART)
        place = fuse_record_message(FUSE_RECORD_READ, &copy, 1, copy.iov_len);
    free(copy.iov_base);
    if (share == FUSE_RECORD_PART)
        fuse_record_note("message %" PRIu32 ": %s, unique %" PRIu64 ": recorded without what it says of go-fuse's own file",
                         place.message, fuse_record_name(header->opcode), header->unique);
    else if (share == FUSE_RECORD_NOTHING)
        fuse_record_note("%s of node %" PRIu64 ", unique %" PRIu64 ": left out, since it is for go-fuse's own file",
                         fuse_record_name(header->opcode), header->nodeid, header->unique);
    return place;
}

/* Makes an INIT one of 7.31 before the server sees it, and answers its length. */
static size_t fuse_record_show_init(const struct iovec *parts, int count, size_t length)
{
    struct {
        struct fuse_in_header header;
        uint32_t major, minor, max_readahead, flags;
    } init;
    struct fuse_record_progress *progress = fuse_record_setup.progress;
    if (length < sizeof init)
        return length;
    fuse_record_copy(&init, sizeof init, parts, count, false);
    fuse_record_lock();
    progress->init = init.header.unique;
    progress->minor = init.minor;
    fuse_record_unlock();
    if (fuse_record_setup.keeps_init || init.major != FUSE_KERNEL_VERSION || init.minor < FUSE_RECORD_MINOR)
        return length;
    uint32_t minor = init.minor, flags = init.flags;
    init.header.len = sizeof init;
    init.minor = FUSE_RECORD_MINOR;
    init.flags &= FUSE_RECORD_FLAGS;
    fuse_record_copy(&init, sizeof init, parts, count, true);
    fuse_record_note("INIT: minor %" PRIu32 " and flags %08" PRIx32 " shown to the server as minor %u and flags %08" PRIx32, minor,
                     flags, FUSE_RECORD_MINOR, init.flags);
    return sizeof init;
}

/* The answer of INIT, with its header. */
struct fuse_record_init {
    struct fuse_out_header header;
    uint32_t major, minor, max_readahead, flags;
    unsigned char more[48];
};

/* Whether a message with this unique answers the INIT that waits for it, and then the minor of the kernel. It waits no longer. */
static bool fuse_record_answers_init(uint64_t unique, uint32_t *minor)
{
    struct fuse_record_progress *progress = fuse_record_setup.progress;
    fuse_record_lock();
    bool answers = unique != 0 && unique == progress->init;
    *minor = progress->minor;
    if (answers)
        progress->init = 0;
    fuse_record_unlock();
    return answers;
}

/* Makes the answer of INIT one of 7.31 before the kernel, which told its minor, sees it. */
static void fuse_record_cut_init(struct fuse_record_init *answer, uint32_t told)
{
    bool speaks = answer->header.error == 0 && answer->major == FUSE_KERNEL_VERSION && answer->minor >= FUSE_RECORD_LEAST_MINOR;
    if (fuse_record_setup.keeps_init || !speaks || told < FUSE_RECORD_MINOR)
        return;
    uint32_t minor = answer->minor, flags = answer->flags;
    answer->minor = FUSE_RECORD_MINOR;
    answer->flags &= FUSE_RECORD_FLAGS;
    /* What 7.31 has behind the flags: 16 bytes, max_background to map_alignment. */
    memset(answer->more + 16, 0, sizeof answer->more - 16);
    if (minor != answer->minor || flags != answer->flags)
        fuse_record_note("answer of INIT: minor %" PRIu32 " and flags %08" PRIx32 " told to the kernel as minor %u and flags %08" PRIx32,
                         minor, flags, FUSE_RECORD_MINOR, answer->flags);
}

/*
 * Whether the kernel took a message whose write failed: where it refuses only the body of a reply, the request ends with EIO.
 * It does not take a message whose header is malformed (EINVAL) or that no request waits for (ENOENT), nor any on a connection
 * that is gone.
 */
static bool fuse_record_was_taken(const struct fuse_out_header *header, size_t length, int error)
{
    bool reply = header->len == length && header->error <= 0 && header->error > -512;
    bool of_interrupt = header->unique & 1;
    return reply && header->unique != 0 && !of_interrupt && error != ENOENT && error != EPERM && error != ENODEV && error != EBADF;
}

/* What it usually means that the kernel refused a message: the answer to a request that is kept, or NULL. */
static const char *fuse_record_meaning(const struct fuse_out_header *header, size_t length, int error,
                                       const struct fuse_record_asked *asked)
{
    if (header->len != length)
        return "its header tells another length";
    if (header->unique == 0)
        return error == ENOENT ? "the kernel knows nothing of what it names" : "the kernel does not take it";
    if (header->error > 0 || header->error <= -512)
        return "its error is no negative error number";
    if (error != ENOENT)
        return error == EPERM || error == ENODEV ? "the mount is gone" : "the kernel does not say why";
    if (header->unique & 1)
        return "it came too late: the request that was to be interrupted has its answer";
    if (!asked)
        return "no request of late had this unique";
    if (asked->operation == FUSE_FORGET || asked->operation == FUSE_BATCH_FORGET)
        return "this operation is to have no answer";
    return asked->answers > 0 ? "it was answered before" : "the kernel had given the request up, as it does when it unmounts";
}

/*
 * Takes a message out of the capture that the kernel did not take. Others may stand behind it already, so a notification that
 * says nothing to this profile is put in its place, of the same length: the invalidation of an inode.
 */
static void fuse_record_strike(struct fuse_record_place place, const struct fuse_out_header *header, size_t length, int error)
{
    struct fuse_out_header nothing = {.len = (uint32_t)length, .error = FUSE_NOTIFY_INVAL_INODE, .unique = 0};
    struct iovec part = {&nothing, sizeof nothing};
    char what[80] = "an answer";
    fuse_record_lock();
    int capture = fuse_record_descriptor(&fuse_record_setup.capture);
    bool struck = fuse_record_write(capture, &part, 1, (int64_t)(place.offset + fuse_record_head_size())) == sizeof nothing;
    struct fuse_record_asked *kept = fuse_record_asked(header->unique), asked = *kept;
    bool known = header->unique != 0 && asked.unique == (header->unique & ~UINT64_C(1));
    if (known && asked.unique == header->unique && kept->answers > 0)
        asked.answers = --kept->answers;
    fuse_record_unlock();
    if (header->unique == 0)
        snprintf(what, sizeof what, "a notification");
    else if (known)
        snprintf(what, sizeof what, "an answer to %s%s of node %" PRIu64, header->unique & 1 ? "INTERRUPT of " : "",
                 fuse_record_name(asked.operation), asked.node);
    fuse_record_note("message %" PRIu32 ": the kernel refused it (%s): %s, error %" PRId32 ", unique %" PRIu64 ", %zu bytes: %s; %s",
                     place.message, strerror(error), what, header->error, header->unique, length,
                     fuse_record_meaning(header, length, error, known ? &asked : NULL),
                     struck ? "it stands as a notification" : "it stands as it was written");
}

static size_t fuse_record_total(const struct iovec *parts, int count)
{
    size_t total = 0;
    for (int i = 0; i < count; i++)
        total += parts[i].iov_len;
    return total;
}

/* A message from the server that was recorded, and is to be written: its header, its length, and where it stands. */
struct fuse_record_sent {
    struct fuse_out_header header;
    size_t length;
    struct fuse_record_place place;
    bool own_waited;   /* it is what a request waited for that was left out */
    uint64_t own_node; /* the node that it gives to such a look-up; else 0 */
};

/* Whether a message answers a request that was left out, or its INTERRUPT, and is left out too. Takes the node that it gives. */
static bool fuse_record_answers_own(struct fuse_record_sent *sent, const struct iovec *parts, int count)
{
    struct {
        struct fuse_out_header header;
        uint64_t node;
    } answer = {.node = 0};
    bool has_room = true;
    fuse_record_copy(&answer, sent->length < sizeof answer ? sent->length : sizeof answer, parts, count, false);
    fuse_record_lock();
    struct fuse_record_own_request *request = fuse_record_own_request(sent->header.unique & ~UINT64_C(1));
    if (request && request->waits && request->unique == sent->header.unique) {
        request->waits = false;
        sent->own_waited = true;
        if (request->looks_up && sent->header.error == 0 && answer.node > FUSE_ROOT_ID) {
            has_room = fuse_record_add_own_node(answer.node);
            sent->own_node = has_room ? answer.node : 0;
        }
    }
    fuse_record_unlock();
    if (!has_room)
        fuse_record_stop("look-ups of go-fuse's own file gave too many nodes");
    return request;
}

/* Takes back what is kept of such a message, which the kernel did not take. */
static void fuse_record_take_own_back(const struct fuse_record_sent *sent)
{
    fuse_record_lock();
    struct fuse_record_own_request *request = fuse_record_own_request(sent->header.unique);
    if (request)
        request->waits = true;
    fuse_record_forget_own(sent->own_node, 1);
    fuse_record_unlock();
}

/* Records a message from the server before it is written. */
static struct fuse_record_sent fuse_record_before(const struct iovec *parts, int count)
{
    struct fuse_record_sent sent = {.length = fuse_record_total(parts, count)};
    fuse_record_copy(&sent.header, sizeof sent.header, parts, count, false);
    if (fuse_record_answers_own(&sent, parts, count))
        return sent;
    /* The kernel refuses what is shorter than a header. */
    if (sent.length >= sizeof sent.header || fuse_record_setup.keeps_refused)
        sent.place = fuse_record_message(FUSE_RECORD_WRITE, parts, count, sent.length);
    return sent;
}

/* Takes a message out of the capture whose write failed with this error, where the kernel did not take it. */
static void fuse_record_failed(const struct fuse_record_sent *sent, int error)
{
    if (fuse_record_was_taken(&sent->header, sent->length, error))
        return;
    if (sent->own_waited)
        fuse_record_take_own_back(sent);
    if (sent->place.offset != 0 && !fuse_record_setup.keeps_refused)
        fuse_record_strike(sent->place, &sent->header, sent->length, error);
}

/* Takes what came of the write of a message that was recorded: the error with which it failed, or 0. */
static void fuse_record_after(const struct fuse_record_sent *sent, int error)
{
    if (error != 0)
        fuse_record_failed(sent, error);
    fuse_record_let_go(sent->place);
}

/* Records a message from the server, and writes it. A thread is cancelled before both or not at all. */
static ssize_t fuse_record_send(int device, const struct iovec *parts, int count)
{
    struct fuse_record_init init;
    struct iovec cut = {&init, 0};
    struct fuse_out_header header = {0};
    size_t length = fuse_record_total(parts, count);
    uint32_t minor;
    int cancels;
    pthread_testcancel();
    pthread_setcancelstate(PTHREAD_CANCEL_DISABLE, &cancels);
    fuse_record_copy(&header, sizeof header, parts, count, false);
    if (fuse_record_answers_init(header.unique, &minor) && length <= sizeof init) {
        memset(&init, 0, sizeof init);
        fuse_record_copy(&init, length, parts, count, false);
        fuse_record_cut_init(&init, minor);
        cut.iov_len = length;
        parts = &cut;
        count = 1;
    }
    struct fuse_record_sent sent = fuse_record_before(parts, count);
    ssize_t written = FUSE_RECORD_WRITEV(device, parts, count);
    int error = errno;
    fuse_record_after(&sent, written < 0 ? error : 0);
    pthread_setcancelstate(cancels, NULL);
    errno = error;
    return written;
}

/*
 * The name of the extended attribute that a request sets, where that is an access control list: setting one sets the permission
 * bits too, as of files that are made below a default one, and this profile takes SETXATTR as without effect. Else NULL.
 */
static const char *fuse_record_list_set(const struct fuse_in_header *header, const struct iovec *parts, int count, size_t length)
{
    static const char *const lists[] = {"system.posix_acl_access", "system.posix_acl_default"};
    char request[sizeof *header + FUSE_RECORD_SETXATTR + sizeof "system.posix_acl_default" + 1] = "";
    if (header->opcode != FUSE_SETXATTR)
        return NULL;
    fuse_record_copy(request, length < sizeof request ? length : sizeof request - 1, parts, count, false);
    for (size_t i = 0; i < sizeof lists / sizeof *lists; i++)
        if (strcmp(request + sizeof *header + FUSE_RECORD_SETXATTR, lists[i]) == 0)
            return lists[i];
    return NULL;
}

/* Records a request that was read, unless it is left out, and says whether it is answered here, so that the server does not see it. */
static bool fuse_record_request(int device, const struct iovec *parts, int count, size_t *length)
{
    struct fuse_in_header header;
    fuse_record_copy(&header, sizeof header, parts, count, false);
    struct fuse_out_header answer = {.len = sizeof answer, .error = -ENOSYS, .unique = header.unique};
    struct iovec part = {&answer, sizeof answer};
    if (header.opcode > FUSE_RECORD_LAST_OPERATION) {
        fuse_record_note("%s (operation %" PRIu32 "), unique %" PRIu64 ": answered ENOSYS, not recorded",
                         fuse_record_name(header.opcode), header.opcode, header.unique);
        FUSE_RECORD_WRITEV(device, &part, 1);
        return true;
    }
    if (header.opcode == FUSE_INIT)
        *length = fuse_record_show_init(parts, count, *length);
    struct fuse_record_place place = fuse_record_asks(&header, parts, count, *length);
    bool refused = fuse_record_setup.refused >> header.opcode & 1;
    const char *list = refused ? NULL : fuse_record_list_set(&header, parts, count, *length);
    if (!refused && !list)
        return false;
    if (list)
        answer.error = -EOPNOTSUPP;
    char where[24] = "";
    if (place.offset != 0)
        snprintf(where, sizeof where, "message %" PRIu32 ": ", place.message);
    fuse_record_note("%s%s%s%s, unique %" PRIu64 ": answered %s in the server's place", where, fuse_record_name(header.opcode),
                     list ? " of " : "", list ? list : "", header.unique, list ? "EOPNOTSUPP" : "ENOSYS");
    fuse_record_send(device, &part, 1);
    return true;
}

/* Reads a request that is not answered here. The read itself may cancel the thread, and nothing behind it. */
static ssize_t fuse_record_receive(int device, const struct iovec *parts, int count)
{
    for (;;) {
        ssize_t got = FUSE_RECORD_READV(device, parts, count);
        if (got < (ssize_t)sizeof(struct fuse_in_header))
            return got;
        int error = errno, cancels;
        size_t length = (size_t)got;
        pthread_setcancelstate(PTHREAD_CANCEL_DISABLE, &cancels);
        bool answered = fuse_record_request(device, parts, count, &length);
        pthread_setcancelstate(cancels, NULL);
        errno = error;
        if (!answered)
            return (ssize_t)length;
    }
}

/*
 * Does what readv or writev does on a descriptor of the FUSE device, and records the message: a request before the caller sees it,
 * a message from the server before it is written. It answers what readv or writev answered, with errno as they set it.
 */
__attribute__((unused)) static ssize_t fuse_record(enum fuse_record_way way, int device, const struct iovec *parts, int count)
{
    if (way == FUSE_RECORD_READ)
        return fuse_record_setup.progress ? fuse_record_receive(device, parts, count) : FUSE_RECORD_READV(device, parts, count);
    return fuse_record_setup.progress ? fuse_record_send(device, parts, count) : FUSE_RECORD_WRITEV(device, parts, count);
}

/* Opens a file by its path, which is absolute. */
static void fuse_record_open(struct fuse_record_file *file, int flags, const char *path, const char *ending)
{
    snprintf(file->path, sizeof file->path, "%s%s", path, ending);
    file->flags = flags;
    file->descriptor = -1;
    fuse_record_descriptor(file);
}

/* Maps the memory that is shared with fuse-record for a stream; MAP_FAILED where that fails. */
static struct fuse_record_stream *fuse_record_map_stream(const char *path)
{
    int memory = open(path, O_RDWR | O_CLOEXEC);
    if (memory < 0)
        return MAP_FAILED;
    struct fuse_record_stream *stream = mmap(NULL, sizeof *stream, PROT_READ | PROT_WRITE, MAP_SHARED, memory, 0);
    int error = errno;
    close(memory);
    errno = error;
    return stream;
}

/* Takes what fuse-record handed over before the server begins, and mounts anything above these files. */
__attribute__((constructor)) static void fuse_record_begin(void)
{
    const char *path = getenv("FUSE_RECORD_CAPTURE"), *refused = getenv("FUSE_RECORD_REFUSE");
    const char *kept = getenv("FUSE_RECORD_KEPT"), *memory = getenv("FUSE_RECORD_STREAM");
    if (!path)
        return;
    struct fuse_record_stream *stream = memory ? fuse_record_map_stream(memory) : NULL;
    struct fuse_record_progress *progress =
        stream == MAP_FAILED ? MAP_FAILED : mmap(NULL, sizeof *progress, PROT_READ | PROT_WRITE, MAP_SHARED | MAP_ANONYMOUS, -1, 0);
    if (progress == MAP_FAILED) {
        dprintf(STDERR_FILENO, "fuse-record: nothing is recorded: %s\n", strerror(errno));
        return;
    }
    pthread_mutexattr_t shared;
    pthread_mutexattr_init(&shared);
    pthread_mutexattr_setpshared(&shared, PTHREAD_PROCESS_SHARED);
    pthread_mutexattr_setrobust(&shared, PTHREAD_MUTEX_ROBUST);
    pthread_mutex_init(&progress->lock, &shared);
    pthread_mutexattr_destroy(&shared);
    progress->length = sizeof FUSE_RECORD_MAGIC - 1;
    snprintf(fuse_record_setup.name, sizeof fuse_record_setup.name, "%s", path);
    fuse_record_open(&fuse_record_setup.capture, O_WRONLY, kept ? kept : path, "");
    fuse_record_open(&fuse_record_setup.log, O_WRONLY | O_APPEND, path, ".log");
    fuse_record_setup.refused = refused ? strtoull(refused, NULL, 16) : 0;
    fuse_record_setup.plain = getenv("FUSE_RECORD_PLAIN");
    fuse_record_setup.keeps_init = getenv("FUSE_RECORD_KEEP_INIT");
    fuse_record_setup.keeps_refused = getenv("FUSE_RECORD_KEEP_REFUSED");
    fuse_record_setup.keeps_own = getenv("FUSE_RECORD_KEEP_OWN");
    fuse_record_setup.stream = stream;
    fuse_record_setup.progress = progress;
}

#endif
