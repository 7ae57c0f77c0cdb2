/*
 * Hands a capture on to a pipe while it is recorded. The server writes it to a file, as it does without a stream, so it never waits for
 * who reads the pipe; a thread of fuse-record copies the file, up to the first message that may still be taken out of it.
 */
#define _GNU_SOURCE
#include "fuse-record.h"
#include "stream.h"

/* How many bytes are given back at once. */
enum { GIVEN_BACK = 1 << 20 };

static struct {
    struct stream_setup setup;
    pthread_t thread;
    bool over;         /* nothing is added to the capture any more. This and the next two are of both threads */
    bool given_up;     /* nobody waits for the pipe any more */
    bool has_ended;    /* the thread has */
    bool takes;        /* the pipe does */
    uint64_t seen;     /* bytes of the capture */
    uint64_t freed;    /* and of these that were given back */
    uint32_t messages; /* that were written whole */
} stream;

/* What was read of the capture and is handed on: each record has room. */
static unsigned char bytes[FUSE_RECORD_HEAD + FUSE_RECORD_MAX_MESSAGE];

int stream_make(void)
{
    int memory = memfd_create("fuse-record", MFD_CLOEXEC);
    if (memory < 0 || ftruncate(memory, sizeof(struct fuse_record_stream)) != 0)
        return -1;
    struct fuse_record_stream *shared = mmap(NULL, sizeof *shared, PROT_READ | PROT_WRITE, MAP_SHARED, memory, 0);
    if (shared == MAP_FAILED)
        return -1;
    shared->length = sizeof FUSE_RECORD_MAGIC - 1;
    fuse_record_setup.stream = shared;
    return memory;
}

/* How many bytes of the capture are as they stay. What is held is looked at behind the length, for it was noted before. */
static uint64_t settled(void)
{
    const struct fuse_record_stream *shared = fuse_record_setup.stream;
    uint64_t length = __atomic_load_n(&shared->length, __ATOMIC_SEQ_CST);
    for (size_t i = 0; i < FUSE_RECORD_HELD; i++) {
        uint64_t held = __atomic_load_n(&shared->held[i], __ATOMIC_SEQ_CST);
        if (held != 0 && held < length)
            length = held;
    }
    return length;
}

/* The bytes of the whole records that these begin with, and how many they are. They are told where they are new. */
static size_t whole_records(size_t length, bool are_new, uint32_t *records)
{
    const size_t head = stream.setup.head;
    size_t at = 0;
    for (*records = 0; length - at >= head; (*records)++) {
        uint32_t stated;
        memcpy(&stated, bytes + at + head - sizeof stated, sizeof stated);
        size_t message = le32toh(stated);
        if (message > length - at - head)
            break;
        if (are_new)
            stream.setup.seen(bytes[at], bytes + at + head, message);
        at += head + message;
    }
    return at;
}

/* Writes bytes to the pipe as it takes them, and answers how many it took. */
static size_t put(size_t length)
{
    struct pollfd room = {.fd = stream.setup.pipe, .events = POLLOUT};
    const char *cause = NULL;
    size_t taken = 0;
    while (stream.takes && taken < length && !cause) {
        struct iovec part = {bytes + taken, length - taken};
        ssize_t written = fuse_record_write(stream.setup.pipe, &part, 1, -1);
        if (written >= 0)
            taken += (size_t)written;
        else if (errno != EAGAIN)
            cause = errno == EPIPE ? "its reader went away" : strerror(errno);
        else if (__atomic_load_n(&stream.given_up, __ATOMIC_SEQ_CST))
            cause = "a signal came before its reader took all";
        else
            poll(&room, 1, 100);
    }
    if (cause) {
        uint32_t more;
        whole_records(taken, false, &more);
        stream.takes = false;
        stream.setup.left(cause, stream.messages + more);
    }
    return taken;
}

/* Gives back what was handed on of a capture that is not kept. Where its file system can't, the file has all of it to the end. */
static void give_back(void)
{
    if (stream.setup.is_kept || stream.seen - stream.freed < GIVEN_BACK)
        return;
    fallocate(stream.setup.capture, FALLOC_FL_PUNCH_HOLE | FALLOC_FL_KEEP_SIZE, (off_t)stream.freed, (off_t)(stream.seen - stream.freed));
    stream.freed = stream.seen;
}

/* Hands on what the capture has up to an offset, as much as there is room for. Answers whether it was a record. */
static bool hand_on(uint64_t limit)
{
    uint64_t more = limit > stream.seen ? limit - stream.seen : 0;
    ssize_t got = pread(stream.setup.capture, bytes, more < sizeof bytes ? (size_t)more : sizeof bytes, (off_t)stream.seen);
    uint32_t records, written;
    size_t whole = got > 0 ? whole_records((size_t)got, true, &records) : 0;
    if (whole == 0)
        return false;
    whole_records(put(whole), false, &written);
    stream.messages += written;
    stream.seen += whole;
    give_back();
    return true;
}

/* What a capture begins with. */
static void hand_start_on(void)
{
    stream.seen = sizeof FUSE_RECORD_MAGIC - 1;
    if (pread(stream.setup.capture, bytes, stream.seen, 0) == (ssize_t)stream.seen)
        put(stream.seen);
}

/* Waits until there is more, or a second is over. What comes within the next millisecond is handed on with it. */
static void await_more(void)
{
    const struct timespec second = {1, 0}, moment = {0, 1000000};
    uint32_t *sleeps = &fuse_record_setup.stream->sleeps;
    __atomic_store_n(sleeps, 1, __ATOMIC_SEQ_CST);
    if (settled() <= stream.seen && !__atomic_load_n(&stream.over, __ATOMIC_SEQ_CST))
        syscall(SYS_futex, sleeps, FUTEX_WAIT, 1, &second, NULL, 0);
    __atomic_store_n(sleeps, 0, __ATOMIC_SEQ_CST);
    if (!__atomic_load_n(&stream.over, __ATOMIC_SEQ_CST))
        nanosleep(&moment, NULL);
}

static void *run(void *nothing)
{
    struct stat found;
    hand_start_on();
    for (;;) {
        bool over = __atomic_load_n(&stream.over, __ATOMIC_SEQ_CST);
        uint64_t end = over && fstat(stream.setup.capture, &found) == 0 ? (uint64_t)found.st_size : settled();
        if (hand_on(end))
            continue;
        if (over)
            break;
        await_more();
    }
    close(stream.setup.pipe);
    __atomic_store_n(&stream.has_ended, true, __ATOMIC_SEQ_CST);
    return nothing;
}

int stream_start(const struct stream_setup *setup)
{
    stream.setup = *setup;
    stream.takes = true;
    return pthread_create(&stream.thread, NULL, run, NULL);
}

bool stream_end(const sigset_t *signals, uint32_t *messages)
{
    const struct timespec moment = {0, 10000000};
    __atomic_store_n(&stream.over, true, __ATOMIC_SEQ_CST);
    fuse_record_wake();
    while (!__atomic_load_n(&stream.has_ended, __ATOMIC_SEQ_CST)) {
        int signal = sigtimedwait(signals, NULL, &moment);
        if (signal > 0 && signal != SIGCHLD && signal != SIGRTMIN)
            __atomic_store_n(&stream.given_up, true, __ATOMIC_SEQ_CST);
    }
    pthread_join(stream.thread, NULL);
    *messages = stream.messages;
    return stream.takes;
}
