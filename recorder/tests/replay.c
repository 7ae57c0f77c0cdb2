/*
 * The device and a server that are made up, for tests: replay FILE [SEEN [WAIT]]. It has the recorder's header in itself, and is started
 * by fuse-record. FILE is a capture without times: its requests are what the device gives, its other messages what the server writes.
 * SEEN becomes a capture of what the server was shown and what it or the recorder handed to the device, which refuses, as the kernel
 * does, an answer to a request that does not wait for one, and takes so many milliseconds for that.
 */
#include <stddef.h>
#include <stdio.h>
#include <sys/types.h>
#include <sys/uio.h>

static ssize_t device_gives(const struct iovec *parts, int count);
static ssize_t device_takes(const struct iovec *parts, int count);
#define FUSE_RECORD_READV(device, parts, count) ((void)(device), device_gives(parts, count))
#define FUSE_RECORD_WRITEV(device, parts, count) ((void)(device), device_takes(parts, count))
#include "../fuse-record.h"

enum { HEAD = 5, MOST_WAITING = 256 };

struct record {
    bool is_there;
    bool from_server;
    size_t length;
    unsigned char bytes[FUSE_RECORD_MAX_MESSAGE];
};

static FILE *given, *seen;
static unsigned refusal_takes; /* milliseconds */
static struct record next;
static uint64_t waiting[MOST_WAITING]; /* uniques; 0 where there is none */

/* Reads the next record. */
static void advance(void)
{
    unsigned char head[HEAD];
    uint32_t stated;
    next.is_there = fread(head, sizeof head, 1, given) == 1;
    if (!next.is_there)
        return;
    memcpy(&stated, head + 1, sizeof stated);
    next.from_server = head[0] != 0;
    next.length = le32toh(stated);
    next.is_there = next.length <= sizeof next.bytes && fread(next.bytes, 1, next.length, given) == next.length;
}

static void note(bool from_server, const void *bytes, size_t length)
{
    unsigned char head[HEAD] = {from_server};
    uint32_t stated = htole32((uint32_t)length);
    memcpy(head + 1, &stated, sizeof stated);
    if (seen && (fwrite(head, sizeof head, 1, seen) != 1 || fwrite(bytes, 1, length, seen) != length))
        abort();
}

/* Where a request with this unique waits, or a free place by unique 0; NULL where there is none. */
static uint64_t *place_of(uint64_t unique)
{
    for (size_t i = 0; i < MOST_WAITING; i++)
        if (waiting[i] == unique)
            return &waiting[i];
    return NULL;
}

/* The next request, or nothing where a message of the server comes first. */
static ssize_t device_gives(const struct iovec *parts, int count)
{
    struct fuse_in_header header;
    if (!next.is_there || next.from_server)
        return 0;
    memcpy(&header, next.bytes, sizeof header);
    if (header.opcode != FUSE_FORGET && header.opcode != FUSE_BATCH_FORGET && header.opcode != FUSE_INTERRUPT && place_of(0))
        *place_of(0) = header.unique;
    ssize_t length = (ssize_t)next.length;
    fuse_record_copy(next.bytes, next.length, parts, count, true);
    advance();
    return length;
}

static ssize_t device_takes(const struct iovec *parts, int count)
{
    static unsigned char bytes[FUSE_RECORD_MAX_MESSAGE];
    struct fuse_out_header header;
    size_t length = fuse_record_total(parts, count);
    fuse_record_copy(bytes, length, parts, count, false);
    memcpy(&header, bytes, sizeof header);
    bool of_interrupt = header.unique & 1;
    uint64_t *place = place_of(header.unique - of_interrupt);
    note(true, bytes, length);
    if (header.unique != 0 && !place) {
        usleep(refusal_takes * 1000);
        errno = ENOENT;
        return -1;
    }
    if (header.unique != 0 && !of_interrupt)
        *place = 0;
    return (ssize_t)length;
}

/* The server's message, in two parts. */
static void send_next(void)
{
    static unsigned char bytes[sizeof next.bytes];
    size_t length = next.length, first = length < sizeof(struct fuse_out_header) ? length : sizeof(struct fuse_out_header);
    struct iovec parts[] = {{bytes, first}, {bytes + first, length - first}};
    memcpy(bytes, next.bytes, length);
    advance();
    fuse_record(FUSE_RECORD_WRITE, -1, parts, 2);
}

int main(int count, char **words)
{
    static unsigned char shown[sizeof next.bytes];
    char magic[sizeof FUSE_RECORD_PLAIN_MAGIC] = "";
    given = count > 1 ? fopen(words[1], "r") : NULL;
    seen = count > 2 ? fopen(words[2], "w") : NULL;
    refusal_takes = count > 3 ? (unsigned)strtoul(words[3], NULL, 10) : 0;
    if (!given || fread(magic, sizeof magic - 1, 1, given) != 1 || strcmp(magic, FUSE_RECORD_PLAIN_MAGIC) != 0)
        return 2;
    if (seen)
        fputs(magic, seen);
    for (advance(); next.is_there;) {
        if (next.from_server) {
            send_next();
            continue;
        }
        struct iovec all = {shown, sizeof shown};
        ssize_t size = fuse_record(FUSE_RECORD_READ, -1, &all, 1);
        if (size > 0)
            note(false, shown, (size_t)size);
    }
    return seen && fclose(seen) != 0 ? 1 : 0;
}
