/* fuse-record.so: records what a server that loads it reads from and writes to the FUSE device. */
#define _GNU_SOURCE
#include <dlfcn.h>
#include <fcntl.h>
#include <sys/ioctl.h>
#include <sys/stat.h>
#include <sys/sysmacros.h>
#include <sys/uio.h>
#include <unistd.h>

/* The calls of the C library that stand behind those of this file. They are where a thread may be cancelled. */
static struct {
    ssize_t (*read)(int, void *, size_t);
    ssize_t (*readv)(int, const struct iovec *, int);
    ssize_t (*write)(int, const void *, size_t);
    ssize_t (*writev)(int, const struct iovec *, int);
    ssize_t (*splice)(int, off64_t *, int, off64_t *, size_t, unsigned int);
} next;

#define FUSE_RECORD_READV(device, parts, count) next.readv(device, parts, count)
#define FUSE_RECORD_WRITEV(device, parts, count) next.writev(device, parts, count)
#include "fuse-record.h"

/* Finds the calls behind: before all else, or at the first call of a library that begins earlier. */
__attribute__((constructor(101))) static void find_next(void)
{
    *(void **)&next.read = dlsym(RTLD_NEXT, "read");
    *(void **)&next.readv = dlsym(RTLD_NEXT, "readv");
    *(void **)&next.write = dlsym(RTLD_NEXT, "write");
    *(void **)&next.writev = dlsym(RTLD_NEXT, "writev");
    *(void **)&next.splice = dlsym(RTLD_NEXT, "splice");
}

/* Whether a descriptor is one of the FUSE device, opened by the server, handed to it, or a clone. */
static bool is_device(int descriptor)
{
    struct stat found;
    if (!next.splice)
        find_next();
    return fuse_record_setup.progress && fstat(descriptor, &found) == 0 && S_ISCHR(found.st_mode) &&
           found.st_rdev == makedev(10, 229);
}

ssize_t read(int descriptor, void *bytes, size_t size)
{
    struct iovec part = {bytes, size};
    return is_device(descriptor) ? fuse_record(FUSE_RECORD_READ, descriptor, &part, 1) : next.read(descriptor, bytes, size);
}

/* The call that a compiler makes of read where it knows the size of the memory. */
ssize_t __read_chk(int descriptor, void *bytes, size_t size, size_t room);
ssize_t __read_chk(int descriptor, void *bytes, size_t size, size_t room)
{
    if (size > room)
        abort();
    return read(descriptor, bytes, size);
}

ssize_t readv(int descriptor, const struct iovec *parts, int count)
{
    return is_device(descriptor) ? fuse_record(FUSE_RECORD_READ, descriptor, parts, count) : next.readv(descriptor, parts, count);
}

ssize_t write(int descriptor, const void *bytes, size_t size)
{
    struct iovec part = {(void *)bytes, size};
    return is_device(descriptor) ? fuse_record(FUSE_RECORD_WRITE, descriptor, &part, 1) : next.write(descriptor, bytes, size);
}

ssize_t writev(int descriptor, const struct iovec *parts, int count)
{
    return is_device(descriptor) ? fuse_record(FUSE_RECORD_WRITE, descriptor, parts, count) : next.writev(descriptor, parts, count);
}

/* Reads a request and puts it into a pipe that has room for it, as splice does. */
static ssize_t request_to_pipe(int device, int pipe, size_t room)
{
    struct iovec part = {malloc(room), room};
    ssize_t got = -1;
    if (!part.iov_base)
        return -1;
    pthread_cleanup_push(free, part.iov_base);
    got = fuse_record(FUSE_RECORD_READ, device, &part, 1);
    if (got > 0)
        got = next.write(pipe, part.iov_base, (size_t)got);
    pthread_cleanup_pop(1);
    return got;
}

/* Takes a message that waits in a pipe, and writes it. */
static ssize_t message_from_pipe(int pipe, int device, size_t size)
{
    struct iovec part = {malloc(size), 0};
    ssize_t got = -1;
    if (!part.iov_base)
        return -1;
    pthread_cleanup_push(free, part.iov_base);
    do {
        got = next.read(pipe, (char *)part.iov_base + part.iov_len, size - part.iov_len);
        part.iov_len += got > 0 ? (size_t)got : 0;
    } while (got > 0 && part.iov_len < size);
    if (part.iov_len == size)
        got = fuse_record(FUSE_RECORD_WRITE, device, &part, 1);
    pthread_cleanup_pop(1);
    return got;
}

/* A message that is spliced goes through memory, so that all of it is recorded. What the kernel refuses is left to it. */
ssize_t splice(int from, off64_t *from_offset, int to, off64_t *to_offset, size_t size, unsigned int flags)
{
    int waiting = 0;
    if (!from_offset && !to_offset && size > 0) {
        int room = is_device(from) ? fcntl(to, F_GETPIPE_SZ) : -1;
        if (room > 0)
            return request_to_pipe(from, to, size < (size_t)room ? size : (size_t)room);
        if (is_device(to) && fcntl(from, F_GETPIPE_SZ) > 0 && ioctl(from, FIONREAD, &waiting) == 0 && (size_t)waiting >= size)
            return message_from_pipe(from, to, size);
    }
    if (!next.splice)
        find_next();
    return next.splice(from, from_offset, to, to_offset, size, flags);
}
