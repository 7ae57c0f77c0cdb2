/*
 * A file system in memory, for tests. It talks to /dev/fuse itself, with the C library alone, and answers each request
 * before it reads the next, unless several threads read. Each of its replies is one that the model of docs/model.md allows, unless an option plants
 * a bug. Compiled with WITH_HEADER it hands its messages to fuse-record.h, and with WITH_SPLICE it splices them.
 *
 * usage: memory [options] MOUNTPOINT
 *
 *   --timeout SECONDS     how long the kernel may keep names and attributes; without it, it asks each time
 *   --threads N           so many threads read requests; what one of them asks takes effect and is answered at once
 *   --deny NAME           a bug: a LOOKUP that would find NAME does so once, and from then on says ENOENT
 *   --answer-twice NAME   a bug: the answer to a LOOKUP of NAME is written twice
 *   --answer-short NAME   a bug: the success of a LOOKUP of NAME lacks its last bytes
 *   --answer-forget       a bug: FORGET and BATCH_FORGET are answered
 *   --bug NAME            one of the bugs below
 *   --die-at N            ends by SIGKILL when a request with this opcode was read, before it is answered
 *   --die-after N         ends by SIGKILL when the N-th request was read, before it is answered
 *   --hang-after N        stands still from when the N-th request was read
 *
 * It serves until it is unmounted, or SIGTERM or SIGINT comes, and then ends with status 0.
 */
#define _GNU_SOURCE
#include <errno.h>
#include <fcntl.h>
#include <getopt.h>
#include <limits.h>
#include <linux/fuse.h>
#include <pthread.h>
#include <signal.h>
#include <stdbool.h>
#include <stddef.h>
#include <stdint.h>
#include <stdio.h>
#include <stdlib.h>
#include <string.h>
#include <sys/mman.h>
#include <sys/mount.h>
#include <sys/stat.h>
#include <sys/uio.h>
#include <time.h>
#include <unistd.h>
#ifdef WITH_HEADER
#include "../fuse-record.h"
#endif

#define MOST_BYTES (UINT64_C(1) << 40) /* of a file: the limit of the model */

enum {
    MOST_ALLOCATED = 16777216,     /* more bytes of a file are mapped, so that those that nobody writes take no memory */
    MOST_WRITTEN = 131072,         /* by one WRITE, and listed by one READDIR */
    MESSAGE_ROOM = 1048576 + 4096, /* more than the kernel ever sends at once */
    MODE_BITS = 07777,
};

/* Offsets in a directory: those of its first two entries. Names have the numbers above. */
enum { COOKIE_OF_SELF = 1, COOKIE_OF_PARENT = 2 };

/* What an operation returns to which no answer may be sent. All others return 0 or an error number. */
enum { NO_ANSWER = -1 };

struct entry {
    uint64_t cookie; /* its offset in listings: never used again in this directory */
    struct file *file;
    char *name;
};

struct file {
    uint64_t number; /* its node id, never that of another file */
    uint32_t mode, uid, gid, device;
    struct timespec accessed, modified, changed;

    /* It is kept while one of these is above 0: entries that stand for it (and 1 for the root), lookups, handles. */
    uint64_t names, lookups, opens;

    /* of a regular file, and the target of a symbolic link */
    char *bytes;
    size_t size, room;

    /* of a regular file, for planted bugs */
    struct overwritten {
        uint64_t handle, offset;
        size_t size;
        char *bytes;
    } overwritten;         /* what its last WRITE took the place of */
    uint64_t size_before;  /* its last truncation */
    bool is_to_be_emptied; /* by an OPEN that was answered */

    /* of a directory: its entries by rising cookies */
    struct entry *entries;
    size_t entry_count, entry_room;
    uint64_t last_cookie;
    uint64_t subdirectories;
    uint64_t parent; /* a number, since that file may go before this one */
};

struct request {
    struct fuse_in_header header;
    struct file *file; /* of the header's node */
    union {
        struct fuse_forget_in forget;
        struct fuse_batch_forget_in batch_forget;
        struct fuse_setattr_in setattr;
        struct fuse_mknod_in mknod;
        struct fuse_mkdir_in mkdir;
        struct fuse_rename_in rename;
        struct fuse_rename2_in rename2;
        struct fuse_link_in link;
        struct fuse_open_in open;
        struct fuse_read_in read;
        struct fuse_write_in write;
        struct fuse_init_in init;
        struct fuse_create_in create;
    } asked;
    const char *name, *second_text; /* the new name of RENAME and RENAME2, the target of SYMLINK */
    const char *rest;               /* what is behind these */
    size_t left;

    int times;    /* how often it is answered */
    void *answer; /* the body of a success; small ones are made in the union */
    size_t answer_size;
    union {
        struct fuse_entry_out entry;
        struct fuse_attr_out attributes;
        struct fuse_open_out opened;
        struct fuse_write_out written;
        struct fuse_statfs_out system;
        struct fuse_init_out init;
        struct {
            struct fuse_entry_out entry;
            struct fuse_open_out opened;
        } created;
    } body;
};

enum bug {
    NO_BUG,
    LOST_WRITE, CUT_WRITE, SHORT_READ, READ_PAST_END, OLD_HOLE,
    STALE_SIZE, LATE_TRUNCATION, LOST_MODE, LINK_COUNT,
    DENIED_NAME, OLD_NAME_STAYS, RENAME_OVER_OPEN, EXCHANGE_LEAVES_PARENTS, RMDIR_OF_FULL,
    SKIPPED_NAME, NAME_TWICE,
    LOOKUP_COUNT, NODE_AGAIN,
    ANSWERED_TWICE, OTHER_UNIQUE,
};

static const struct {
    const char *name, *meaning;
} bugs[] = {
    [LOST_WRITE] = {"lost-write", "a WRITE puts back the bytes that the last WRITE, by another handle, took the place of"},
    [CUT_WRITE] = {"cut-write", "a WRITE across the edge of a page ends there, and is answered as whole"},
    [SHORT_READ] = {"short-read", "a READ gives no more than a page"},
    [READ_PAST_END] = {"read-past-end", "a READ across the end of the file gives as many bytes as were asked for"},
    [OLD_HOLE] = {"old-hole", "a file that is cut and made longer has its old bytes again"},
    [STALE_SIZE] = {"stale-size", "the first LOOKUP after a truncation tells the size from before"},
    [LATE_TRUNCATION] = {"late-truncation", "O_TRUNC of an OPEN empties the file at its next WRITE or RELEASE"},
    [LOST_MODE] = {"lost-mode", "SETATTR answers the new permission bits, and does not keep them"},
    [LINK_COUNT] = {"link-count", "the answer to LINK tells one name too few"},
    [DENIED_NAME] = {"denied-name", "each 40th LOOKUP of a name that is there says ENOENT"},
    [OLD_NAME_STAYS] = {"old-name-stays", "a file that is moved to another directory keeps its old name too"},
    [RENAME_OVER_OPEN] = {"rename-over-open", "an open file whose name goes to another one is emptied"},
    [EXCHANGE_LEAVES_PARENTS] = {"exchange-leaves-parents", "an exchange over two directories swaps the names, and each file stays in its own"},
    [RMDIR_OF_FULL] = {"rmdir-of-full", "RMDIR of a directory that is not empty succeeds"},
    [SKIPPED_NAME] = {"skipped-name", "offsets of listings are places, so one that goes takes another along"},
    [NAME_TWICE] = {"name-twice", "the same, and new names come first, so one is listed again"},
    [LOOKUP_COUNT] = {"lookup-count", "an answer to CREATE does not count as a lookup, and a number is used again when its count is 0"},
    [NODE_AGAIN] = {"node-again", "a number is used again when its file has no name and no handle, whatever the kernel knows"},
    [ANSWERED_TWICE] = {"answered-twice", "each 100th answer is written twice"},
    [OTHER_UNIQUE] = {"other-unique", "each 100th answer is written with the unique of the request before, too"},
};

static struct {
    const char *mountpoint;
    uint64_t timeout;
    uint64_t threads;
    enum bug bug;
    const char *denied;
    const char *answered_twice;
    const char *answered_short;
    bool answers_forget;
    uint64_t deadly_operation; /* the opcode to die at, 0 for none */
    uint64_t deadly; /* the request to die at, 0 for none */
    uint64_t last;   /* the request to stand still at, 0 for none */
} options = {.threads = 1};

static struct {
    int device;
    bool mounted;
    pthread_mutex_t lock; /* is held from when a request has effect to when it is answered */
    uint64_t requests;
    bool truncates; /* ATOMIC_O_TRUNC was negotiated */
    uint64_t last_handle;
    uint64_t times_found; /* the name that is to be denied */
    struct file **files;  /* by their numbers; NULL where a file is gone */
    size_t file_room;
    uint64_t last_number;
    uint64_t free_number;  /* that a planted bug uses again, 0 for none */
    uint64_t answer_count; /* of a planted bug */
    uint64_t last_unique;
} server = {.device = -1, .lock = PTHREAD_MUTEX_INITIALIZER};

static volatile sig_atomic_t stopped;

/* ---- the device */

/* The device is closed first, so that no request can wait for this process while it takes the mount away. */
__attribute__((noreturn)) static void leave(int status)
{
    if (server.device >= 0)
        close(server.device);
    if (server.mounted)
        umount2(options.mountpoint, MNT_DETACH);
    exit(status);
}

__attribute__((noreturn)) static void fail(const char *what)
{
    fprintf(stderr, "memory: %s: %s\n", what, strerror(errno));
    leave(EXIT_FAILURE);
}

/* ---- messages: through the recorder's header, spliced, or plainly */

#ifdef WITH_HEADER

static ssize_t receive(int device, void *bytes, size_t size)
{
    struct iovec part = {bytes, size};
    return fuse_record(FUSE_RECORD_READ, device, &part, 1);
}

static ssize_t send_parts(int device, const struct iovec *parts, int count)
{
    return fuse_record(FUSE_RECORD_WRITE, device, parts, count);
}

#elif defined WITH_SPLICE

/* A pipe with room for the longest message, which is empty between two. */
static int *pipe_between(void)
{
    static _Thread_local int ends[2] = {-1, -1};
    if (ends[0] < 0 && (pipe2(ends, O_CLOEXEC) != 0 || fcntl(ends[1], F_SETPIPE_SZ, 4 * MOST_WRITTEN) < 0))
        fail("a pipe");
    return ends;
}

static ssize_t receive(int device, void *bytes, size_t size)
{
    ssize_t taken = splice(device, NULL, pipe_between()[1], NULL, size, 0);
    return taken < 0 ? taken : read(pipe_between()[0], bytes, (size_t)taken);
}

static ssize_t send_parts(int device, const struct iovec *parts, int count)
{
    ssize_t given = vmsplice(pipe_between()[1], parts, (size_t)count, 0);
    return given < 0 ? given : splice(pipe_between()[0], NULL, device, NULL, (size_t)given, 0);
}

#else

static ssize_t receive(int device, void *bytes, size_t size)
{
    return read(device, bytes, size);
}

static ssize_t send_parts(int device, const struct iovec *parts, int count)
{
    return writev(device, parts, count);
}

#endif

/* ---- files */

static void *resized(void *bytes, size_t size)
{
    void *moved = realloc(bytes, size);
    if (!moved)
        fail("no memory");
    return moved;
}

static char *copy_of(const char *text)
{
    size_t size = strlen(text) + 1;
    return memcpy(resized(NULL, size), text, size);
}

static struct timespec now(void)
{
    struct timespec time;
    clock_gettime(CLOCK_REALTIME, &time);
    return time;
}

static void mark_modified(struct file *file)
{
    file->modified = file->changed = now();
}

/* Whether this is the planted bug. */
static bool has(enum bug bug)
{
    return options.bug == bug;
}

static struct file *file_of(uint64_t number)
{
    return number <= server.last_number ? server.files[number] : NULL;
}

static struct file *new_file(uint32_t mode, uint32_t uid, uint32_t gid)
{
    struct file *file = resized(NULL, sizeof *file);
    *file = (struct file){ .mode = mode, .uid = uid, .gid = gid, .last_cookie = COOKIE_OF_PARENT };
    file->accessed = file->modified = file->changed = now();
    file->number = server.free_number != 0 ? server.free_number : ++server.last_number;
    server.free_number = 0;
    if (file->number >= server.file_room) {
        server.file_room = 2 * server.file_room + 64;
        server.files = resized(server.files, server.file_room * sizeof *server.files);
    }
    server.files[file->number] = file;
    return file;
}

static void make_root(void)
{
    struct file *root = new_file(S_IFDIR | 0755, getuid(), getgid());
    server.files[0] = NULL;
    root->names = 1;
    root->parent = root->number;
}

static bool is_mapped(const struct file *file)
{
    return file->room > MOST_ALLOCATED;
}

static void free_if_unused(struct file *file)
{
    if (file->names != 0 || (file->lookups != 0 && !has(NODE_AGAIN)) || file->opens != 0)
        return;
    server.files[file->number] = NULL;
    if (has(NODE_AGAIN) || has(LOOKUP_COUNT))
        server.free_number = file->number;
    if (is_mapped(file))
        munmap(file->bytes, file->room);
    else
        free(file->bytes);
    free(file->overwritten.bytes);
    free(file->entries);
    free(file);
}

/* Makes room for so many bytes. Those that are new are zero. */
static void make_room(struct file *file, uint64_t size)
{
    size_t room = file->room == 0 ? 4096 : file->room;
    while (room < size)
        room *= 2;
    if (room <= MOST_ALLOCATED) {
        file->bytes = resized(file->bytes, room);
        memset(file->bytes + file->room, 0, room - file->room);
    } else if (is_mapped(file)) {
        file->bytes = mremap(file->bytes, file->room, room, MREMAP_MAYMOVE);
    } else {
        char *before = file->bytes;
        file->bytes = mmap(NULL, room, PROT_READ | PROT_WRITE, MAP_PRIVATE | MAP_ANONYMOUS | MAP_NORESERVE, -1, 0);
        if (file->bytes != MAP_FAILED && file->size > 0)
            memcpy(file->bytes, before, file->size);
        free(before);
    }
    if (file->bytes == MAP_FAILED)
        fail("no memory");
    file->room = room;
}

/* Makes the bytes of a file zero from this one on. Of those that are mapped whole pages are given back. */
static void clear(struct file *file, uint64_t from)
{
    const size_t page = (size_t)sysconf(_SC_PAGESIZE);
    size_t whole = (from + page - 1) / page * page;
    if (!is_mapped(file) || whole >= file->size) {
        memset(file->bytes + from, 0, file->size - from);
        return;
    }
    memset(file->bytes + from, 0, whole - from);
    if (madvise(file->bytes + whole, file->room - whole, MADV_DONTNEED) != 0)
        fail("pages can't be given back");
}

/* Bytes behind the size are zero, so new ones are, also where the file was longer once. */
static int resize(struct file *file, uint64_t size)
{
    if (size > MOST_BYTES)
        return EFBIG;
    if (size > file->room)
        make_room(file, size);
    if (size < file->size) {
        file->size_before = file->size;
        if (!has(OLD_HOLE))
            clear(file, size);
    }
    file->size = size;
    mark_modified(file);
    return 0;
}

/* ---- names */

static struct entry *find_entry(const struct file *directory, const char *name)
{
    for (size_t place = 0; place < directory->entry_count; place++) {
        if (strcmp(directory->entries[place].name, name) == 0)
            return &directory->entries[place];
    }
    return NULL;
}

static void add_entry(struct file *directory, const char *name, struct file *file)
{
    if (directory->entry_count == directory->entry_room) {
        directory->entry_room = 2 * directory->entry_room + 8;
        directory->entries = resized(directory->entries, directory->entry_room * sizeof *directory->entries);
    }
    struct entry *place = directory->entries + directory->entry_count++;
    if (has(NAME_TWICE)) {
        memmove(directory->entries + 1, directory->entries, (size_t)(place - directory->entries) * sizeof *place);
        place = directory->entries;
    }
    *place = (struct entry){++directory->last_cookie, file, copy_of(name)};
    mark_modified(directory);
    file->names++;
    file->changed = now();
    if (S_ISDIR(file->mode)) {
        directory->subdirectories++;
        file->parent = directory->number;
    }
}

/* The entry is another file's from then on. */
static void replace_in_entry(struct file *directory, struct entry *entry, struct file *file)
{
    if (S_ISDIR(entry->file->mode))
        directory->subdirectories--;
    entry->file = file;
    mark_modified(directory);
    file->changed = now();
    if (S_ISDIR(file->mode)) {
        directory->subdirectories++;
        file->parent = directory->number;
    }
}

static void remove_entry(struct file *directory, struct entry *entry)
{
    struct file *file = entry->file;
    struct entry *end = directory->entries + directory->entry_count;
    free(entry->name);
    memmove(entry, entry + 1, (size_t)(end - (entry + 1)) * sizeof *entry);
    directory->entry_count--;
    mark_modified(directory);
    if (S_ISDIR(file->mode))
        directory->subdirectories--;
    file->names--;
    file->changed = now();
    free_if_unused(file);
}

/* Why the directory may not get this name, or 0. */
static int new_name_error(const struct file *directory, const char *name)
{
    if (directory->names == 0)
        return ENOENT;
    if (strlen(name) > NAME_MAX)
        return ENAMETOOLONG;
    return find_entry(directory, name) != NULL ? EEXIST : 0;
}

/* ---- answers */

static int answer(struct request *request, void *bytes, size_t size)
{
    request->answer = bytes;
    request->answer_size = size;
    return 0;
}

static void reply(const struct request *request, int error)
{
    size_t body_size = error == 0 ? request->answer_size : 0;
    struct fuse_out_header header = {
        .len = (uint32_t)(sizeof header + body_size),
        .error = -error,
        .unique = request->header.unique,
    };
    struct iovec parts[] = {{&header, sizeof header}, {request->answer, body_size}};
    bool is_hundredth = ++server.answer_count % 100 == 0;
    int times = request->times + (is_hundredth && has(ANSWERED_TWICE)) + (is_hundredth && has(OTHER_UNIQUE));
    for (int time = 0; time < times; time++) {
        header.unique = is_hundredth && has(OTHER_UNIQUE) && time == 0 ? server.last_unique : request->header.unique;
        /*
         * ENOENT: nobody waits for it, or no longer. ENODEV: the mount is gone, which the next read tells too. EINVAL: a
         * planted bug.
         */
        if (send_parts(server.device, parts, body_size == 0 ? 1 : 2) < 0 && errno != ENOENT && errno != ENODEV &&
            (errno != EINVAL || !options.answered_short))
            fail("writing an answer");
    }
    server.last_unique = request->header.unique;
}

static struct fuse_attr attributes_of(const struct file *file)
{
    bool is_named_directory = S_ISDIR(file->mode) && file->names != 0;
    return (struct fuse_attr){
        .ino = file->number,
        .size = file->size,
        .blocks = (file->size + 511) / 512,
        .atime = (uint64_t)file->accessed.tv_sec, .atimensec = (uint32_t)file->accessed.tv_nsec,
        .mtime = (uint64_t)file->modified.tv_sec, .mtimensec = (uint32_t)file->modified.tv_nsec,
        .ctime = (uint64_t)file->changed.tv_sec, .ctimensec = (uint32_t)file->changed.tv_nsec,
        .mode = file->mode,
        .nlink = (uint32_t)(is_named_directory ? 2 + file->subdirectories : file->names),
        .uid = file->uid,
        .gid = file->gid,
        .rdev = file->device,
        .blksize = 4096,
    };
}

/* What says which file a name is. The kernel forgets each of these again. */
static struct fuse_entry_out looked_up(struct file *file)
{
    file->lookups++;
    return (struct fuse_entry_out){
        .nodeid = file->number,
        .entry_valid = options.timeout,
        .attr_valid = options.timeout,
        .attr = attributes_of(file),
    };
}

static struct fuse_open_out opened(struct file *file)
{
    file->opens++;
    return (struct fuse_open_out){.fh = ++server.last_handle};
}

static int answer_entry(struct request *request, struct file *file)
{
    request->body.entry = looked_up(file);
    return answer(request, &request->body.entry, sizeof request->body.entry);
}

/* ---- operations */

static int do_init(struct request *request)
{
    const struct fuse_init_in *asked = &request->asked.init;
    if (asked->major != FUSE_KERNEL_VERSION)
        return EPROTO;
    request->body.init = (struct fuse_init_out){
        .major = FUSE_KERNEL_VERSION,
        .minor = asked->minor < FUSE_KERNEL_MINOR_VERSION ? asked->minor : FUSE_KERNEL_MINOR_VERSION,
        .max_readahead = asked->max_readahead,
        .flags = asked->flags & (FUSE_ATOMIC_O_TRUNC | FUSE_BIG_WRITES),
        .max_write = MOST_WRITTEN,
        .time_gran = 1,
    };
    server.truncates = (request->body.init.flags & FUSE_ATOMIC_O_TRUNC) != 0;
    return answer(request, &request->body.init, sizeof request->body.init);
}

static bool is_named(const char *wanted, const char *name)
{
    return wanted && strcmp(wanted, name) == 0;
}

static int do_lookup(struct request *request)
{
    struct entry *entry = find_entry(request->file, request->name);
    if (is_named(options.answered_twice, request->name))
        request->times = 2;
    if (!entry)
        return strlen(request->name) > NAME_MAX ? ENAMETOOLONG : ENOENT;
    bool is_denied = is_named(options.denied, request->name) || (has(DENIED_NAME) && server.times_found % 40 == 39);
    if (is_denied && server.times_found++ > 0)
        return ENOENT;
    server.times_found += has(DENIED_NAME);
    answer_entry(request, entry->file);
    if (has(STALE_SIZE) && entry->file->size_before != 0) {
        request->body.entry.attr.size = entry->file->size_before;
        entry->file->size_before = 0;
    }
    if (is_named(options.answered_short, request->name))
        request->answer_size -= sizeof(uint32_t);
    return 0;
}

static void forget(struct file *file, uint64_t lookups)
{
    if (!file)
        return;
    file->lookups -= lookups < file->lookups ? lookups : file->lookups;
    free_if_unused(file);
}

static int do_forget(struct request *request)
{
    forget(request->file, request->asked.forget.nlookup);
    return options.answers_forget ? 0 : NO_ANSWER;
}

static int do_batch_forget(struct request *request)
{
    struct fuse_forget_one item;
    size_t count = request->left / sizeof item;
    if (count > request->asked.batch_forget.count)
        count = request->asked.batch_forget.count;
    for (size_t place = 0; place < count; place++) {
        memcpy(&item, request->rest + place * sizeof item, sizeof item);
        forget(file_of(item.nodeid), item.nlookup);
    }
    return options.answers_forget ? 0 : NO_ANSWER;
}

static int do_getattr(struct request *request)
{
    request->body.attributes = (struct fuse_attr_out){
        .attr_valid = options.timeout,
        .attr = attributes_of(request->file),
    };
    return answer(request, &request->body.attributes, sizeof request->body.attributes);
}

static struct timespec time_asked(bool is_now, uint64_t seconds, uint32_t nanoseconds)
{
    return is_now ? now() : (struct timespec){.tv_sec = (time_t)seconds, .tv_nsec = nanoseconds};
}

static int do_setattr(struct request *request)
{
    const struct fuse_setattr_in *asked = &request->asked.setattr;
    struct file *file = request->file;
    uint32_t mode = file->mode;
    if (asked->valid & FATTR_SIZE) {
        if (!S_ISREG(file->mode))
            return S_ISDIR(file->mode) ? EISDIR : EINVAL;
        if (resize(file, asked->size) != 0)
            return EFBIG;
    }
    if ((asked->valid & FATTR_MODE) && !S_ISLNK(file->mode))
        mode = (file->mode & S_IFMT) | (asked->mode & MODE_BITS);
    if (!has(LOST_MODE))
        file->mode = mode;
    if (asked->valid & FATTR_UID)
        file->uid = asked->uid;
    if (asked->valid & FATTR_GID)
        file->gid = asked->gid;
    if (asked->valid & FATTR_ATIME)
        file->accessed = time_asked(asked->valid & FATTR_ATIME_NOW, asked->atime, asked->atimensec);
    if (asked->valid & FATTR_MTIME)
        file->modified = time_asked(asked->valid & FATTR_MTIME_NOW, asked->mtime, asked->mtimensec);
    file->changed = now();
    do_getattr(request);
    request->body.attributes.attr.mode = mode;
    return 0;
}

static int do_readlink(struct request *request)
{
    return S_ISLNK(request->file->mode) ? answer(request, request->file->bytes, request->file->size) : EINVAL;
}

/* Makes a file of the request's name. The kernel took the umask from its mode, as DONT_MASK is not negotiated. */
static int make(const struct request *request, uint32_t mode, struct file **made)
{
    int error = new_name_error(request->file, request->name);
    if (error != 0)
        return error;
    *made = new_file(mode, request->header.uid, request->header.gid);
    add_entry(request->file, request->name, *made);
    return 0;
}

static int do_symlink(struct request *request)
{
    struct file *made;
    int error = make(request, S_IFLNK | 0777, &made);
    if (error != 0)
        return error;
    made->bytes = copy_of(request->second_text);
    made->size = strlen(request->second_text);
    return answer_entry(request, made);
}

static int do_mknod(struct request *request)
{
    uint32_t type = request->asked.mknod.mode & S_IFMT;
    struct file *made;
    if (type == S_IFDIR || type == S_IFLNK)
        return EINVAL;
    int error = make(request, (type == 0 ? S_IFREG : type) | (request->asked.mknod.mode & MODE_BITS), &made);
    if (error != 0)
        return error;
    made->device = request->asked.mknod.rdev;
    return answer_entry(request, made);
}

static int do_mkdir(struct request *request)
{
    struct file *made;
    int error = make(request, S_IFDIR | (request->asked.mkdir.mode & MODE_BITS), &made);
    return error != 0 ? error : answer_entry(request, made);
}

static int do_unlink(struct request *request)
{
    struct entry *entry = find_entry(request->file, request->name);
    if (!entry)
        return ENOENT;
    if (S_ISDIR(entry->file->mode))
        return EISDIR;
    remove_entry(request->file, entry);
    return 0;
}

static int do_rmdir(struct request *request)
{
    struct entry *entry = find_entry(request->file, request->name);
    if (!entry)
        return ENOENT;
    if (!S_ISDIR(entry->file->mode))
        return ENOTDIR;
    if (entry->file->entry_count != 0 && !has(RMDIR_OF_FULL))
        return ENOTEMPTY;
    remove_entry(request->file, entry);
    return 0;
}

/* The directory, which has a name, is this file or below it. */
static bool is_within(const struct file *directory, const struct file *file)
{
    while (directory != file && directory->number != FUSE_ROOT_ID)
        directory = file_of(directory->parent);
    return directory == file;
}

/* Why a file may not take the place of another, or 0. */
static int replacing_error(const struct file *moved, const struct file *replaced)
{
    if (S_ISDIR(moved->mode) && !S_ISDIR(replaced->mode))
        return ENOTDIR;
    if (!S_ISDIR(moved->mode) && S_ISDIR(replaced->mode))
        return EISDIR;
    return replaced->entry_count == 0 ? 0 : ENOTEMPTY;
}

/* Why the entry may not become this name of the directory, or 0. */
static int moving_error(const struct entry *old, const struct file *directory, const char *name)
{
    int error = new_name_error(directory, name);
    if (error != 0 && error != EEXIST)
        return error;
    if (is_within(directory, old->file))
        return EINVAL;
    return error == EEXIST ? replacing_error(old->file, find_entry(directory, name)->file) : 0;
}

/* Moves the name to this directory. */
static int move(struct request *request, struct file *directory)
{
    struct entry *old = find_entry(request->file, request->name);
    struct entry *replaced = find_entry(directory, request->second_text);
    if (!old)
        return ENOENT;
    struct file *moved = old->file;
    if (replaced && replaced->file == moved)
        return 0;
    int error = moving_error(old, directory, request->second_text);
    if (error != 0)
        return error;
    /* Each of these changes moves entries. The new name comes before the old one goes, so that the file is kept. */
    if (replaced) {
        if (has(RENAME_OVER_OPEN) && S_ISREG(replaced->file->mode) && replaced->file->opens > 0)
            resize(replaced->file, 0);
        remove_entry(directory, replaced);
    }
    add_entry(directory, request->second_text, moved);
    if (!has(OLD_NAME_STAYS) || directory == request->file || S_ISDIR(moved->mode))
        remove_entry(request->file, find_entry(request->file, request->name));
    return 0;
}

static int move_to_none(struct request *request, struct file *directory)
{
    return find_entry(directory, request->second_text) ? EEXIST : move(request, directory);
}

/* Whether the directory, which has a name, would come to be below itself. */
static bool comes_below_itself(const struct file *directory, const struct file *file)
{
    return S_ISDIR(file->mode) && is_within(directory, file);
}

/* Gives each of the two names the other's file. */
static int exchange(struct request *request, struct file *directory)
{
    struct entry *old = find_entry(request->file, request->name);
    struct entry *other = find_entry(directory, request->second_text);
    if (!old || !other)
        return ENOENT;
    struct file *moved = old->file;
    if (other->file == moved)
        return 0;
    if (comes_below_itself(directory, moved) || comes_below_itself(request->file, other->file))
        return EINVAL;
    if (has(EXCHANGE_LEAVES_PARENTS) && directory != request->file) {
        char *name = old->name;
        old->name = other->name;
        other->name = name;
        return 0;
    }
    replace_in_entry(request->file, old, other->file);
    replace_in_entry(directory, other, moved);
    return 0;
}

/* A change of names whose new directory has this number. */
static int in_directory(struct request *request, uint64_t number, int (*act)(struct request *, struct file *))
{
    struct file *directory = file_of(number);
    if (!directory)
        return ESTALE;
    return S_ISDIR(directory->mode) ? act(request, directory) : ENOTDIR;
}

static int do_rename(struct request *request)
{
    return in_directory(request, request->asked.rename.newdir, move);
}

static int do_rename2(struct request *request)
{
    const struct fuse_rename2_in *asked = &request->asked.rename2;
    switch (asked->flags) {
    case 0: return in_directory(request, asked->newdir, move);
    case RENAME_NOREPLACE: return in_directory(request, asked->newdir, move_to_none);
    case RENAME_EXCHANGE: return in_directory(request, asked->newdir, exchange);
    default: return EINVAL;
    }
}

static int do_link(struct request *request)
{
    struct file *file = file_of(request->asked.link.oldnodeid);
    if (!file)
        return ESTALE;
    if (S_ISDIR(file->mode))
        return EPERM;
    if (file->names == 0)
        return ENOENT;
    int error = new_name_error(request->file, request->name);
    if (error != 0)
        return error;
    add_entry(request->file, request->name, file);
    answer_entry(request, file);
    request->body.entry.attr.nlink -= has(LINK_COUNT);
    return 0;
}

/* Carries out the truncation that a planted bug has put off. */
static void empty_late(struct file *file)
{
    if (file->is_to_be_emptied)
        resize(file, 0);
    file->is_to_be_emptied = false;
}

/* OPEN and OPENDIR */
static int do_open(struct request *request)
{
    if (S_ISREG(request->file->mode) && (request->asked.open.flags & O_TRUNC) && server.truncates) {
        request->file->is_to_be_emptied = true;
        if (!has(LATE_TRUNCATION))
            empty_late(request->file);
    }
    request->body.opened = opened(request->file);
    return answer(request, &request->body.opened, sizeof request->body.opened);
}

/* Opens what is there, or makes it. */
static int do_create(struct request *request)
{
    const struct fuse_create_in *asked = &request->asked.create;
    struct entry *entry = find_entry(request->file, request->name);
    struct file *file = entry ? entry->file : NULL;
    if (!file) {
        int error = make(request, S_IFREG | (asked->mode & MODE_BITS), &file);
        if (error != 0)
            return error;
    } else if (S_ISDIR(file->mode)) {
        return EISDIR;
    } else if (!S_ISREG(file->mode) || (asked->flags & O_EXCL)) {
        return EEXIST;
    } else if (asked->flags & O_TRUNC) {
        resize(file, 0);
    }
    request->body.created.entry = looked_up(file);
    file->lookups -= has(LOOKUP_COUNT);
    request->body.created.opened = opened(file);
    return answer(request, &request->body.created, sizeof request->body.created);
}

static int do_read(struct request *request)
{
    const struct fuse_read_in *asked = &request->asked.read;
    const struct file *file = request->file;
    if (asked->offset >= file->size)
        return 0;
    size_t left = file->size - asked->offset;
    size_t size = asked->size < left ? asked->size : left;
    if (has(SHORT_READ) && size > 4096)
        size = 4096;
    if (has(READ_PAST_END) && asked->size > left) {
        static char bytes[MESSAGE_ROOM];
        size = asked->size < sizeof bytes ? asked->size : sizeof bytes;
        memset(bytes, 0, size);
        return answer(request, memcpy(bytes, file->bytes + asked->offset, left < size ? left : size), size);
    }
    return answer(request, file->bytes + asked->offset, size);
}

/* What a WRITE by another handle put in the place of bytes goes for these again. Keeps those that this WRITE is to replace. */
static void lose_last_write(struct file *file, const struct fuse_write_in *asked)
{
    struct overwritten *last = &file->overwritten;
    if (last->bytes && last->handle != asked->fh && last->offset + last->size <= file->size)
        memcpy(file->bytes + last->offset, last->bytes, last->size);
    *last = (struct overwritten){asked->fh, asked->offset, asked->size, resized(last->bytes, asked->size)};
    memset(last->bytes, 0, last->size);
    if (asked->offset < file->size) {
        size_t left = file->size - asked->offset;
        memcpy(last->bytes, file->bytes + asked->offset, left < last->size ? left : last->size);
    }
}

static int do_write(struct request *request)
{
    const struct fuse_write_in *asked = &request->asked.write;
    struct file *file = request->file;
    if (request->left < asked->size)
        return EPROTO;
    if (asked->offset > MOST_BYTES || asked->size > MOST_BYTES - asked->offset)
        return EFBIG;
    empty_late(file);
    if (asked->size > 0) {
        if (has(LOST_WRITE))
            lose_last_write(file, asked);
        if (asked->offset + asked->size > file->size)
            resize(file, asked->offset + asked->size);
        size_t to_edge = 4096 - asked->offset % 4096;
        memcpy(file->bytes + asked->offset, request->rest, has(CUT_WRITE) && to_edge < asked->size ? to_edge : asked->size);
        mark_modified(file);
    }
    request->body.written = (struct fuse_write_out){.size = asked->size};
    return answer(request, &request->body.written, sizeof request->body.written);
}

static int do_statfs(struct request *request)
{
    request->body.system = (struct fuse_statfs_out){.st = {
        .blocks = 1048576, .bfree = 1048576, .bavail = 1048576, .files = 1048576, .ffree = 1048576,
        .bsize = 4096, .frsize = 4096, .namelen = NAME_MAX,
    }};
    return answer(request, &request->body.system, sizeof request->body.system);
}

struct listing {
    uint64_t from; /* entries up to this offset are left out */
    char *bytes;
    size_t size, room;
};

/* False where there is no room for the entry. */
static bool list(struct listing *listing, uint64_t cookie, const char *name, uint64_t number, uint32_t mode)
{
    size_t length = strlen(name);
    size_t size = FUSE_DIRENT_ALIGN(FUSE_NAME_OFFSET + length);
    struct fuse_dirent head = {
        .ino = number, .off = cookie, .namelen = (uint32_t)length, .type = (mode & S_IFMT) >> 12,
    };
    if (cookie <= listing->from)
        return true;
    if (size > listing->room - listing->size)
        return false;
    char *place = listing->bytes + listing->size;
    memset(place, 0, size);
    memcpy(place, &head, FUSE_NAME_OFFSET);
    memcpy(place + FUSE_NAME_OFFSET, name, length);
    listing->size += size;
    return true;
}

/*
 * Gives the entries behind the offset, by rising cookies. A name that comes gets a cookie above all others, and one
 * that goes moves none, so what stays is listed once, whatever comes and goes while the directory is open.
 */
static int do_readdir(struct request *request)
{
    static char bytes[MOST_WRITTEN];
    const struct fuse_read_in *asked = &request->asked.read;
    const struct file *directory = request->file;
    struct listing listing = {asked->offset, bytes, 0, asked->size < sizeof bytes ? asked->size : sizeof bytes};
    bool fits = list(&listing, COOKIE_OF_SELF, ".", directory->number, S_IFDIR) &&
                list(&listing, COOKIE_OF_PARENT, "..", directory->parent, S_IFDIR);
    for (size_t place = 0; fits && place < directory->entry_count; place++) {
        const struct entry *entry = &directory->entries[place];
        uint64_t cookie = has(SKIPPED_NAME) || has(NAME_TWICE) ? COOKIE_OF_PARENT + 1 + place : entry->cookie;
        fits = list(&listing, cookie, entry->name, entry->file->number, entry->file->mode);
    }
    return answer(request, bytes, listing.size);
}

/* RELEASE and RELEASEDIR. Which handle it is makes no difference. */
static int do_release(struct request *request)
{
    empty_late(request->file);
    if (request->file->opens > 0)
        request->file->opens--;
    free_if_unused(request->file);
    return 0;
}

/* FLUSH, FSYNC and DESTROY */
static int do_nothing(struct request *request)
{
    (void)request;
    return 0;
}

/* No request takes long enough to be interrupted. */
static int do_interrupt(struct request *request)
{
    (void)request;
    return NO_ANSWER;
}

/* ---- serving */

enum subject { ANYTHING, A_FILE, A_DIRECTORY, A_REGULAR_FILE };

/* Old kernels send the fields of INIT before flags2 alone. */
#define INIT_SIZE offsetof(struct fuse_init_in, flags2)

/* What an operation works on, and what its body begins with: a struct of this size, and then this many texts. */
static const struct {
    int (*act)(struct request *request);
    enum subject subject;
    size_t size;
    int texts;
} operations[] = {
    [FUSE_LOOKUP] = {do_lookup, A_DIRECTORY, 0, 1},
    [FUSE_FORGET] = {do_forget, ANYTHING, sizeof(struct fuse_forget_in), 0},
    [FUSE_GETATTR] = {do_getattr, A_FILE, 0, 0},
    [FUSE_SETATTR] = {do_setattr, A_FILE, sizeof(struct fuse_setattr_in), 0},
    [FUSE_READLINK] = {do_readlink, A_FILE, 0, 0},
    [FUSE_SYMLINK] = {do_symlink, A_DIRECTORY, 0, 2},
    [FUSE_MKNOD] = {do_mknod, A_DIRECTORY, sizeof(struct fuse_mknod_in), 1},
    [FUSE_MKDIR] = {do_mkdir, A_DIRECTORY, sizeof(struct fuse_mkdir_in), 1},
    [FUSE_UNLINK] = {do_unlink, A_DIRECTORY, 0, 1},
    [FUSE_RMDIR] = {do_rmdir, A_DIRECTORY, 0, 1},
    [FUSE_RENAME] = {do_rename, A_DIRECTORY, sizeof(struct fuse_rename_in), 2},
    [FUSE_RENAME2] = {do_rename2, A_DIRECTORY, sizeof(struct fuse_rename2_in), 2},
    [FUSE_LINK] = {do_link, A_DIRECTORY, sizeof(struct fuse_link_in), 1},
    [FUSE_OPEN] = {do_open, A_REGULAR_FILE, sizeof(struct fuse_open_in), 0},
    [FUSE_READ] = {do_read, A_REGULAR_FILE, sizeof(struct fuse_read_in), 0},
    [FUSE_WRITE] = {do_write, A_REGULAR_FILE, sizeof(struct fuse_write_in), 0},
    [FUSE_STATFS] = {do_statfs, ANYTHING, 0, 0},
    [FUSE_RELEASE] = {do_release, A_FILE, 0, 0},
    [FUSE_FSYNC] = {do_nothing, ANYTHING, 0, 0},
    [FUSE_FLUSH] = {do_nothing, ANYTHING, 0, 0},
    [FUSE_INIT] = {do_init, ANYTHING, INIT_SIZE, 0},
    [FUSE_OPENDIR] = {do_open, A_DIRECTORY, sizeof(struct fuse_open_in), 0},
    [FUSE_READDIR] = {do_readdir, A_DIRECTORY, sizeof(struct fuse_read_in), 0},
    [FUSE_RELEASEDIR] = {do_release, A_FILE, 0, 0},
    [FUSE_CREATE] = {do_create, A_DIRECTORY, sizeof(struct fuse_create_in), 1},
    [FUSE_INTERRUPT] = {do_interrupt, ANYTHING, 0, 0},
    [FUSE_DESTROY] = {do_nothing, ANYTHING, 0, 0},
    [FUSE_BATCH_FORGET] = {do_batch_forget, ANYTHING, sizeof(struct fuse_batch_forget_in), 0},
};

/* Copies the next part of the message, which need not be aligned; false where the message ends before. */
static bool take(struct request *request, void *part, size_t size)
{
    if (request->left < size)
        return false;
    memcpy(part, request->rest, size);
    request->rest += size;
    request->left -= size;
    return true;
}

/* Finds the next name or target, which has to end within the message; false where it does not. */
static bool take_text(struct request *request, const char **text)
{
    const char *zero = memchr(request->rest, '\0', request->left);
    if (!zero)
        return false;
    *text = request->rest;
    request->left -= (size_t)(zero + 1 - request->rest);
    request->rest = zero + 1;
    return true;
}

static int subject_error(enum subject subject, const struct file *file)
{
    if (subject == ANYTHING)
        return 0;
    if (!file)
        return ESTALE;
    if (subject == A_DIRECTORY && !S_ISDIR(file->mode))
        return ENOTDIR;
    if (subject == A_REGULAR_FILE && !S_ISREG(file->mode))
        return S_ISDIR(file->mode) ? EISDIR : EINVAL;
    return 0;
}

/* Carries the request out: 0, an error number or NO_ANSWER. */
static int carry_out(struct request *request)
{
    uint32_t opcode = request->header.opcode;
    if (opcode >= sizeof operations / sizeof *operations || !operations[opcode].act)
        return ENOSYS;
    if (!take(request, &request->asked, operations[opcode].size) ||
        (operations[opcode].texts >= 1 && !take_text(request, &request->name)) ||
        (operations[opcode].texts >= 2 && !take_text(request, &request->second_text)))
        return EPROTO;
    request->file = file_of(request->header.nodeid);
    int error = subject_error(operations[opcode].subject, request->file);
    return error != 0 ? error : operations[opcode].act(request);
}

static void handle(const char *message, size_t size)
{
    struct request request = {.rest = message, .left = size, .times = 1};
    if (!take(&request, &request.header, sizeof request.header))
        return;
    pthread_mutex_lock(&server.lock);
    if (request.header.opcode == options.deadly_operation || ++server.requests == options.deadly)
        raise(SIGKILL);
    while (server.requests == options.last)
        pause();
    int error = carry_out(&request);
    if (error != NO_ANSWER)
        reply(&request, error);
    pthread_mutex_unlock(&server.lock);
}

/* Returns when the mount is gone or a signal came. */
static void serve(void)
{
    char *message = resized(NULL, MESSAGE_ROOM);
    while (!stopped) {
        ssize_t size = receive(server.device, message, MESSAGE_ROOM);
        if (size >= 0)
            handle(message, (size_t)size);
        else if (errno == ENODEV)
            break;
        else if (errno != EINTR && errno != EAGAIN && errno != ENOENT) /* ENOENT: it was taken back meanwhile */
            fail("reading a request");
    }
    free(message);
}

static void *serve_too(void *nothing)
{
    serve();
    return nothing;
}

/* The signals are this thread's. It ends all; where the mount is gone the others end by themselves. */
static void serve_by_threads(void)
{
    sigset_t all, before;
    pthread_t *started = resized(NULL, options.threads * sizeof *started);
    sigfillset(&all);
    pthread_sigmask(SIG_SETMASK, &all, &before);
    for (uint64_t thread = 1; thread < options.threads; thread++)
        if (pthread_create(&started[thread], NULL, serve_too, NULL) != 0)
            fail("a thread");
    pthread_sigmask(SIG_SETMASK, &before, NULL);
    serve();
    if (!stopped) {
        server.mounted = false;
        for (uint64_t thread = 1; thread < options.threads; thread++)
            pthread_join(started[thread], NULL);
    }
    free(started);
}

/* The alarm comes again each second, so that a signal just before a read does not leave that waiting. */
static void stop(int signal_number)
{
    (void)signal_number;
    stopped = 1;
    alarm(1);
}

static void stop_at_signals(void)
{
    struct sigaction action = {.sa_handler = stop}; /* without SA_RESTART: it ends the read */
    sigemptyset(&action.sa_mask);
    sigaction(SIGTERM, &action, NULL);
    sigaction(SIGINT, &action, NULL);
    sigaction(SIGALRM, &action, NULL);
}

static void mount_device(void)
{
    char settings[128];
    server.device = open("/dev/fuse", O_RDWR | O_CLOEXEC);
    if (server.device < 0)
        fail("/dev/fuse");
    snprintf(settings, sizeof settings, "fd=%d,rootmode=40000,user_id=%u,group_id=%u,allow_other,default_permissions",
             server.device, (unsigned)getuid(), (unsigned)getgid());
    if (mount("memory", options.mountpoint, "fuse.memory", MS_NOSUID | MS_NODEV, settings) != 0)
        fail(options.mountpoint);
    server.mounted = true;
}

__attribute__((noreturn)) static void refuse_words(void)
{
    fputs("usage: memory [--timeout SECONDS] [--threads N] [--deny NAME] [--answer-twice NAME] [--answer-short NAME] [--answer-forget] [--bug NAME] "
          "[--die-at N] [--die-after N] [--hang-after N] MOUNTPOINT\nbugs:\n", stderr);
    for (size_t bug = 1; bug < sizeof bugs / sizeof *bugs; bug++)
        fprintf(stderr, "  %-24s %s\n", bugs[bug].name, bugs[bug].meaning);
    exit(EXIT_FAILURE);
}

static enum bug bug_of(const char *name)
{
    for (size_t bug = 1; bug < sizeof bugs / sizeof *bugs; bug++)
        if (strcmp(bugs[bug].name, name) == 0)
            return (enum bug)bug;
    refuse_words();
}

static uint64_t number_of(const char *text)
{
    char *end;
    uint64_t number = strtoull(text, &end, 10);
    if (end == text || *end != '\0')
        refuse_words();
    return number;
}

static void read_words(int count, char **words)
{
    static const struct option known[] = {
        {"timeout", required_argument, NULL, 't'},
        {"threads", required_argument, NULL, 'n'},
        {"deny", required_argument, NULL, 'd'},
        {"answer-twice", required_argument, NULL, 'a'},
        {"answer-short", required_argument, NULL, 's'},
        {"answer-forget", no_argument, NULL, 'f'},
        {"bug", required_argument, NULL, 'b'},
        {"die-at", required_argument, NULL, 'o'},
        {"die-after", required_argument, NULL, 'k'},
        {"hang-after", required_argument, NULL, 'h'},
        {0},
    };
    int option;
    while ((option = getopt_long(count, words, "", known, NULL)) != -1) {
        if (option == 't')
            options.timeout = number_of(optarg);
        else if (option == 'n')
            options.threads = number_of(optarg);
        else if (option == 'd')
            options.denied = optarg;
        else if (option == 'a')
            options.answered_twice = optarg;
        else if (option == 's')
            options.answered_short = optarg;
        else if (option == 'f')
            options.answers_forget = true;
        else if (option == 'b')
            options.bug = bug_of(optarg);
        else if (option == 'o')
            options.deadly_operation = number_of(optarg);
        else if (option == 'k')
            options.deadly = number_of(optarg);
        else if (option == 'h')
            options.last = number_of(optarg);
        else
            refuse_words();
    }
    if (optind + 1 != count)
        refuse_words();
    options.mountpoint = words[optind];
}

int main(int argc, char **argv)
{
    read_words(argc, argv);
    umask(0);
    stop_at_signals();
    make_root();
    mount_device();
    serve_by_threads();
    leave(EXIT_SUCCESS);
}
