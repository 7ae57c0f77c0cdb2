/* fuse-record: starts a FUSE server so that what it and the kernel say to each other is recorded, and sums the recording up. */
#define _GNU_SOURCE
#include <ctype.h>
#include <getopt.h>
#include <libgen.h>
#include <limits.h>
#include <sys/file.h>
#include <sys/prctl.h>
#include <sys/wait.h>

#include "fuse-record.h"
#include "stream.h"
#include "trace.h"

static const char usage[] =
    "usage: fuse-record [options] -o FILE -- SERVER WORDS..\n"
    "Starts SERVER and records its FUSE messages in FILE, and in FILE.log what it changed of them.\n"
    "  -o, --output FILE      the capture; its folder is not to be below the mount. Where it is a FIFO, the server starts when\n"
    "                         that has a reader, and the capture is not kept\n"
    "  --live FIFO            writes the capture to a FIFO too; - is standard output, and SERVER then has standard error for it\n"
    "  --plain                leaves out the time of each message: FILE begins with FUSECAP1 and not with FUSECAP2\n"
    "  --force                replaces FILE, FILE.log and FILE.tree of an earlier recording\n"
    "  --lower DIR            writes the tree text of DIR to FILE.tree before the server starts\n"
    "  --refuse NAME[,NAME]   answers these operations with ENOSYS in the server's place\n"
    "  --keep-init            leaves INIT and its answer as they are\n"
    "  --keep-refused         leaves in the capture what the kernel refused to take\n"
    "  --keep-own             leaves in the capture what is asked of go-fuse's own file, " FUSE_RECORD_OWN_NAME "\n"
    "  --trace                records by stopping the system calls of SERVER and all that it starts, which suits any program;\n"
    "                         without this option, so are those recorded that are linked statically or made by Go\n"
    "  --preload              records by a library that SERVER loads, whatever it is\n"
    "It ends with the status of SERVER, or 125 where no message was seen or requests were never answered.\n";

/* How it ends where not as the server did. A server's own status 125 or 126 becomes 1. */
enum { FAILED = 1, MISUSED = 2, NOT_WHOLE = 125, NOT_TRACED = 126, NO_SERVER = 127 };

/* For how many seconds a server that has gone into the background is waited for its first message. */
enum { PATIENCE = 5 };

/* A file that is made, its descriptor, and where that is kept which stood at its path, until the server has started. */
struct output {
    char path[PATH_MAX + 8];
    char kept[PATH_MAX + 16];
    int file;
    bool made;
};
static struct output outputs[3];
enum { CAPTURE, LOG, TREE };

/* The pipe that the capture is handed on to while it is recorded, beside its file or in its place. */
static struct {
    const char *path; /* NULL: there is none */
    bool in_place;
    int pipe, memory;
} live;

/* Takes away what was made, and puts back what stood there. */
static void undo_outputs(void)
{
    for (int i = CAPTURE; i <= TREE; i++) {
        if (outputs[i].made)
            unlink(outputs[i].path);
        if (outputs[i].kept[0])
            rename(outputs[i].kept, outputs[i].path);
    }
}

/* Says on standard error what keeps the server from being started, and ends. */
__attribute__((noreturn, format(printf, 2, 3))) static void fail(int status, const char *format, ...)
{
    va_list words;
    va_start(words, format);
    fputs("fuse-record: ", stderr);
    vfprintf(stderr, format, words);
    fputc('\n', stderr);
    va_end(words);
    undo_outputs();
    exit(status);
}

/* The number of an operation that may be refused: one that has an answer, and is not INIT. */
static unsigned operation(const char *name)
{
    for (unsigned number = 1; number <= FUSE_RECORD_LAST_OPERATION; number++)
        if (fuse_record_names[number] && strcasecmp(fuse_record_names[number], name) == 0 && number != FUSE_INIT &&
            number != FUSE_FORGET && number != FUSE_BATCH_FORGET && number != FUSE_NOTIFY_REPLY)
            return number;
    fail(MISUSED, "%s: no operation that can be refused", name);
}

/* The operations of a list of names, a bit each. */
static uint64_t operations(char *names)
{
    uint64_t found = 0;
    for (char *name = strtok(names, ","); name; name = strtok(NULL, ","))
        found |= UINT64_C(1) << operation(name);
    return found;
}

/* The path of a file beside this program, as fuse-tree is. */
static void beside(char path[PATH_MAX], const char *name)
{
    char program[PATH_MAX];
    ssize_t length = readlink("/proc/self/exe", program, sizeof program - 1);
    if (length < 0)
        fail(FAILED, "/proc/self/exe: %s", strerror(errno));
    program[length] = '\0';
    if (snprintf(path, PATH_MAX, "%s/%s", dirname(program), name) >= PATH_MAX)
        fail(FAILED, "%s: %s", name, strerror(ENAMETOOLONG));
}

/* Whether an absolute path is that of a folder, or below it. */
static bool is_within(const char *path, const char *folder)
{
    size_t length = strcmp(folder, "/") == 0 ? 0 : strlen(folder);
    return strncmp(path, folder, length) == 0 && (path[length] == '/' || path[length] == '\0');
}

/* Finds the absolute path of the capture and of what stands beside it. The capture need not be there. */
static void name_outputs(const char *output)
{
    char whole[PATH_MAX], copy[PATH_MAX], other[PATH_MAX], *path = outputs[CAPTURE].path;
    if (!realpath(output, whole)) {
        if (errno != ENOENT || strlen(output) >= sizeof copy)
            fail(FAILED, "%s: %s", output, strerror(errno == ENOENT ? ENAMETOOLONG : errno));
        strcpy(copy, output);
        strcpy(other, output);
        if (!realpath(dirname(copy), whole))
            fail(FAILED, "%s: %s", output, strerror(errno));
        size_t length = strlen(whole);
        snprintf(whole + length, sizeof whole - length, "%s%s", length > 1 ? "/" : "", basename(other));
    }
    if (strlen(whole) + sizeof ".tree.XXXXXX" > FUSE_RECORD_PATH)
        fail(FAILED, "%s: %s", output, strerror(ENAMETOOLONG));
    strcpy(path, whole);
    snprintf(outputs[LOG].path, sizeof outputs[LOG].path, "%s.log", whole);
    snprintf(outputs[TREE].path, sizeof outputs[TREE].path, "%s.tree", whole);
}

/*
 * Refuses a capture that the recording would change: within the folder that the server passes on, or below the mount. For that
 * the last of the server's words is taken that names a folder.
 */
static void refuse_places(const char *lower, char **words)
{
    char folder[PATH_MAX], mount[PATH_MAX] = "";
    struct stat found;
    const char *path = outputs[CAPTURE].path;
    if (lower && realpath(lower, folder) && is_within(path, folder))
        fail(FAILED, "%s: is in the folder of --lower, which the server passes on", path);
    for (char **word = words + 1; *words && *word; word++)
        if (stat(*word, &found) == 0 && S_ISDIR(found.st_mode) && realpath(*word, folder))
            strcpy(mount, folder);
    if (mount[0] && is_within(path, mount))
        fail(FAILED, "%s: is below %s, which is taken for the mount", path, mount);
}

/* Whether there is a FIFO or a pipe at a path. */
static bool is_pipe(const char *path)
{
    struct stat found;
    return stat(path, &found) == 0 && S_ISFIFO(found.st_mode);
}

/* Holds a capture as long as this descriptor is open, where its file system can. Refuses one that another recorder holds. */
static void hold(int capture)
{
    if (flock(capture, LOCK_EX | LOCK_NB) != 0 && errno == EWOULDBLOCK)
        fail(FAILED, "%s: a recorder that runs holds it", outputs[CAPTURE].path);
}

/* Whether a file is a capture without a message. */
static bool is_empty(int file)
{
    char magic[sizeof FUSE_RECORD_MAGIC] = "";
    return pread(file, magic, sizeof magic, 0) == sizeof magic - 1 &&
           (memcmp(magic, FUSE_RECORD_MAGIC, sizeof magic - 1) == 0 || memcmp(magic, FUSE_RECORD_PLAIN_MAGIC, sizeof magic - 1) == 0);
}

/* Refuses to write over files of an earlier recording, unless it is forced to or that recorded no message. */
static void refuse_files(bool forced)
{
    struct stat found;
    int capture = live.in_place ? -1 : open(outputs[CAPTURE].path, O_RDONLY | O_CLOEXEC | O_NONBLOCK);
    if (capture >= 0) {
        if (fstat(capture, &found) != 0 || !S_ISREG(found.st_mode))
            fail(FAILED, "%s: no regular file", outputs[CAPTURE].path);
        hold(capture);
        forced |= is_empty(capture);
        close(capture);
    }
    for (int i = live.in_place ? LOG : CAPTURE; i <= TREE; i++) {
        if (lstat(outputs[i].path, &found) != 0)
            continue;
        if (!S_ISREG(found.st_mode))
            fail(FAILED, "%s: no regular file", outputs[i].path);
        if (!forced)
            fail(FAILED, "%s: is there already; --force replaces the capture, its log and its tree text", outputs[i].path);
    }
}

/* Moves what stands at a path to one beside it. */
static void keep(struct output *output)
{
    struct stat found;
    if (lstat(output->path, &found) != 0)
        return;
    char kept[sizeof output->kept];
    snprintf(kept, sizeof kept, "%s.XXXXXX", output->path);
    int file = mkstemp(kept);
    if (file < 0 || rename(output->path, kept) != 0)
        fail(FAILED, "%s: %s", kept, strerror(errno));
    close(file);
    strcpy(output->kept, kept);
}

/* Makes a file that its owner alone can read. */
static int create(struct output *output)
{
    output->file = open(output->path, O_RDWR | O_APPEND | O_CREAT | O_EXCL | O_CLOEXEC, 0600);
    if (output->file < 0)
        fail(FAILED, "%s: %s", output->path, strerror(errno));
    output->made = true;
    return output->file;
}

/* Writes the tree text of a folder, by a program that has the signals from before. */
static void write_tree(const char *folder, const sigset_t *before)
{
    char program[PATH_MAX];
    int status = 0, file = create(&outputs[TREE]);
    beside(program, "fuse-tree");
    pid_t child = fork();
    if (child == 0) {
        sigprocmask(SIG_SETMASK, before, NULL);
        dup2(file, STDOUT_FILENO);
        execl(program, program, folder, (char *)NULL);
        fprintf(stderr, "fuse-record: %s: %s\n", program, strerror(errno));
        _exit(FAILED);
    }
    if (child < 0 || waitpid(child, &status, 0) < 0)
        fail(FAILED, "%s: %s", program, strerror(errno));
    if (status != 0)
        fail(FAILED, "%s: no tree text of %s", outputs[TREE].path, folder);
    close(file);
}

/* Takes a capture that is a FIFO for the pipe as well. What leads to one by a link of /proc has no place for a log beside it. */
static void choose_pipe(void)
{
    struct stat found;
    live.in_place = lstat(outputs[CAPTURE].path, &found) == 0 && S_ISFIFO(found.st_mode);
    if (live.in_place && live.path)
        fail(MISUSED, "%s: is a FIFO, and --live is for a capture that is kept", outputs[CAPTURE].path);
    if (live.in_place)
        live.path = outputs[CAPTURE].path;
}

/*
 * Opens the pipe, which waits until it has a reader, and makes what is needed to hand the capture on. From then on what the server
 * and others write to standard output goes to standard error, where that is the pipe.
 */
static void open_pipe(void)
{
    struct stat found, output;
    bool is_output = strcmp(live.path, "-") == 0;
    const char *path = is_output ? "/proc/self/fd/1" : live.path;
    if (!is_pipe(path))
        fail(FAILED, "%s: no FIFO and no pipe", is_output ? "standard output" : path);
    live.pipe = open(path, O_WRONLY | O_CLOEXEC | (is_output ? O_NONBLOCK : 0));
    if (live.pipe < 0 || fcntl(live.pipe, F_SETFL, O_NONBLOCK) != 0 || fstat(live.pipe, &found) != 0)
        fail(FAILED, "%s: %s", is_output ? "standard output" : path, strerror(errno));
    if (fstat(STDOUT_FILENO, &output) == 0 && output.st_dev == found.st_dev && output.st_ino == found.st_ino)
        dup2(STDERR_FILENO, STDOUT_FILENO);
    if (live.in_place)
        hold(live.pipe);
    live.memory = stream_make();
    if (live.memory < 0)
        fail(FAILED, "memory for a stream: %s", strerror(errno));
}

/* Makes a file without a name, in the folder of a FIFO, for what its reader has not taken yet. */
static int create_unnamed(struct output *output)
{
    char folder[sizeof output->path], name[sizeof output->kept];
    strcpy(folder, output->path);
    output->file = open(dirname(folder), O_TMPFILE | O_RDWR | O_CLOEXEC, 0600);
    if (output->file >= 0)
        return output->file;
    snprintf(name, sizeof name, "%s.XXXXXX", output->path);
    output->file = mkostemp(name, O_CLOEXEC);
    if (output->file < 0)
        fail(FAILED, "%s: %s", name, strerror(errno));
    unlink(name);
    return output->file;
}

/* Makes the files anew, and holds the capture. */
static void make_outputs(const char *lower, const sigset_t *before)
{
    for (int i = live.in_place ? LOG : CAPTURE; i <= TREE; i++)
        keep(&outputs[i]);
    int capture = live.in_place ? create_unnamed(&outputs[CAPTURE]) : create(&outputs[CAPTURE]);
    if (!live.in_place)
        hold(capture);
    const char *magic = fuse_record_setup.plain ? FUSE_RECORD_PLAIN_MAGIC : FUSE_RECORD_MAGIC;
    if (write(capture, magic, strlen(magic)) != (ssize_t)strlen(magic))
        fail(FAILED, "%s: %s", outputs[CAPTURE].path, strerror(errno));
    create(&outputs[LOG]);
    if (lower)
        write_tree(lower, before);
}

/* Makes the server load the library, behind those that it is to load already: that of a sanitizer has to be the first. */
static void load_library(void)
{
    char library[PATH_MAX], all[2 * PATH_MAX];
    const char *others = getenv("LD_PRELOAD");
    beside(library, "fuse-record.so");
    if (access(library, R_OK) != 0)
        fail(FAILED, "%s: %s", library, strerror(errno));
    if (strpbrk(library, " :"))
        fail(FAILED, "%s: LD_PRELOAD takes no path with a space or a colon", library);
    if (snprintf(all, sizeof all, "%s%s%s", others ? others : "", others ? ":" : "", library) >= (int)sizeof all)
        fail(FAILED, "LD_PRELOAD: %s", strerror(ENAMETOOLONG));
    setenv("LD_PRELOAD", all, 1);
}

/* What is looked at of a request. */
struct request {
    struct fuse_in_header header;
    struct fuse_rename2_in renamed; /* of RENAME2 */
};

/* A request that waits for its answer. */
struct waiting {
    uint64_t unique, node;
    uint32_t operation, message;
    bool is_in_orders;
};

/* What a capture has. Those that wait are in memory that grows. */
struct sum {
    uint32_t messages, requests, answers;
    struct waiting *waiting;
    size_t waits, room;
};

/* Whether an order names the request. */
static bool is_in_orders(const struct request *request)
{
    switch (request->header.opcode) {
    case FUSE_LOOKUP: case FUSE_GETATTR: case FUSE_SETATTR: case FUSE_READLINK: case FUSE_SYMLINK: case FUSE_MKNOD:
    case FUSE_MKDIR: case FUSE_UNLINK: case FUSE_RMDIR: case FUSE_RENAME: case FUSE_LINK: case FUSE_OPEN: case FUSE_READ:
    case FUSE_WRITE: case FUSE_OPENDIR: case FUSE_READDIR: case FUSE_CREATE: case FUSE_READDIRPLUS: return true;
    case FUSE_RENAME2:
        return request->renamed.flags == 0 || request->renamed.flags == RENAME_NOREPLACE || request->renamed.flags == RENAME_EXCHANGE;
    default: return false;
    }
}

static bool is_to_be_answered(uint32_t operation)
{
    return operation != FUSE_FORGET && operation != FUSE_BATCH_FORGET && operation != FUSE_INTERRUPT &&
           operation != FUSE_NOTIFY_REPLY;
}

/* Counts a request, which waits from now on. */
static void count_request(struct sum *sum, const struct request *request)
{
    const struct fuse_in_header *header = &request->header;
    sum->requests++;
    if (!is_to_be_answered(header->opcode))
        return;
    if (sum->waits == sum->room) {
        size_t room = 2 * sum->room + 64;
        struct waiting *more = realloc(sum->waiting, room * sizeof *more);
        if (!more)
            return;
        sum->waiting = more;
        sum->room = room;
    }
    sum->waiting[sum->waits++] =
        (struct waiting){header->unique, header->nodeid, header->opcode, sum->messages, is_in_orders(request)};
}

/* Counts a message from the server, and takes off the request that it answers. A notification answers none. */
static void count_answer(struct sum *sum, const struct fuse_out_header *header)
{
    if (header->unique == 0)
        return;
    sum->answers++;
    for (size_t i = sum->waits; i-- > 0;) {
        if (sum->waiting[i].unique != header->unique)
            continue;
        memmove(sum->waiting + i, sum->waiting + i + 1, (--sum->waits - i) * sizeof *sum->waiting);
        return;
    }
}

/* Counts a record, of which the message is there up to what is looked at. */
static void count_record(struct sum *sum, unsigned char direction, const unsigned char *message, size_t length)
{
    struct request request = {0};
    struct fuse_out_header answer;
    memcpy(&request, message, length < sizeof request ? length : sizeof request);
    memcpy(&answer, &request, sizeof answer);
    if (direction == FUSE_RECORD_READ && length >= sizeof request.header)
        count_request(sum, &request);
    else if (direction == FUSE_RECORD_WRITE && length >= sizeof answer)
        count_answer(sum, &answer);
    sum->messages++;
}

/* Counts the whole records of the capture. Its path is not asked for: what was mounted may stand above it. */
static struct sum sum_up(void)
{
    struct sum sum = {0};
    const size_t head = fuse_record_head_size();
    unsigned char record[FUSE_RECORD_HEAD + sizeof(struct request)] = {0};
    struct stat found;
    off_t size = fstat(outputs[CAPTURE].file, &found) == 0 ? found.st_size : 0;
    off_t at = sizeof FUSE_RECORD_MAGIC - 1;
    while (pread(outputs[CAPTURE].file, record, head + sizeof(struct request), at) >= (ssize_t)head) {
        uint32_t stated;
        memcpy(&stated, record + head - sizeof stated, sizeof stated);
        size_t length = le32toh(stated);
        at += (off_t)(head + length);
        if (at > size)
            break;
        count_record(&sum, record[0], record + head, length);
    }
    return sum;
}

/* Whether the capture has a message. */
static bool has_messages(void)
{
    return !is_empty(outputs[CAPTURE].file);
}

/* Writes one line to the log, and where it is to be said, on standard error. */
__attribute__((format(printf, 2, 3))) static void tell(bool said, const char *format, ...)
{
    char line[PATH_MAX + 512] = "fuse-record: ";
    const size_t before = strlen(line);
    va_list words;
    va_start(words, format);
    vsnprintf(line + before, sizeof line - before - 1, format, words);
    va_end(words);
    strcat(line, "\n");
    if (said)
        fuse_record_say(line);
    struct iovec part = {line + before, strlen(line) - before};
    fuse_record_write(outputs[LOG].file, &part, 1, -1);
}

/* How the server ended, of which this is the status of wait. */
static const char *how_it_ended(int ended)
{
    static char words[80];
    if (WIFSIGNALED(ended))
        snprintf(words, sizeof words, "was ended by signal %d (%s)", WTERMSIG(ended), strsignal(WTERMSIG(ended)));
    else
        snprintf(words, sizeof words, "ended with status %d", WEXITSTATUS(ended));
    return words;
}

/* The status to end with as the server did. */
static int status_of(int ended)
{
    if (WIFSIGNALED(ended))
        return 128 + WTERMSIG(ended);
    return WEXITSTATUS(ended) == NOT_WHOLE || WEXITSTATUS(ended) == NOT_TRACED ? FAILED : WEXITSTATUS(ended);
}

/* What was handed on of the capture is counted as it goes. */
static struct sum streamed;

static void count_streamed(unsigned char direction, const unsigned char *message, size_t length)
{
    count_record(&streamed, direction, message, length);
}

static void tell_left(const char *cause, uint32_t messages)
{
    tell(true, "%s: %s: the stream ends with %" PRIu32 " messages", strcmp(live.path, "-") == 0 ? "standard output" : live.path, cause,
         messages);
}

/* Begins to hand the capture on. The server has started, and goes on without a stream where there can be none. */
static void start_stream(void)
{
    const struct stream_setup setup = {live.pipe, outputs[CAPTURE].file, !live.in_place, fuse_record_head_size(), count_streamed, tell_left};
    int error = stream_start(&setup);
    if (error == 0)
        return;
    tell_left(strerror(error), 0);
    close(live.pipe);
    live.path = NULL;
}

/* Tells at the end what was recorded, and answers the status to end with. */
static int tell_sum(int ended, const sigset_t *signals)
{
    uint32_t written = 0;
    bool whole = live.path ? stream_end(signals, &written) : !live.in_place;
    struct sum sum = live.path ? streamed : sum_up();
    char fault[200] = "";
    size_t unnamed = 0, missed = 0;
    for (size_t i = 0; i < sum.waits; i++) {
        const struct waiting *request = &sum.waiting[i];
        unnamed += !request->is_in_orders;
        /* No program waits for these two: a file system is unmounted before they are answered, and no answer taken then. */
        bool waited_for = request->operation != FUSE_RELEASE && request->operation != FUSE_RELEASEDIR;
        missed += waited_for || WIFSIGNALED(ended);
        tell(false, "message %" PRIu32 ": %s of node %" PRIu64 ", unique %" PRIu64 ": never answered", request->message,
             fuse_record_name(request->operation), request->node, request->unique);
    }
    if (sum.messages == 0)
        snprintf(fault, sizeof fault, ": no message was seen, and the server %s", how_it_ended(ended));
    else if (missed > 0)
        snprintf(fault, sizeof fault, ": the server %s with requests unanswered", how_it_ended(ended));
    else if (live.in_place && !whole)
        snprintf(fault, sizeof fault, ": the stream ended with %" PRIu32 " messages", written);
    tell(true,
         "%s: %" PRIu32 " messages, %" PRIu32 " requests, %" PRIu32 " answers; "
         "%zu requests were never answered, %zu of them of operations that no order names%s",
         outputs[CAPTURE].path, sum.messages, sum.requests, sum.answers, sum.waits, unnamed, fault);
    free(sum.waiting);
    return fault[0] ? NOT_WHOLE : status_of(ended);
}

/*
 * Three processes: the one that was started follows the watcher, which it forks, and ends as that says; the watcher is the parent
 * of the server, and of all that the server leaves behind, so that it sees the end of a server that goes into the background. The
 * two hand on the signals that they are sent, but for those of a terminal, which the server has got too.
 */
static void choose_signals(sigset_t *signals)
{
    static const int handed_on[] = {SIGTERM, SIGINT, SIGHUP, SIGQUIT, SIGUSR1, SIGUSR2};
    sigemptyset(signals);
    sigaddset(signals, SIGCHLD);
    sigaddset(signals, SIGRTMIN);
    for (size_t i = 0; i < sizeof handed_on / sizeof *handed_on; i++)
        sigaddset(signals, handed_on[i]);
}

static void hand_on(pid_t child, const siginfo_t *signal)
{
    if (child > 0 && signal->si_signo != SIGCHLD && signal->si_signo != SIGRTMIN && signal->si_code <= 0)
        kill(child, signal->si_signo);
}

/* Starts the server, and answers when it has begun, or ends where it can't. */
static pid_t start(char **words, const sigset_t *before)
{
    int began[2], error;
    if (pipe2(began, O_CLOEXEC) != 0)
        fail(FAILED, "a pipe: %s", strerror(errno));
    pid_t server = fork();
    if (server == 0) {
        sigprocmask(SIG_SETMASK, before, NULL);
        umask(0);
        execvp(words[0], words);
        error = errno;
        while (write(began[1], &error, sizeof error) < 0 && errno == EINTR)
            ;
        _exit(NO_SERVER);
    }
    if (server < 0)
        fail(FAILED, "%s: %s", words[0], strerror(errno));
    close(began[1]);
    if (read(began[0], &error, sizeof error) == sizeof error)
        fail(NO_SERVER, "%s: %s", words[0], strerror(error));
    close(began[0]);
    return server;
}

/* The same with its system calls traced. */
static pid_t start_traced(char **words, const sigset_t *before)
{
    pid_t server;
    const char *call;
    switch (trace_start(words, before, &server, &call)) {
    case TRACE_STARTED: return server;
    case TRACE_NO_SERVER: fail(NO_SERVER, "%s: %s", words[0], strerror(errno));
    default: fail(NOT_TRACED, "the system calls of %s can't be traced: %s: %s", words[0], call, strerror(errno));
    }
}

/* The status of a server that goes on in the background: its own, or that of no message. */
static int status_in_background(int ended)
{
    if (has_messages())
        return status_of(ended);
    tell(true, "%s: no message was seen in the %d seconds since the server went into the background", outputs[CAPTURE].path, PATIENCE);
    return NOT_WHOLE;
}

/* Lets the first process end with a status, since what it waits for goes on in the background. */
static void hand_back(pid_t first, int status)
{
    struct stat error;
    /* Nobody is to wait for the end of a pipe that is held here. Standard error stays where it is a terminal or a file. */
    close(STDIN_FILENO);
    close(STDOUT_FILENO);
    if (!isatty(STDERR_FILENO) && (fstat(STDERR_FILENO, &error) != 0 || !S_ISREG(error.st_mode)))
        close(STDERR_FILENO);
    if (chdir("/") == 0 && getppid() == first)
        sigqueue(first, SIGRTMIN, (union sigval){.sival_int = status});
}

static int64_t milliseconds(void)
{
    struct timespec now;
    clock_gettime(CLOCK_MONOTONIC, &now);
    return (int64_t)now.tv_sec * 1000 + now.tv_nsec / 1000000;
}

/* Tells the server where it finds what this process has open for a stream. */
static void name_stream(void)
{
    char path[64];
    snprintf(path, sizeof path, "/proc/%d/fd/%d", (int)getpid(), live.memory);
    setenv("FUSE_RECORD_STREAM", path, 1);
    snprintf(path, sizeof path, "/proc/%d/fd/%d", (int)getpid(), outputs[CAPTURE].file);
    if (live.in_place)
        setenv("FUSE_RECORD_KEPT", path, 1);
}

/* Starts the server and waits for the end of all its processes. Answers the status to end with. */
static int watch(pid_t first, bool traced, char **words, const sigset_t *signals, const sigset_t *before)
{
    const struct timespec none = {0, 0}, moment = {0, 50000000};
    int ended = 0;
    int64_t patience = 0; /* when it ends, in milliseconds */
    bool failed = false, handed_back = false, told = false, busy = false;
    prctl(PR_SET_CHILD_SUBREAPER, 1);
    prctl(PR_SET_PDEATHSIG, SIGTERM);
    if (live.path)
        name_stream();
    pid_t server = traced ? start_traced(words, before) : start(words, before);
    if (live.path)
        start_stream();
    for (int i = CAPTURE; i <= TREE; i++)
        if (outputs[i].kept[0])
            unlink(outputs[i].kept);
    for (;;) {
        siginfo_t got;
        int status;
        pid_t child;
        if (sigtimedwait(signals, &got, busy ? &none : server > 0 || handed_back ? NULL : &moment) > 0)
            hand_on(server, &got);
        busy = traced && trace_stops();
        while ((child = traced ? trace_ended(&status) : waitpid(-1, &status, WNOHANG)) > 0) {
            /* Of several processes the first that did not end well. */
            if (child == server || (server == 0 && ended == 0))
                ended = status;
            if (child == server) {
                server = 0;
                failed = status != 0;
                patience = milliseconds() + PATIENCE * 1000;
            }
        }
        if (child < 0)
            return told ? FAILED : tell_sum(ended, signals);
        if (server > 0 || handed_back)
            continue;
        /* What a server leaves behind that failed is no server in the background. What is traced can't do without this process. */
        bool late = milliseconds() > patience;
        if (failed && late) {
            int result = tell_sum(ended, signals);
            if (!traced)
                return result;
            hand_back(first, result);
            handed_back = told = true;
        } else if (!failed && (late || has_messages())) {
            hand_back(first, status_in_background(ended));
            handed_back = true;
        }
    }
}

/* Waits for the watcher, or for its word that the server has gone into the background. Answers the status to end with. */
static int follow(pid_t watcher, const sigset_t *signals)
{
    for (;;) {
        siginfo_t got;
        int status, number = sigwaitinfo(signals, &got);
        if (number == SIGRTMIN && got.si_pid == watcher)
            return got.si_value.sival_int;
        if (waitpid(watcher, &status, WNOHANG) == watcher)
            return WIFEXITED(status) ? WEXITSTATUS(status) : FAILED; /* somebody has ended the watcher by a signal */
        if (number > 0)
            hand_on(watcher, &got);
    }
}

int main(int count, char **words)
{
    enum { LOWER = 256, REFUSE, FORCE, PLAIN, KEEP_INIT, KEEP_REFUSED, KEEP_OWN, TRACE, PRELOAD, LIVE };
    static const struct option options[] = {
        {"output", required_argument, NULL, 'o'},
        {"live", required_argument, NULL, LIVE},
        {"plain", no_argument, NULL, PLAIN},
        {"force", no_argument, NULL, FORCE},
        {"lower", required_argument, NULL, LOWER},
        {"refuse", required_argument, NULL, REFUSE},
        {"keep-init", no_argument, NULL, KEEP_INIT},
        {"keep-refused", no_argument, NULL, KEEP_REFUSED},
        {"keep-own", no_argument, NULL, KEEP_OWN},
        {"trace", no_argument, NULL, TRACE},
        {"preload", no_argument, NULL, PRELOAD},
        {"help", no_argument, NULL, 'h'},
        {0},
    };
    const char *output = NULL, *lower = NULL, *traced = NULL;
    uint64_t refused = 0;
    bool forced = false, preloaded = false;
    unsetenv("FUSE_RECORD_KEPT");
    unsetenv("FUSE_RECORD_STREAM");
    unsetenv("FUSE_RECORD_PLAIN");
    unsetenv("FUSE_RECORD_KEEP_INIT");
    unsetenv("FUSE_RECORD_KEEP_REFUSED");
    unsetenv("FUSE_RECORD_KEEP_OWN");
    for (int option; (option = getopt_long(count, words, "+o:h", options, NULL)) != -1;) {
        switch (option) {
        case 'o': output = optarg; break;
        case LIVE: live.path = optarg; break;
        case PLAIN:
            fuse_record_setup.plain = true;
            setenv("FUSE_RECORD_PLAIN", "1", 1);
            break;
        case FORCE: forced = true; break;
        case LOWER: lower = optarg; break;
        case REFUSE: refused |= operations(optarg); break;
        case KEEP_INIT: setenv("FUSE_RECORD_KEEP_INIT", "1", 1); break;
        case KEEP_REFUSED: setenv("FUSE_RECORD_KEEP_REFUSED", "1", 1); break;
        case KEEP_OWN: setenv("FUSE_RECORD_KEEP_OWN", "1", 1); break;
        case TRACE: traced = "is to be traced"; break;
        case PRELOAD: preloaded = true; break;
        case 'h': fputs(usage, stdout); return 0;
        default: fputs(usage, stderr); return MISUSED;
        }
    }
    if (!output || optind == count || (traced && preloaded)) {
        fputs(usage, stderr);
        return MISUSED;
    }

    char mask[20];
    sigset_t signals, before;
    if (strcmp(output, "-") == 0)
        fail(MISUSED, "the log stands beside the capture: -o FILE --live - writes it to standard output too");
    name_outputs(output);
    choose_pipe();
    refuse_places(lower, words + optind);
    refuse_files(forced);
    if (live.path)
        open_pipe();
    signal(SIGCHLD, SIG_DFL);
    choose_signals(&signals);
    sigprocmask(SIG_BLOCK, &signals, &before);
    make_outputs(lower, &before);
    snprintf(mask, sizeof mask, "%" PRIx64, refused);
    setenv("FUSE_RECORD_CAPTURE", outputs[CAPTURE].path, 1);
    setenv("FUSE_RECORD_REFUSE", mask, 1);
    if (!traced && !preloaded)
        traced = trace_is_needed(words[optind], live.path);
    if (traced)
        tell(false, "%s %s: its system calls are stopped, and it loads no library", words[optind], traced);
    else
        load_library();
    pid_t first = getpid(), watcher = fork();
    if (watcher < 0)
        fail(FAILED, "a process: %s", strerror(errno));
    if (watcher == 0)
        return watch(first, traced, words + optind, &signals, &before);
    close(outputs[CAPTURE].file);
    if (live.path)
        close(live.pipe);
    return follow(watcher, &signals);
}
