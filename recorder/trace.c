/*
 * Records a server of any kind, static or Go's too: its system calls are stopped where they may be on the FUSE device (ptrace), and
 * what it reads and writes there is taken from its memory. README.md says what is recorded, and fuse-record.h records it.
 */
#define _GNU_SOURCE
#include <elf.h>
#include <limits.h>
#include <linux/audit.h>
#include <linux/filter.h>
#include <linux/seccomp.h>
#include <stddef.h>
#include <sys/ioctl.h>
#include <sys/prctl.h>
#include <sys/ptrace.h>
#include <sys/user.h>
#include <sys/wait.h>
#include <sys/xattr.h>

#include "fuse-record.h"
#include "trace.h"

/* ---- which servers have to be traced */

/* A program in memory. */
struct program {
    const unsigned char *bytes;
    size_t length;
};

/* A part of a program, or NULL where it is not within it. */
static const void *part_of(const struct program *program, uint64_t offset, uint64_t length)
{
    return offset <= program->length && length <= program->length - offset ? program->bytes + offset : NULL;
}

/* Whether a program has a section of this name. */
static bool has_section(const struct program *program, const Elf64_Ehdr *head, const char *name)
{
    const size_t size = strlen(name) + 1;
    Elf64_Shdr names, section;
    const void *at = part_of(program, head->e_shoff + (uint64_t)head->e_shstrndx * sizeof names, sizeof names);
    if (head->e_shentsize != sizeof section || head->e_shstrndx >= head->e_shnum || !at)
        return false;
    memcpy(&names, at, sizeof names);
    for (uint64_t i = 0; i < head->e_shnum; i++) {
        if (!(at = part_of(program, head->e_shoff + i * sizeof section, sizeof section)))
            return false;
        memcpy(&section, at, sizeof section);
        at = part_of(program, names.sh_offset + section.sh_name, size);
        if (at && memcmp(at, name, size) == 0)
            return true;
    }
    return false;
}

/* Whether a program has a segment of this type, and that it begins with these words where there are any. */
static bool has_segment(const struct program *program, const Elf64_Ehdr *head, uint32_t type, const void *words, size_t size)
{
    Elf64_Phdr segment;
    for (uint64_t i = 0; head->e_phentsize == sizeof segment && i < head->e_phnum; i++) {
        const void *at = part_of(program, head->e_phoff + i * sizeof segment, sizeof segment);
        if (!at)
            return false;
        memcpy(&segment, at, sizeof segment);
        at = part_of(program, segment.p_offset, size);
        if (segment.p_type == type && (size == 0 || (at && memcmp(at, words, size) == 0)))
            return true;
    }
    return false;
}

/* Why a program that is in memory has to be traced, or NULL. Scripts are run by a program that loads the C library. */
static const char *why_traced(const struct program *program, bool streams)
{
    Elf64_Ehdr head;
    const void *at = part_of(program, 0, sizeof head);
    if (!at || memcmp(at, ELFMAG, SELFMAG) != 0 || program->bytes[EI_CLASS] != ELFCLASS64)
        return NULL;
    memcpy(&head, at, sizeof head);
    if (has_section(program, &head, FUSE_RECORD_MARK))
        return NULL;
    if (has_section(program, &head, FUSE_RECORD_TIMED_MARK))
        return streams ? "has an older recorder in itself, which holds nothing back from a stream" : NULL;
    if (has_section(program, &head, FUSE_RECORD_OLDER_MARK))
        return "has an older recorder in itself, which writes no times";
    /* Go's linker writes the one or the other: what a build can be told by, and a note with its name. */
    if (has_section(program, &head, ".go.buildinfo") || has_section(program, &head, ".note.go.buildid"))
        return "was made by Go, and makes its system calls itself";
    return has_segment(program, &head, PT_INTERP, NULL, 0) ? NULL : "is linked statically";
}

/* Opens the program that execvp would run, or answers -1. */
static int open_program(const char *name)
{
    char path[PATH_MAX];
    struct stat found;
    const char *folders = getenv("PATH");
    if (strchr(name, '/'))
        return open(name, O_RDONLY | O_CLOEXEC | O_NONBLOCK);
    while (folders) {
        const char *end = strchrnul(folders, ':');
        int length = snprintf(path, sizeof path, "%.*s%s%s", (int)(end - folders), folders, end > folders ? "/" : "", name);
        if (length < (int)sizeof path && access(path, X_OK) == 0 && stat(path, &found) == 0 && S_ISREG(found.st_mode))
            return open(path, O_RDONLY | O_CLOEXEC);
        folders = *end ? end + 1 : NULL;
    }
    return -1;
}

const char *trace_is_needed(const char *server, bool streams)
{
    const char *why = NULL;
    struct stat found;
    int file = open_program(server);
    /* What can't be read is left to be told by its start. */
    if (file < 0)
        return NULL;
    if (fstat(file, &found) == 0 && S_ISREG(found.st_mode) && found.st_size > 0) {
        struct program program = {.length = (size_t)found.st_size};
        void *bytes = mmap(NULL, program.length, PROT_READ, MAP_PRIVATE, file, 0);
        if (bytes != MAP_FAILED) {
            program.bytes = bytes;
            why = why_traced(&program, streams);
            munmap(bytes, program.length);
        }
    }
    close(file);
    return why;
}

#ifdef __x86_64__

/* ---- the processes that are traced */

/* The headers of Linux before 6.9 have no name for this. */
#ifndef PIDFD_THREAD
#define PIDFD_THREAD O_EXCL
#endif

/* A system call, as it was made. */
struct call {
    uint64_t number, words[6];
};

/* What a thread is doing in a call of which the end is waited for. */
enum doing { NOTHING, RECEIVES, RECEIVES_INTO_PIPE, SENDS };

struct thread {
    pid_t id;
    pid_t process; /* 0: not yet asked for */
    enum doing doing;
    struct call call;
    struct fuse_record_sent sent;
};

static struct {
    struct thread *threads;
    size_t count, room;
    bool filtered; /* only the calls stop that may be on the device; else all do, at their entry and at their end */
    bool blind;    /* it was told that a descriptor could not be looked at */
    bool began;    /* the INIT of a mount was seen */
} traced;

static unsigned char message[FUSE_RECORD_MAX_MESSAGE + 1];

/* The thread of this number, a new one where it is not known, or NULL where there is no memory. */
static struct thread *thread_of(pid_t id)
{
    for (size_t i = 0; i < traced.count; i++)
        if (traced.threads[i].id == id)
            return &traced.threads[i];
    if (traced.count == traced.room) {
        size_t room = 2 * traced.room + 16;
        struct thread *more = realloc(traced.threads, room * sizeof *more);
        if (!more)
            return NULL;
        traced.threads = more;
        traced.room = room;
    }
    traced.threads[traced.count] = (struct thread){.id = id};
    return &traced.threads[traced.count++];
}

/* What a thread was about to write stays in the capture: nothing tells whether the kernel took it. */
static void forget_thread(pid_t id)
{
    for (size_t i = 0; i < traced.count; i++)
        if (traced.threads[i].id == id) {
            if (traced.threads[i].doing == SENDS)
                fuse_record_let_go(traced.threads[i].sent.place);
            traced.threads[i] = traced.threads[--traced.count];
            return;
        }
}

/* A number that /proc tells of a process or thread, or -1. */
static long told_by_proc(pid_t id, const char *name)
{
    char path[40], line[256];
    long number = -1;
    snprintf(path, sizeof path, "/proc/%d/status", (int)id);
    FILE *file = fopen(path, "re");
    while (file && number < 0 && fgets(line, sizeof line, file))
        if (strncmp(line, name, strlen(name)) == 0)
            number = strtol(line + strlen(name), NULL, 10);
    if (file)
        fclose(file);
    return number;
}

/*
 * Lets a thread run on, with a signal where there is one. Whatever fails here fails as the thread was killed, and is waited for: its
 * end is told.
 */
static void let_run(const struct thread *thread, int signal)
{
    bool stops_at_end = !traced.filtered || thread->doing != NOTHING;
    ptrace(stops_at_end ? PTRACE_SYSCALL : PTRACE_CONT, thread->id, NULL, (void *)(intptr_t)signal);
}

/* ---- its memory and its descriptors */

/* Copies the first bytes of parts of the thread's memory here. */
static bool fetch(const struct thread *thread, void *bytes, size_t length, const struct iovec *parts, int count)
{
    struct iovec here = {bytes, length};
    return length == 0 || process_vm_readv(thread->id, &here, 1, parts, (unsigned long)count, 0) == (ssize_t)length;
}

/* Copies bytes to parts of the thread's memory. */
static bool put(const struct thread *thread, const void *bytes, size_t length, const struct iovec *parts, int count)
{
    struct iovec here = {(void *)bytes, length};
    return process_vm_writev(thread->id, &here, 1, parts, (unsigned long)count, 0) == (ssize_t)length;
}

/* The parts of its memory that a thread reads or writes; -1 where the kernel refuses the call. */
static int parts_of(const struct thread *thread, const struct call *call, struct iovec parts[IOV_MAX])
{
    struct iovec all = {(void *)(uintptr_t)call->words[1], 0};
    if (call->number == SYS_read || call->number == SYS_write) {
        parts[0] = (struct iovec){all.iov_base, (size_t)call->words[2]};
        return 1;
    }
    if (call->words[2] > IOV_MAX)
        return -1;
    all.iov_len = (size_t)call->words[2] * sizeof *parts;
    return fetch(thread, parts, all.iov_len, &all, 1) ? (int)call->words[2] : -1;
}

/*
 * Whether a descriptor of a thread is of the FUSE device. Nothing is asked of its file system, which may be the one that is served:
 * the server would be waited for that waits to be let on.
 */
static bool is_device(const struct thread *thread, uint64_t descriptor)
{
    char path[64];
    struct statx found;
    snprintf(path, sizeof path, "/proc/%d/fd/%d", (int)thread->id, (int)descriptor);
    if (statx(AT_FDCWD, path, AT_STATX_DONT_SYNC | AT_NO_AUTOMOUNT, STATX_TYPE, &found) == 0)
        return S_ISCHR(found.stx_mode) && found.stx_rdev_major == 10 && found.stx_rdev_minor == 229;
    /* EACCES: also of a file that only its owner may look at, which is no device. */
    char target[8];
    if ((errno == EACCES || errno == EPERM) && readlink(path, target, sizeof target) < 0 && errno != ENOENT && !traced.blind) {
        traced.blind = true;
        fuse_record_note("process %d: its descriptors can't be looked at (%s): what it reads and writes is not recorded",
                         (int)thread->id, strerror(errno));
    }
    return false;
}

/* A descriptor of this process for what one of a thread is for, or -1. To keep it would keep the mount of a server that has ended. */
static int borrow(struct thread *thread, uint64_t descriptor)
{
    int process = (int)syscall(SYS_pidfd_open, thread->id, PIDFD_THREAD);
    if (process < 0) {
        /* Before Linux 6.9 a process has such a descriptor, and a thread has none. */
        long id = thread->process ? thread->process : told_by_proc(thread->id, "Tgid:");
        thread->process = id > 0 ? (pid_t)id : 0;
        process = (int)syscall(SYS_pidfd_open, thread->process, 0);
    }
    if (process < 0)
        return -1;
    int borrowed = (int)syscall(SYS_pidfd_getfd, process, (int)descriptor, 0);
    int error = errno;
    close(process);
    errno = error;
    return borrowed;
}

/* Opens a thread's pipe to take out of it and to put into it, or answers -1. */
static int open_pipe(const struct thread *thread, uint64_t descriptor)
{
    char path[64];
    struct stat found;
    snprintf(path, sizeof path, "/proc/%d/fd/%d", (int)thread->id, (int)descriptor);
    if (stat(path, &found) != 0 || !S_ISFIFO(found.st_mode))
        return -1;
    return open(path, O_RDWR | O_NONBLOCK | O_CLOEXEC);
}

/* Takes all bytes out of a pipe, and answers how many, or -1 where they are more than a message and what else may be there. */
static ssize_t empty_pipe(int pipe)
{
    int waiting = 0;
    if (ioctl(pipe, FIONREAD, &waiting) != 0 || (size_t)waiting > sizeof message)
        return -1;
    ssize_t taken = 0, got = 1;
    while (taken < waiting && got > 0) {
        got = read(pipe, message + taken, (size_t)(waiting - taken));
        taken += got > 0 ? got : 0;
    }
    return taken;
}

/* Puts bytes into a pipe that was emptied. It has room for all that it had. */
static void fill_pipe(int pipe, const unsigned char *bytes, size_t length)
{
    if (length > 0 && write(pipe, bytes, length) != (ssize_t)length)
        fuse_record_stop("a message could not be put back into its pipe");
}

/* ---- its registers */

/* Makes the call of a thread that stands at its entry none, which has this result. */
static void answer_call(const struct thread *thread, int64_t result)
{
    struct user_regs_struct registers;
    if (ptrace(PTRACE_GETREGS, thread->id, NULL, &registers) != 0)
        return; /* it was killed */
    registers.orig_rax = (unsigned long long)-1;
    registers.rax = (unsigned long long)result;
    ptrace(PTRACE_SETREGS, thread->id, NULL, &registers);
}

/* Gives the call of a thread that stands at its end another result. */
static void change_result(const struct thread *thread, int64_t result)
{
    struct user_regs_struct registers;
    if (ptrace(PTRACE_GETREGS, thread->id, NULL, &registers) != 0)
        return;
    registers.rax = (unsigned long long)result;
    ptrace(PTRACE_SETREGS, thread->id, NULL, &registers);
}

/* Makes a thread that stands at the end of its call make it once more: the instruction has two bytes. */
static void call_again(const struct thread *thread)
{
    struct user_regs_struct registers;
    if (ptrace(PTRACE_GETREGS, thread->id, NULL, &registers) != 0)
        return;
    registers.rax = thread->call.number;
    registers.rip -= 2;
    ptrace(PTRACE_SETREGS, thread->id, NULL, &registers);
}

/* ---- requests */

/* Records a request that a thread has read and does not see yet; whether it was answered here. Its length may change. */
static bool record_request(struct thread *thread, struct iovec *request)
{
    struct fuse_in_header header;
    memcpy(&header, request->iov_base, sizeof header);
    if (header.opcode == FUSE_INIT) {
        if (traced.began)
            fuse_record_stop("a second mount begins");
        traced.began = true;
    }
    int device = borrow(thread, thread->call.words[0]);
    if (device < 0) {
        fuse_record_stop("a request can't be answered in the server's place");
        return false;
    }
    bool answered = fuse_record_request(device, request, 1, &request->iov_len);
    close(device);
    return answered;
}

/* A thread has read a request into its memory. */
static void received(struct thread *thread, size_t length)
{
    struct iovec parts[IOV_MAX], request = {message, length};
    int count = parts_of(thread, &thread->call, parts);
    if (length > FUSE_RECORD_MAX_MESSAGE || count < 0 || !fetch(thread, message, length, parts, count)) {
        fuse_record_stop("a request can't be read from the server's memory");
        return;
    }
    if (record_request(thread, &request)) {
        call_again(thread);
        return;
    }
    struct fuse_in_header header;
    memcpy(&header, message, sizeof header);
    if (header.opcode != FUSE_INIT)
        return;
    if (!put(thread, message, request.iov_len, parts, count))
        fuse_record_stop("INIT can't be changed in the server's memory");
    else
        change_result(thread, (int64_t)request.iov_len);
}

/* A thread has spliced a request into a pipe, perhaps behind other bytes. */
static void received_into_pipe(struct thread *thread, size_t length)
{
    int pipe = open_pipe(thread, thread->call.words[2]);
    ssize_t all = pipe < 0 ? -1 : empty_pipe(pipe);
    if (all < (ssize_t)length) {
        fuse_record_stop("a request can't be read from the server's pipe");
        if (all > 0)
            fill_pipe(pipe, message, (size_t)all);
    } else {
        size_t before = (size_t)all - length;
        struct iovec request = {message + before, length};
        bool answered = record_request(thread, &request);
        fill_pipe(pipe, message, before + (answered ? 0 : request.iov_len));
        if (answered)
            call_again(thread);
        else
            change_result(thread, (int64_t)request.iov_len);
    }
    if (pipe >= 0)
        close(pipe);
}

/* ---- messages from the server */

/*
 * Records a message that a thread is about to write. A reply is written here, so that it is recorded if and only if it was written,
 * and the thread's call has the result of that. A notification may wait for a request that this or another thread is to answer: the
 * thread writes it. Answers whether the thread is to make its call.
 */
static bool send_message(struct thread *thread, uint64_t descriptor, size_t length)
{
    struct iovec part = {message, length};
    struct fuse_out_header header = {0};
    memcpy(&header, message, length < sizeof header ? length : sizeof header);
    int device = length >= sizeof header && header.unique != 0 ? borrow(thread, descriptor) : -1;
    if (device < 0) {
        uint32_t minor;
        if (fuse_record_answers_init(header.unique, &minor))
            fuse_record_stop("the answer of INIT can't be changed");
        thread->sent = fuse_record_before(&part, 1);
        thread->doing = SENDS;
        return true;
    }
    ssize_t written = fuse_record_send(device, &part, 1);
    answer_call(thread, written < 0 ? -errno : written);
    close(device);
    return false;
}

/* A thread is about to write a message from its memory. */
static void sends(struct thread *thread, const struct call *call)
{
    struct iovec parts[IOV_MAX];
    int count = parts_of(thread, call, parts);
    size_t length = 0;
    for (int i = 0; i < count; i++)
        length += parts[i].iov_len <= sizeof message - length ? parts[i].iov_len : sizeof message - length;
    if (count < 0)
        return;
    if (length > FUSE_RECORD_MAX_MESSAGE)
        fuse_record_stop("a message is longer than a capture may have");
    else if (!fetch(thread, message, length, parts, count))
        fuse_record_stop("a message can't be read from the server's memory");
    else
        send_message(thread, call->words[0], length);
}

/* A thread is about to splice a message out of a pipe. Where the pipe has less, the kernel refuses the call. */
static void sends_from_pipe(struct thread *thread, const struct call *call)
{
    int pipe = open_pipe(thread, call->words[0]);
    size_t length = (size_t)call->words[4];
    if (pipe < 0)
        return;
    ssize_t all = empty_pipe(pipe);
    if (all < 0)
        fuse_record_stop("a message can't be read from the server's pipe");
    else if ((size_t)all < length || length > FUSE_RECORD_MAX_MESSAGE || send_message(thread, call->words[2], length))
        fill_pipe(pipe, message, (size_t)all);
    else
        fill_pipe(pipe, message + length, (size_t)all - length);
    close(pipe);
}

/* ---- calls and stops */

/* The calls that may be on the device, by how the kernel numbers them for 64-bit programs, and others. */
static const uint32_t own_calls[] = {SYS_read, SYS_write, SYS_readv, SYS_writev, SYS_splice, SYS_io_uring_setup};
enum { X32 = 0x40000000, SPLICE_OF_I386 = 313 };
static const uint32_t i386_calls[] = {3, 4, 145, 146, SPLICE_OF_I386};
static const uint32_t x32_calls[] = {X32, X32 + 1, X32 + 515, X32 + 516, X32 + SYS_splice};

#define COUNT(list) (sizeof(list) / sizeof *(list))

static bool is_in(uint64_t number, const uint32_t *list, size_t count)
{
    for (size_t i = 0; i < count; i++)
        if (list[i] == number)
            return true;
    return false;
}

/* A call by the numbers of another kind of programs. Their words are laid out otherwise: no message of theirs is recorded. */
static void foreign_call(const struct thread *thread, uint32_t kind, const struct call *call)
{
    bool i386 = kind == AUDIT_ARCH_I386;
    if (!(i386 ? is_in(call->number, i386_calls, COUNT(i386_calls)) : is_in(call->number, x32_calls, COUNT(x32_calls))))
        return;
    bool splices = call->number == (i386 ? SPLICE_OF_I386 : X32 + SYS_splice);
    if (is_device(thread, call->words[0]) || (splices && is_device(thread, call->words[2])))
        fuse_record_stop("the server makes system calls of a 32-bit program");
}

/*
 * Whether a thread is about to become a program that has more rights than its user, as fusermount3 has, and would not get them while
 * a user traces it without rights of his own.
 */
static bool becomes_privileged(const struct thread *thread, const struct call *call)
{
    enum { PAGE = 4096 };
    char name[PAGE + 1] = "", path[PAGE + 40];
    struct stat found;
    if (traced.filtered || call->number != SYS_execve || geteuid() == 0)
        return false;
    /* What is read ends with its page: the next one need not be there. */
    for (size_t length = 0; length < PAGE && !memchr(name, '\0', length);) {
        uint64_t address = call->words[0] + length;
        size_t more = PAGE - address % PAGE;
        struct iovec part = {(void *)(uintptr_t)address, more < PAGE - length ? more : PAGE - length};
        if (!fetch(thread, name + length, part.iov_len, &part, 1))
            return false;
        length += part.iov_len;
    }
    snprintf(path, sizeof path, "/proc/%d/%s/%s", (int)thread->id, name[0] == '/' ? "root" : "cwd", name);
    return stat(path, &found) == 0 && S_ISREG(found.st_mode) &&
           (found.st_mode & (S_ISUID | S_ISGID) || getxattr(path, "security.capability", NULL, 0) > 0);
}

/* A thread is about to make a call. */
static void begins_call(struct thread *thread, const struct call *call)
{
    switch (call->number) {
    case SYS_read: case SYS_readv:
        if (is_device(thread, call->words[0]))
            thread->doing = RECEIVES;
        break;
    case SYS_write: case SYS_writev:
        if (is_device(thread, call->words[0]))
            sends(thread, call);
        break;
    case SYS_splice:
        if (call->words[1] != 0 || call->words[3] != 0 || call->words[4] == 0)
            break; /* the device has no offsets */
        if (is_device(thread, call->words[0]))
            thread->doing = RECEIVES_INTO_PIPE;
        else if (is_device(thread, call->words[2]))
            sends_from_pipe(thread, call);
        break;
    case SYS_io_uring_setup:
        fuse_record_note("process %d makes an io_uring: what it reads and writes by that is not recorded", (int)thread->id);
        break;
    default: break;
    }
    thread->call = *call;
}

/* A thread has made the call of which the end was waited for. */
static void ends_call(struct thread *thread, int64_t result)
{
    enum doing doing = thread->doing;
    thread->doing = NOTHING;
    if (doing == SENDS)
        fuse_record_after(&thread->sent, result < 0 ? (int)-result : 0);
    else if (doing == RECEIVES && result >= (int64_t)sizeof(struct fuse_in_header))
        received(thread, (size_t)result);
    else if (doing == RECEIVES_INTO_PIPE && result >= (int64_t)sizeof(struct fuse_in_header))
        received_into_pipe(thread, (size_t)result);
}

/* A thread stands at the entry of a call or at its end. Answers whether it goes on being traced. */
static bool at_call(struct thread *thread)
{
    struct __ptrace_syscall_info info;
    if (ptrace(PTRACE_GET_SYSCALL_INFO, thread->id, (void *)sizeof info, &info) <= 0)
        return true; /* it was killed */
    if (info.op == PTRACE_SYSCALL_INFO_EXIT) {
        ends_call(thread, info.exit.rval);
        return true;
    }
    struct call call = {.number = info.op == PTRACE_SYSCALL_INFO_SECCOMP ? info.seccomp.nr : info.entry.nr};
    for (size_t i = 0; i < COUNT(call.words); i++)
        call.words[i] = info.op == PTRACE_SYSCALL_INFO_SECCOMP ? info.seccomp.args[i] : info.entry.args[i];
    thread->doing = NOTHING;
    if (info.arch != AUDIT_ARCH_X86_64 || call.number & X32)
        foreign_call(thread, info.arch, &call);
    else if (becomes_privileged(thread, &call))
        return ptrace(PTRACE_DETACH, thread->id, NULL, NULL) != 0;
    else
        begins_call(thread, &call);
    return true;
}

static bool is_stop(int signal)
{
    return signal == SIGSTOP || signal == SIGTSTP || signal == SIGTTIN || signal == SIGTTOU;
}

/* Handles a stop of a thread, and lets it run on. */
static void at_stop(pid_t id, int status)
{
    struct thread *thread = thread_of(id), unknown = {.id = id};
    int event = status >> 8, signal = status & 0x7f;
    unsigned long former = 0;
    if (!thread) {
        fuse_record_stop(strerror(ENOMEM));
        thread = &unknown;
    } else if (status == (SIGTRAP | 0x80) || event == PTRACE_EVENT_SECCOMP) {
        if (!at_call(thread)) {
            forget_thread(id);
            return;
        }
        signal = 0;
    } else if (event == PTRACE_EVENT_EXEC) {
        /* The other threads are gone, and the one that goes on has the number of the process. */
        if (ptrace(PTRACE_GETEVENTMSG, id, NULL, &former) == 0 && (pid_t)former != id)
            forget_thread((pid_t)former);
        forget_thread(id);
        thread = &unknown;
        signal = 0;
    } else if (event == PTRACE_EVENT_STOP && is_stop(signal)) {
        ptrace(PTRACE_LISTEN, id, NULL, NULL); /* it stays stopped until SIGCONT */
        return;
    } else if (event != 0) {
        signal = 0;
    }
    let_run(thread, signal);
}

/* Each thread that has stopped is handled once before any is a second time. */
bool trace_stops(void)
{
    struct {
        pid_t id;
        int status;
    } stops[64];
    size_t count = 0;
    siginfo_t got = {0};
    while (count < COUNT(stops) && waitid(P_ALL, 0, &got, WSTOPPED | WNOHANG | __WALL) == 0 && got.si_pid != 0) {
        stops[count].id = got.si_pid;
        stops[count++].status = got.si_status;
        got.si_pid = 0;
    }
    for (size_t i = 0; i < count; i++)
        at_stop(stops[i].id, stops[i].status);
    return count > 0;
}

pid_t trace_ended(int *status)
{
    for (;;) {
        siginfo_t got = {0};
        if (waitid(P_ALL, 0, &got, WEXITED | WNOHANG | WNOWAIT | __WALL) != 0)
            return -1;
        /* A stop is told here as well, and is left to trace_stops: its signal waits. */
        if (got.si_pid == 0 || (got.si_code != CLD_EXITED && got.si_code != CLD_KILLED && got.si_code != CLD_DUMPED))
            return 0;
        /* A thread, and a child of another process that is traced, are told here too. */
        bool is_child = told_by_proc(got.si_pid, "Tgid:") == got.si_pid && told_by_proc(got.si_pid, "PPid:") == getpid();
        forget_thread(got.si_pid);
        if (waitpid(got.si_pid, status, WNOHANG | __WALL) == got.si_pid && is_child)
            return got.si_pid;
    }
}

/* ---- the start */

/* What the process that becomes the server tells before. */
struct beginning {
    bool filtered;
    int error;
};

/*
 * Makes the kernel stop this process, and those that come from it, at the calls that may be on the device, and at no other. It needs
 * a right (CAP_SYS_ADMIN): without one, a process could do so only if no program that it starts gets rights, as fusermount3 has to.
 */
static bool filter_calls(void)
{
    struct sock_filter code[64];
    unsigned short length = 0;
    const struct sock_filter asks_number = BPF_STMT(BPF_LD | BPF_W | BPF_ABS, offsetof(struct seccomp_data, nr));
    const struct sock_filter stops = BPF_STMT(BPF_RET | BPF_K, SECCOMP_RET_TRACE);
    const struct sock_filter lets = BPF_STMT(BPF_RET | BPF_K, SECCOMP_RET_ALLOW);
    code[length++] = (struct sock_filter)BPF_STMT(BPF_LD | BPF_W | BPF_ABS, offsetof(struct seccomp_data, arch));
    code[length++] = (struct sock_filter)BPF_JUMP(BPF_JMP | BPF_JEQ | BPF_K, AUDIT_ARCH_X86_64, 0, 2 * COUNT(own_calls) + 4);
    code[length++] = asks_number;
    for (size_t i = 0; i < COUNT(own_calls); i++) {
        code[length++] = (struct sock_filter)BPF_JUMP(BPF_JMP | BPF_JEQ | BPF_K, own_calls[i], 0, 1);
        code[length++] = stops;
    }
    code[length++] = (struct sock_filter)BPF_JUMP(BPF_JMP | BPF_JGE | BPF_K, X32, 0, 1);
    code[length++] = stops;
    code[length++] = lets;
    code[length++] = asks_number;
    for (size_t i = 0; i < COUNT(i386_calls); i++) {
        code[length++] = (struct sock_filter)BPF_JUMP(BPF_JMP | BPF_JEQ | BPF_K, i386_calls[i], 0, 1);
        code[length++] = stops;
    }
    code[length++] = lets;
    struct sock_fprog filter = {length, code};
    return syscall(SYS_seccomp, SECCOMP_SET_MODE_FILTER, 0, &filter) == 0;
}

/* Becomes the server once it is traced. */
__attribute__((noreturn)) static void become(char **words, const sigset_t *blocked, int begin, struct beginning *told)
{
    char byte;
    ssize_t got;
    do
        got = read(begin, &byte, 1);
    while (got < 0 && errno == EINTR);
    if (got == 1) {
        sigprocmask(SIG_SETMASK, blocked, NULL);
        umask(0);
        told->filtered = filter_calls();
        execvp(words[0], words);
        told->error = errno;
    }
    _exit(EXIT_FAILURE);
}

/* Begins to trace a process that waits, and tries all that is needed for it. Answers what is refused, or NULL. */
static const char *begin_tracing(pid_t server, int begin, const struct beginning *told)
{
    const unsigned long stops = PTRACE_O_TRACESYSGOOD | PTRACE_O_TRACESECCOMP | PTRACE_O_TRACEFORK | PTRACE_O_TRACEVFORK |
                                PTRACE_O_TRACECLONE | PTRACE_O_TRACEEXEC | PTRACE_O_EXITKILL;
    struct thread thread = {.id = server};
    struct beginning seen;
    struct iovec part = {(void *)(uintptr_t)told, sizeof seen};
    if (ptrace(PTRACE_SEIZE, server, NULL, stops) != 0)
        return "ptrace";
    if (!fetch(&thread, &seen, sizeof seen, &part, 1))
        return "process_vm_readv";
    int borrowed = borrow(&thread, (uint64_t)begin);
    if (borrowed < 0)
        return "pidfd_getfd";
    close(borrowed);
    return NULL;
}

/* Waits until a process that is traced runs the server's program. Answers 1, 0 where it has ended before, -1 where this is refused. */
static int await_program(pid_t server)
{
    struct __ptrace_syscall_info info;
    int status;
    for (;;) {
        if (waitpid(server, &status, __WALL) != server) {
            if (errno != EINTR)
                return -1;
        } else if (!WIFSTOPPED(status)) {
            return 0;
        } else if (status >> 8 == (SIGTRAP | PTRACE_EVENT_EXEC << 8)) {
            return ptrace(PTRACE_GET_SYSCALL_INFO, server, (void *)sizeof info, &info) > 0 ? 1 : -1;
        } else {
            at_stop(server, status >> 8);
        }
    }
}

enum trace_start trace_start(char **words, const sigset_t *blocked, pid_t *server, const char **call)
{
    int begin[2], runs;
    struct beginning *told = mmap(NULL, sizeof *told, PROT_READ | PROT_WRITE, MAP_SHARED | MAP_ANONYMOUS, -1, 0);
    fuse_record_begin();
    unsetenv("FUSE_RECORD_CAPTURE");
    unsetenv("FUSE_RECORD_KEPT");
    unsetenv("FUSE_RECORD_STREAM");
    unsetenv("FUSE_RECORD_REFUSE");
    unsetenv("FUSE_RECORD_PLAIN");
    unsetenv("FUSE_RECORD_KEEP_INIT");
    unsetenv("FUSE_RECORD_KEEP_REFUSED");
    unsetenv("FUSE_RECORD_KEEP_OWN");
    *call = "mmap";
    if (told == MAP_FAILED || !fuse_record_setup.progress)
        return TRACE_REFUSED;
    *call = "pipe";
    if (pipe2(begin, O_CLOEXEC) != 0)
        return TRACE_REFUSED;
    *call = "fork";
    if ((*server = fork()) < 0)
        return TRACE_REFUSED;
    if (*server == 0) {
        close(begin[1]);
        become(words, blocked, begin[0], told);
    }
    *call = begin_tracing(*server, begin[0], told);
    traced.filtered = true;
    runs = -1;
    if (!*call && write(begin[1], "", 1) == 1) {
        *call = "ptrace";
        runs = await_program(*server);
    }
    int error = errno;
    close(begin[0]);
    close(begin[1]);
    if (runs < 0) {
        kill(*server, SIGKILL);
        waitpid(*server, NULL, __WALL);
    }
    traced.filtered = told->filtered;
    errno = runs < 0 ? error : told->error;
    munmap(told, sizeof *told);
    if (runs <= 0)
        return runs < 0 ? TRACE_REFUSED : TRACE_NO_SERVER;
    let_run(&(struct thread){.id = *server}, 0);
    return TRACE_STARTED;
}

#else

/* The registers and the numbers of calls are those of one kind of processors. */
enum trace_start trace_start(char **words, const sigset_t *blocked, pid_t *server, const char **call)
{
    (void)words;
    (void)blocked;
    (void)server;
    *call = "it is for 64-bit processors of the x86 kind alone";
    errno = ENOSYS;
    return TRACE_REFUSED;
}

bool trace_stops(void)
{
    return false;
}

pid_t trace_ended(int *status)
{
    return waitpid(-1, status, WNOHANG);
}

#endif
