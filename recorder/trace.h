/* trace.c as fuse-record.c uses it: recording a server by stopping its system calls. */
#ifndef FUSE_RECORD_TRACE_H
#define FUSE_RECORD_TRACE_H

#include <signal.h>
#include <stdbool.h>
#include <sys/types.h>

enum trace_start {
    TRACE_STARTED,
    TRACE_REFUSED,  /* its system calls can't be traced */
    TRACE_NO_SERVER /* there is no such program */
};

/*
 * Why a server can't be recorded by the library, in words to follow its name; NULL where it can, or records itself. Of the latter an
 * older one can't where the capture is handed on as a stream.
 */
const char *trace_is_needed(const char *server, bool streams);

/*
 * Starts a server with these signals blocked. Else errno tells why there is none, and call what was refused. What
 * FUSE_RECORD_CAPTURE and its like say in the environment is taken here, and the server does not get it.
 */
enum trace_start trace_start(char **words, const sigset_t *blocked, pid_t *server, const char **call);

/* Handles what has stopped of the processes that are traced, and answers whether something had: then more may have. */
bool trace_stops(void);

/*
 * Takes the end of a child, as waitpid with WNOHANG does: its process and status, 0 where none has ended, -1 where no process is
 * left that is a child or traced. The ends of others that are traced are taken as well, and not told.
 */
pid_t trace_ended(int *status);

#endif
