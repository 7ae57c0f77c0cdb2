/* stream.c as fuse-record.c uses it: a capture that is handed on to a pipe while it is recorded. */
#ifndef FUSE_RECORD_STREAM_H
#define FUSE_RECORD_STREAM_H

#include <signal.h>
#include <stdbool.h>
#include <stddef.h>
#include <stdint.h>

/* What a stream is made of, and who is told of it, in a thread of its own. */
struct stream_setup {
    int pipe;     /* where it is written to, as it takes it: O_NONBLOCK. It is closed at the end */
    int capture;  /* the capture, which grows */
    bool is_kept; /* else its bytes are given back to its file system when they were handed on */
    size_t head;  /* the bytes of a record before its message */
    void (*seen)(unsigned char direction, const unsigned char *message, size_t length); /* of each record */
    void (*left)(const char *cause, uint32_t messages); /* the pipe takes no more than so many whole messages */
};

/*
 * Makes the memory that is shared with the server. Answers its descriptor, by which the server finds it as long as this process is
 * there, or -1 with errno.
 */
int stream_make(void);

/* Hands the capture on from its start, as far as nothing is taken out of it any more. Answers an error number, or 0. */
int stream_start(const struct stream_setup *setup);

/*
 * Waits until the whole records of the capture, to which nothing is added any more, were seen, and written to the pipe unless it
 * takes no more or one of these signals comes, which are blocked. Answers whether all were written, and how many messages.
 */
bool stream_end(const sigset_t *signals, uint32_t *messages);

#endif
