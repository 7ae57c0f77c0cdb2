#include "fuse-record.h"

int handle(const void *request, size_t size, struct iovec answer[2]); /* the server's: how many parts it answers, or 0 */

void serve(int device)
{
    static char request[1 << 20 | 1 << 12];
    struct iovec all = {request, sizeof request}, answer[2];
    for (ssize_t size; (size = fuse_record(FUSE_RECORD_READ, device, &all, 1)) > 0;)
        for (int parts = handle(request, (size_t)size, answer); parts > 0; parts = 0)
            fuse_record(FUSE_RECORD_WRITE, device, answer, parts);
}
