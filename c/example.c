/* Judges a capture and an order, from a tree if one is named: prints the line of the verdict, and ends as fa_audit does.
 *
 * usage: example CAPTURE ORDER [TREE] */
#include "fa_audit.h"
#include <stdio.h>
#include <stdlib.h>

struct bytes {
    uint8_t *at;
    size_t length;
};

/* All bytes of a file, or the end of the program where they cannot be read. */
static struct bytes contents(const char *path)
{
    struct bytes bytes = { NULL, 0 };
    size_t room = 1 << 16, count = 0;
    FILE *file = fopen(path, "rb");
    bytes.at = malloc(room);
    while (file && bytes.at && (count = fread(bytes.at + bytes.length, 1, room - bytes.length, file)) > 0) {
        bytes.length += count;
        if (bytes.length == room)
            bytes.at = realloc(bytes.at, room *= 2);
    }
    if (!file || !bytes.at || ferror(file)) {
        fprintf(stderr, "%s cannot be read\n", path);
        exit(FA_AUDIT_FAILED);
    }
    fclose(file);
    return bytes;
}

int main(int argc, char **argv)
{
    uint8_t line[FA_AUDIT_LINE_SIZE];
    size_t size;
    if (argc < 3 || argc > 4) {
        fprintf(stderr, "usage: example CAPTURE ORDER [TREE]\n");
        return 4;
    }
    struct bytes capture = contents(argv[1]), order = contents(argv[2]);
    struct bytes tree = argc == 4 ? contents(argv[3]) : (struct bytes){ order.at, 0 };
    uint8_t status = fa_audit_check(capture.at, capture.length, tree.at, tree.length, argc == 4, order.at, order.length, line,
                                    sizeof line, &size);
    printf("%.*s\n", (int)size, (char *)line);
    return status;
}
