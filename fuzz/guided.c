/* An input of libFuzzer: whether there is a tree text, the lengths of an order and of a tree text, both, and a capture. It goes to both
 * functions of the library for C. */
#include "../c/fa_audit.h"

#include <stdio.h>
#include <stdlib.h>
#include <string.h>

/* The search may spend so many steps. */
#define STEPS 3000

struct answer {
    uint8_t status;
    size_t size;
    char line[FA_AUDIT_LINE_SIZE + 1];
};

static void fail(const char *what, const struct answer *checked, const struct answer *judged)
{
    fprintf(stderr, "%s: check %d \"%s\", judge %d \"%s\"\n", what, checked->status, checked->line, judged->status, judged->line);
    abort();
}

/* Whether a line is printing ASCII, of the size that was told. */
static bool is_line(const struct answer *answer)
{
    if (answer->size > FA_AUDIT_LINE_SIZE || strlen(answer->line) != answer->size)
        return false;
    for (const char *byte = answer->line; *byte; byte++)
        if (*byte < ' ' || *byte > '~')
            return false;
    return true;
}

/* Whether the function has this status. */
static bool may_check(uint8_t status)
{
    return status <= FA_AUDIT_TEXT || status == FA_AUDIT_FAILED;
}

static bool may_judge(uint8_t status)
{
    return status != FA_AUDIT_NOT_SHOWN && (may_check(status) || status == FA_AUDIT_NO_ORDER || status == FA_AUDIT_GAVE_UP);
}

int LLVMFuzzerTestOneInput(const uint8_t *data, size_t size)
{
    if (size < 5)
        return 0;
    bool has_tree = data[0] & 1;
    size_t order = data[1] | data[2] << 8, tree = data[3] | data[4] << 8;
    data += 5;
    size -= 5;
    order = order < size ? order : size;
    tree = tree < size - order ? tree : size - order;
    const uint8_t *capture = data + order + tree;
    size_t length = size - order - tree;
    struct answer checked = {0}, judged = {0};
    checked.status = fa_audit_check(capture, length, data + order, tree, has_tree, data, order, (uint8_t *)checked.line,
                                    FA_AUDIT_LINE_SIZE, &checked.size);
    judged.status = fa_audit_judge(capture, length, data + order, tree, has_tree, STEPS, (uint8_t *)judged.line, FA_AUDIT_LINE_SIZE,
                                   &judged.size);
    if (!may_check(checked.status) || !may_judge(judged.status))
        fail("a status that is none", &checked, &judged);
    if (!is_line(&checked) || !is_line(&judged))
        fail("a line that is none", &checked, &judged);
    if (checked.status == FA_AUDIT_TEXT || judged.status == FA_AUDIT_TEXT)
        return 0;
    if ((checked.status == FA_AUDIT_FAULT) != (judged.status == FA_AUDIT_FAULT))
        fail("a fault of one", &checked, &judged);
    if (checked.status == FA_AUDIT_FAULT && strcmp(checked.line, judged.line))
        fail("two faults", &checked, &judged);
    if (checked.status == FA_AUDIT_LEGAL && judged.status == FA_AUDIT_NO_ORDER)
        fail("legal, and without an order", &checked, &judged);
    return 0;
}
