/* exchange: gives each of two names the other's file: exchange NAME OTHER. */
#define _GNU_SOURCE
#include <fcntl.h>
#include <stdio.h>

int main(int count, char **words)
{
    if (count == 3 && renameat2(AT_FDCWD, words[1], AT_FDCWD, words[2], RENAME_EXCHANGE) == 0)
        return 0;
    perror("exchange");
    return 1;
}
