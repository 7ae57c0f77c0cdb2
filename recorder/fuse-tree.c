/*
 * Prints the tree text of a folder on standard output: fuse-tree DIR.
 * docs/formats.md has the format, under "Tree texts".
 */
#define _GNU_SOURCE
#define _FILE_OFFSET_BITS 64

#include <dirent.h>
#include <errno.h>
#include <fcntl.h>
#include <search.h>
#include <stdbool.h>
#include <stdio.h>
#include <stdlib.h>
#include <string.h>
#include <sys/resource.h>
#include <sys/stat.h>
#include <unistd.h>

#define MOST_TEXT_BYTES 268435456
#define MOST_OPEN_FILES 4096

static const char usage[] = "usage: fuse-tree DIR\n";
static const char too_long[] = "the tree text of this folder would have more than 268435456 bytes: take files out of it, "
                               "or begin with a folder without them";

/* A file that has several names, and the path below the root at which it was met first. */
struct first_name {
    dev_t device;
    ino_t inode;
    char path[];
};

/* What a walk keeps. The path of each file begins with that of the root, and goes on below it from root_length. A walk that only counts
 * prints nothing and opens no file: it goes by the sizes that the files tell. */
struct walk {
    size_t root_length;
    void *first_names;
    bool counts;
    unsigned long long text_bytes;
    unsigned char bytes[65536];
};

/* Says on standard error what was refused and why, and ends the program. */
__attribute__((noreturn)) static void refuse(const char *path, const char *cause)
{
    fprintf(stderr, "fuse-tree: %s: %s\n", path, cause);
    exit(1);
}

/* Gives what a system call returned. Where it failed, refuses the path. */
static ssize_t checked(const char *path, ssize_t result)
{
    if (result < 0)
        refuse(path, strerror(errno));
    return result;
}

/* Gives a block this size, with the bytes that were in it. Where memory is wanting, refuses the path. */
static void *resize(const char *path, void *block, size_t size)
{
    block = realloc(block, size);
    if (!block)
        refuse(path, strerror(ENOMEM));
    return block;
}

static void put_byte(struct walk *walk, unsigned char byte)
{
    walk->text_bytes++;
    if (!walk->counts)
        putchar(byte);
}

static void put_text(struct walk *walk, const char *text)
{
    for (; *text != '\0'; text++)
        put_byte(walk, (unsigned char)*text);
}

/* Three octal digits. */
static void put_bits(struct walk *walk, mode_t mode)
{
    for (int place = 6; place >= 0; place -= 3)
        put_byte(walk, '0' + ((mode >> place) & 7));
}

/* Ends a line, and the program too where standard output did not take what was written so far. */
static void end_line(struct walk *walk)
{
    put_byte(walk, '\n');
    if (ferror(stdout))
        refuse("standard output", strerror(errno));
}

/* Writes a path below the root, each byte of its names as itself or percent-encoded. */
static void write_path(struct walk *walk, const char *path)
{
    static const char digits[] = "0123456789ABCDEF";
    for (; *path != '\0'; path++) {
        unsigned char byte = (unsigned char)*path;
        if (byte >= 0x21 && byte <= 0x7E && byte != '%') {
            put_byte(walk, byte);
        } else {
            put_byte(walk, '%');
            put_byte(walk, digits[byte >> 4]);
            put_byte(walk, digits[byte & 15]);
        }
    }
}

static void write_hex(struct walk *walk, const unsigned char *bytes, size_t count)
{
    static const char digits[] = "0123456789abcdef";
    for (size_t i = 0; i < count; i++) {
        put_byte(walk, digits[bytes[i] >> 4]);
        put_byte(walk, digits[bytes[i] & 15]);
    }
}

/* The name that a path below the root ends with. */
static const char *name_of(const char *path)
{
    return strrchr(path, '/') + 1;
}

/* Writes the bytes of a regular file, as many as there are when it is read. */
static void write_content(struct walk *walk, int directory, const char *path)
{
    int file = checked(path, openat(directory, name_of(path), O_RDONLY | O_NOFOLLOW | O_NOCTTY));
    size_t count, total = 0;
    while ((count = checked(path, read(file, walk->bytes, sizeof walk->bytes))) > 0) {
        total += count;
        write_hex(walk, walk->bytes, count);
        if (walk->text_bytes > MOST_TEXT_BYTES)
            refuse(path, too_long);
    }
    if (total == 0)
        put_byte(walk, '-');
    close(file);
}

/* Counts them, by the size that the file tells. */
static void count_content(struct walk *walk, const struct stat *status)
{
    walk->text_bytes += status->st_size == 0 ? 1 : 2 * (unsigned long long)status->st_size;
}

/* Writes the target of a symbolic link. Linux has none that fills the bytes of a walk. */
static void write_target(struct walk *walk, int directory, const char *path)
{
    char *target = (char *)walk->bytes;
    write_hex(walk, walk->bytes, checked(path, readlinkat(directory, name_of(path), target, sizeof walk->bytes)));
}

static int compare_files(const void *left, const void *right)
{
    const struct first_name *one = left, *other = right;
    if (one->device != other->device)
        return one->device < other->device ? -1 : 1;
    return (one->inode > other->inode) - (one->inode < other->inode);
}

/* The path below the root at which this file was met before. Where there is none, keeps this one, and gives NULL. */
static const char *earlier_path(struct walk *walk, const char *path, const struct stat *status)
{
    const char *below = path + walk->root_length;
    struct first_name *name = resize(path, NULL, sizeof *name + strlen(below) + 1);
    name->device = status->st_dev;
    name->inode = status->st_ino;
    strcpy(name->path, below);
    struct first_name **kept = tsearch(name, &walk->first_names, compare_files);
    if (!kept)
        refuse(path, strerror(ENOMEM));
    if (*kept == name)
        return NULL;
    free(name);
    return (*kept)->path;
}

static char letter_of(mode_t mode)
{
    switch (mode & S_IFMT) {
    case S_IFDIR: return 'd';
    case S_IFREG: return 'f';
    case S_IFLNK: return 's';
    case S_IFIFO: return 'p';
    case S_IFCHR: return 'c';
    case S_IFBLK: return 'b';
    default: return 'k';
    }
}

/* Writes the line of a file in a directory, and tells whether it is a directory itself. */
static bool write_line(struct walk *walk, int directory, const char *path)
{
    struct stat status;
    checked(path, fstatat(directory, name_of(path), &status, AT_SYMLINK_NOFOLLOW));
    bool is_directory = S_ISDIR(status.st_mode);
    const char *earlier = status.st_nlink > 1 && !is_directory ? earlier_path(walk, path, &status) : NULL;
    put_byte(walk, earlier ? 'h' : letter_of(status.st_mode));
    put_byte(walk, ' ');
    if (!earlier) {
        put_bits(walk, status.st_mode);
        put_byte(walk, ' ');
    }
    write_path(walk, path + walk->root_length);
    if (earlier) {
        put_byte(walk, ' ');
        write_path(walk, earlier);
    } else if (S_ISREG(status.st_mode)) {
        put_byte(walk, ' ');
        if (walk->counts)
            count_content(walk, &status);
        else
            write_content(walk, directory, path);
    } else if (S_ISLNK(status.st_mode)) {
        put_byte(walk, ' ');
        write_target(walk, directory, path);
    }
    end_line(walk);
    return is_directory;
}

/* The path of a name in a directory, in memory of its own. */
static char *path_in(const char *directory, const char *name)
{
    char *path;
    const char *slash = directory[strlen(directory) - 1] == '/' ? "" : "/";
    if (asprintf(&path, "%s%s%s", directory, slash, name) < 0)
        refuse(directory, strerror(ENOMEM));
    return path;
}

static int compare_paths(const void *left, const void *right)
{
    return strcmp(*(char *const *)left, *(char *const *)right);
}

/* The paths of the names in a directory, sorted by their bytes, with NULL behind the last. */
static char **read_paths(DIR *directory, const char *path)
{
    size_t count = 0, room = 16;
    char **paths = resize(path, NULL, room * sizeof *paths);
    const struct dirent *entry;
    while (errno = 0, (entry = readdir(directory)) != NULL) {
        if (strcmp(entry->d_name, ".") == 0 || strcmp(entry->d_name, "..") == 0)
            continue;
        if (count + 1 == room) {
            room *= 2;
            paths = resize(path, paths, room * sizeof *paths);
        }
        paths[count++] = path_in(path, entry->d_name);
    }
    if (errno != 0)
        refuse(path, strerror(errno));
    qsort(paths, count, sizeof *paths, compare_paths);
    paths[count] = NULL;
    return paths;
}

/* Opens the directory of a path, which is that of a name in the directory above. */
static DIR *open_directory(int above, const char *name, const char *path, int flags)
{
    int descriptor = checked(path, openat(above, name, O_RDONLY | O_DIRECTORY | flags));
    DIR *directory = fdopendir(descriptor);
    if (!directory)
        refuse(path, strerror(errno));
    return directory;
}

/* Writes a line for each name in a directory, and behind that of a directory those of what is in it. Closes it. */
static void write_names(struct walk *walk, DIR *directory, const char *path)
{
    char **paths = read_paths(directory, path);
    for (char **below = paths; *below; below++) {
        if (write_line(walk, dirfd(directory), *below))
            write_names(walk, open_directory(dirfd(directory), name_of(*below), *below, O_NOFOLLOW), *below);
        free(*below);
    }
    free(paths);
    closedir(directory);
}

/* Walks over a folder: counts the bytes of its tree text, or writes it. */
static void walk_tree(struct walk *walk, const char *folder)
{
    struct stat status;
    DIR *root = open_directory(AT_FDCWD, folder, folder, 0);
    checked(folder, fstat(dirfd(root), &status));
    walk->root_length = strlen(folder) + (folder[strlen(folder) - 1] != '/');
    put_text(walk, "fuse-tree 1\nroot ");
    put_bits(walk, status.st_mode);
    end_line(walk);
    write_names(walk, root, folder);
    put_text(walk, "end");
    end_line(walk);
    tdestroy(walk->first_names, free);
    walk->first_names = NULL;
}

/* Writes the tree text of a folder. One that would be too long is refused before anything is printed. */
static void write_tree(struct walk *walk, const char *folder)
{
    walk->counts = true;
    walk_tree(walk, folder);
    if (walk->text_bytes > MOST_TEXT_BYTES)
        refuse(folder, too_long);
    walk->counts = false;
    walk->text_bytes = 0;
    walk_tree(walk, folder);
}

/* Lets a walk go deep, since it holds each directory open that it is in, but no deeper than the stack bears. */
static void limit_open_files(void)
{
    struct rlimit limit;
    if (getrlimit(RLIMIT_NOFILE, &limit) == 0) {
        limit.rlim_cur = limit.rlim_max < MOST_OPEN_FILES ? limit.rlim_max : MOST_OPEN_FILES;
        setrlimit(RLIMIT_NOFILE, &limit);
    }
}

int main(int count, char **words)
{
    struct walk walk = {0};
    if (count == 2 && strcmp(words[1], "--help") == 0) {
        fputs(usage, stdout);
        puts("Prints the tree text of a folder, or of a mount. The text may have 268435456 bytes.");
        return 0;
    }
    if (count != 2) {
        fputs(usage, stderr);
        return 2;
    }
    limit_open_files();
    write_tree(&walk, words[1]);
    if (fclose(stdout) != 0)
        refuse("standard output", strerror(errno));
    return 0;
}
