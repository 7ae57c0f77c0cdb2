#!/usr/bin/env python3
"""Serves an empty folder from memory by its nodes, for tests: nodes.py pyfuse3|llfuse MOUNTPOINT. It serves until it is unmounted."""

import errno
import importlib
import os
import stat
import sys

fuse = importlib.import_module(sys.argv[1])
AWAITS = fuse.__name__ == "pyfuse3"


class Node:
    """A file: its mode and number of names, the bytes of it or of a link's target, and the names of a directory with their nodes."""

    def __init__(self, mode, content=b""):
        self.mode, self.links, self.names, self.bytes = mode, 1, {}, bytearray(content)


class Folder:
    """No node is thrown away, so a file that is open and has no name keeps its bytes. A file's handle is its node."""

    def __init__(self):
        self.nodes = {fuse.ROOT_INODE: Node(stat.S_IFDIR | 0o755)}
        self.listings = []

    def attributes(self, number):
        node, found = self.nodes[number], fuse.EntryAttributes()
        found.st_ino, found.st_mode, found.st_nlink, found.st_size = number, node.mode, node.links, len(node.bytes)
        return found

    def found(self, parent, name):
        if name in self.nodes[parent].names:
            return self.nodes[parent].names[name]
        raise fuse.FUSEError(errno.ENOENT)

    def named(self, parent, name, number):
        if name in self.nodes[parent].names:
            raise fuse.FUSEError(errno.EEXIST)
        self.nodes[parent].names[name] = number
        return self.attributes(number)

    def made(self, parent, name, node):
        number = fuse.ROOT_INODE + len(self.nodes)
        self.nodes[number] = node
        return self.named(parent, name, number)

    def lookup(self, parent, name, context):
        return self.attributes(self.found(parent, name))

    def getattr(self, number, context):
        return self.attributes(number)

    def setattr(self, number, asked, fields, handle, context):
        node = self.nodes[number]
        if fields.update_size:
            del node.bytes[asked.st_size :]
            node.bytes.extend(bytes(asked.st_size - len(node.bytes)))
        if fields.update_mode:
            node.mode = stat.S_IFMT(node.mode) | stat.S_IMODE(asked.st_mode)
        return self.attributes(number)

    def mknod(self, parent, name, mode, device, context):
        return self.made(parent, name, Node(mode))

    def mkdir(self, parent, name, mode, context):
        return self.made(parent, name, Node(stat.S_IFDIR | mode))

    def symlink(self, parent, name, target, context):
        return self.made(parent, name, Node(stat.S_IFLNK | 0o777, target))

    def readlink(self, number, context):
        return bytes(self.nodes[number].bytes)

    def link(self, number, parent, name, context):
        self.named(parent, name, number)
        self.nodes[number].links += 1
        return self.attributes(number)

    def unlink(self, parent, name, context):
        self.nodes[self.found(parent, name)].links -= 1
        del self.nodes[parent].names[name]

    def rmdir(self, parent, name, context):
        if self.nodes[self.found(parent, name)].names:
            raise fuse.FUSEError(errno.ENOTEMPTY)
        self.unlink(parent, name, context)

    def rename(self, parent, name, other, new, *context):
        if AWAITS and context[0] != 0:  # RENAME_NOREPLACE or RENAME_EXCHANGE
            raise fuse.FUSEError(errno.EINVAL)
        number, there = self.found(parent, name), self.nodes[other].names.get(new)
        if there == number:
            return
        if there is not None:
            (self.rmdir if stat.S_ISDIR(self.nodes[there].mode) else self.unlink)(other, new, context)
        del self.nodes[parent].names[name]
        self.nodes[other].names[new] = number

    def open(self, number, flags, context):
        if flags & os.O_TRUNC:
            self.nodes[number].bytes.clear()
        return fuse.FileInfo(fh=number) if AWAITS else number

    def create(self, parent, name, mode, flags, context):
        made = self.made(parent, name, Node(stat.S_IFREG | stat.S_IMODE(mode)))
        return self.open(made.st_ino, flags, context), made

    def read(self, handle, offset, size):
        return bytes(self.nodes[handle].bytes[offset : offset + size])

    def write(self, handle, offset, data):
        kept = self.nodes[handle].bytes
        kept.extend(bytes(max(0, offset - len(kept))))
        kept[offset : offset + len(data)] = data
        return len(data)

    def opendir(self, number, context):
        self.listings.append((self.nodes[number].names, list(self.nodes[number].names)))
        return len(self.listings) - 1

    def readdir(self, handle, offset, token=None):
        names, listed = self.listings[handle]
        rest = enumerate(listed[offset:], offset + 1)
        entries = ((name, self.attributes(names[name]), place) for place, name in rest if name in names)
        return entries if token is None else all(fuse.readdir_reply(token, *entry) for entry in entries)

    def release(self, handle):
        pass

    releasedir = release


def awaited(function):
    async def answer(*words):
        return function(*words)

    return answer


if __name__ == "__main__":
    folder, operations = Folder(), fuse.Operations()
    for operation in set(vars(Folder)) & {name for name in dir(operations) if not name.startswith("_")}:
        function = getattr(folder, operation)
        setattr(operations, operation, awaited(function) if AWAITS else function)
    fuse.init(operations, sys.argv[2], set(fuse.default_options))
    if AWAITS:
        importlib.import_module("trio").run(fuse.main)
    else:
        fuse.main(workers=1)
    fuse.close()
