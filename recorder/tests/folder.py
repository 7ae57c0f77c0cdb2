#!/usr/bin/env python3
"""Passes a folder on by fusepy, for tests: folder.py FOLDER MOUNTPOINT. It serves until it is unmounted."""

import errno
import os
import sys

from fusepy import FUSE, FuseOSError, Operations


class Folder(Operations):
    """Each operation is done by its path, and those on open files by their descriptors, which are the handles."""

    def __init__(self, folder):
        self.folder = folder

    def __call__(self, operation, path, *words):
        # An open file that was removed has no path.
        return super().__call__(operation, path and self.folder + path, *words)

    def access(self, path, mode):
        if not os.access(path, mode):
            raise FuseOSError(errno.EACCES)

    def getattr(self, path, handle=None):
        found = os.lstat(path) if handle is None else os.fstat(handle)
        return {
            name: getattr(found, name)
            for name in ("st_atime", "st_ctime", "st_gid", "st_mode", "st_mtime", "st_nlink", "st_size", "st_uid", "st_rdev")
        }

    def readdir(self, path, handle):
        return [".", "..", *os.listdir(path)]

    def readlink(self, path):
        return os.readlink(path)

    def mknod(self, path, mode, device):
        os.mknod(path, mode, device)

    def mkdir(self, path, mode):
        os.mkdir(path, mode)

    def unlink(self, path):
        os.unlink(path)

    def rmdir(self, path):
        os.rmdir(path)

    def symlink(self, path, target):
        os.symlink(target, path)

    def rename(self, path, other):
        os.rename(path, self.folder + other)

    def link(self, path, other):
        os.link(self.folder + other, path)

    def chmod(self, path, mode):
        os.chmod(path, mode)

    def chown(self, path, user, group):
        os.chown(path, user, group, follow_symlinks=False)

    def utimens(self, path, times=None):
        os.utime(path, times, follow_symlinks=False)

    def statfs(self, path):
        found = os.statvfs(path)
        names = ("f_bavail", "f_bfree", "f_blocks", "f_bsize", "f_favail", "f_ffree", "f_files", "f_flag", "f_frsize", "f_namemax")
        return {name: getattr(found, name) for name in names}

    def open(self, path, flags):
        return os.open(path, flags)

    def create(self, path, mode, info=None):
        return os.open(path, os.O_RDWR | os.O_CREAT | os.O_EXCL, mode)

    def read(self, path, size, offset, handle):
        return os.pread(handle, size, offset)

    def write(self, path, data, offset, handle):
        return os.pwrite(handle, data, offset)

    def truncate(self, path, length, handle=None):
        os.truncate(path if handle is None else handle, length)

    def fsync(self, path, data_only, handle):
        os.fsync(handle)

    def release(self, path, handle):
        os.close(handle)


if __name__ == "__main__":
    # Two names of a file are two nodes here: without timeouts the kernel asks for the attributes of each.
    options = {"hard_remove": True, "attr_timeout": 0, "entry_timeout": 0, "default_permissions": True}
    FUSE(Folder(os.path.realpath(sys.argv[1])), sys.argv[2], foreground=True, nothreads=True, **options)
