"""The steps of the tree machine: docs/model.md, 'The tree machine'. A step leads a call from one tree to another, or is refused with a
code of its list."""
import collections

from codes import check
from grammar import (BITS, DIR, EEXIST, EISDIR, ENOENT, ENOTDIR, ENOTEMPTY, FATTR_MODE, FATTR_SIZE, LISTING, LNK, O_EXCL, REG,
                     RENAME_EXCHANGE, RENAME_NOREPLACE, TYPE)
from tree import new_file

RENAMES = "RENAME", "RENAME2"
MAKES = "SYMLINK", "MKNOD", "MKDIR", "CREATE"
# Any entry fits into so many bytes: 'the rule of listings'.
ROOM_FOR_ANY_ENTRY = 1176


class Place:
    """What a call names in a tree, looked up first: the file of its header's node, the other one of RENAME and LINK, and the files
    that its names stand for, or None."""

    def __init__(self, tree, call):
        check(call.node in tree.nodes and (call.other is None or call.other in tree.nodes), 80)
        self.tree, self.call, self.request, self.operation = tree, call, call.request, call.request.operation
        self.file = tree.nodes[call.node]
        self.other = tree.nodes[call.other] if call.other else None
        names = self.request.names
        self.name = names[0] if names else None
        self.new_name = names[1] if self.operation in RENAMES else None
        self.found = tree.names.get((self.file, self.name))
        self.new_found = tree.names.get((self.other, self.new_name))
        check(self.operation not in LISTING or call.handle in tree.opened, 80)

    def flags(self):
        """The flags of RENAME2, and none of RENAME."""
        return self.request.fields["flags"] if self.operation == "RENAME2" else 0

    def is_type(self, file, wanted):
        return self.tree.files[file].type == wanted

    def is_directory(self):
        return self.is_type(self.file, DIR)

    def are_directories(self):
        return self.is_directory() and self.is_type(self.other, DIR)

    def is_full_directory(self, file):
        return self.is_type(file, DIR) and bool(self.tree.names_in(file))

    def sets_size(self):
        return self.operation == "SETATTR" and bool(self.request.fields["valid"] & FATTR_SIZE)


def step(tree, call, count=None):
    """The tree behind a call, which is taken with this count where it is an unanswered WRITE."""
    place = Place(tree, call)
    if call.reply is not None and call.reply.error:
        check(has_cause(place, call.reply.error), 82)
        return tree
    check(may_succeed(place), 81)
    changed = change(place, count)
    return answered(changed, place) if call.reply is not None else changed


# When a call may succeed: the second column of the table of requests.


def may_succeed(place):
    """Whether the call may succeed in this tree."""
    operation = place.operation
    if operation == "LOOKUP":
        there = bool(place.call.reply.fields["node"])
        return place.is_directory() and there == (place.found is not None)
    if operation == "SETATTR":
        return not place.sets_size() or place.is_type(place.file, REG)
    if operation in MAKES:
        return may_make(place)
    if operation in RENAMES:
        return may_exchange(place) if place.flags() == RENAME_EXCHANGE else may_rename(place)
    if operation == "LINK":
        linked = place.tree.is_linked(place.file) and place.tree.is_linked(place.other)
        return linked and place.is_directory() and place.found is None and not place.is_type(place.other, DIR)
    if operation == "UNLINK":
        return place.found is not None and not place.is_type(place.found, DIR)
    if operation == "RMDIR":
        return place.found is not None and place.is_type(place.found, DIR) and not place.is_full_directory(place.found)
    if operation in ("OPENDIR", *LISTING):
        return place.is_directory()
    types = {"GETATTR": None, "READLINK": LNK, "OPEN": REG, "READ": REG, "WRITE": REG}
    return types[operation] is None or place.is_type(place.file, types[operation])


def may_make(place):
    """Of SYMLINK, MKNOD, MKDIR and CREATE."""
    if place.operation == "CREATE" and place.found is not None:
        return place.is_type(place.found, REG) and not place.request.fields["flags"] & O_EXCL
    return place.is_directory() and place.tree.is_linked(place.file) and place.found is None and place.call.number not in place.tree.files


def may_rename(place):
    """Of RENAME, and of RENAME2 without a flag or with RENAME_NOREPLACE."""
    moved, taken = place.found, place.new_found
    if moved is None or not place.is_type(place.other, DIR) or not place.tree.is_linked(place.other):
        return False
    if taken is not None and place.flags() == RENAME_NOREPLACE:
        return False
    if taken == moved:
        return True
    if place.is_type(moved, DIR) and place.tree.is_at_or_below(place.other, moved):
        return False
    if taken is None:
        return True
    if place.is_type(moved, DIR):
        return place.is_type(taken, DIR) and not place.is_full_directory(taken)
    return not place.is_type(taken, DIR)


def may_exchange(place):
    """Of RENAME2 with RENAME_EXCHANGE."""
    moved, taken = place.found, place.new_found
    if moved is None or taken is None:
        return False
    into_itself = place.is_type(moved, DIR) and place.tree.is_at_or_below(place.other, moved)
    other_into_itself = place.is_type(taken, DIR) and place.tree.is_at_or_below(place.file, taken)
    return not into_itself and not other_into_itself


# What it changes: the third column.


def change(place, count):
    """The tree with the call's change."""
    tree, operation, call = place.tree, place.operation, place.call
    if operation == "SETATTR":
        return set_attributes(place)
    if operation in MAKES:
        return make(place)
    if operation in ("UNLINK", "RMDIR"):
        return tree.with_name(place.file, place.name, None)
    if operation in RENAMES:
        return rename(place)
    if operation == "LINK":
        return tree.with_name(place.file, place.name, place.other)
    if operation == "OPEN" and call.truncates:
        return resized(tree, place.file, 0)
    if operation == "WRITE":
        written = count if call.reply is None else call.reply.fields["size"]
        file = tree.files[place.file]
        content = file.content.written(place.request.fields["offset"], place.request.data[:written])
        return tree.with_file(place.file, file._replace(content=content))
    if operation == "OPENDIR" and call.opens:
        return tree.with_opened(call.number, place.file)
    return tree


def resized(tree, file, size):
    what = tree.files[file]
    return tree.with_file(file, what._replace(content=what.content.resized(size)))


def set_attributes(place):
    """Of SETATTR."""
    tree, fields = place.tree, place.request.fields
    if fields["valid"] & FATTR_MODE and not place.is_type(place.file, LNK):
        tree = tree.with_file(place.file, tree.files[place.file]._replace(bits=fields["mode"] & BITS))
    return resized(tree, place.file, fields["size"]) if place.sets_size() else tree


def make(place):
    """Of SYMLINK, MKNOD, MKDIR and CREATE: a new file, known by its request; or the one that is there."""
    tree, fields = place.tree, place.request.fields
    if place.found is not None:
        return resized(tree, place.found, 0) if place.call.truncates else tree
    if place.operation == "SYMLINK":
        made = new_file(LNK, 0, place.request.names[1])
    else:
        types = {"MKNOD": fields["mode"] & TYPE or REG, "MKDIR": DIR, "CREATE": REG}
        made = new_file(types[place.operation], fields["mode"] & ~fields["umask"])
    return tree.with_file(place.call.number, made).with_name(place.file, place.name, place.call.number)


def rename(place):
    """Of RENAME and RENAME2."""
    if place.found == place.new_found:
        return place.tree
    left = place.new_found if place.flags() == RENAME_EXCHANGE else None
    return place.tree.with_name(place.file, place.name, left).with_name(place.other, place.new_name, place.found)


# What its answer has to say: the fourth column.


def answered(tree, place):
    """The tree with the nodes that the answer gives, where all that the answer says holds of it: 83, 84, 85 and 86."""
    operation, reply, request = place.operation, place.call.reply, place.request
    if operation in LISTING:
        return listed(tree, place)
    if operation in ("GETATTR", "SETATTR"):
        check(fits(tree, place.file, reply.fields), 83)
    elif reply.fields.get("node"):
        file = place.other if operation == "LINK" else tree.names[place.file, place.name]
        check(fits(tree, file, reply.fields), 83)
        return with_nodes(tree, place.call, [(reply.fields["node"], file)])
    elif operation == "READLINK":
        check(reply.data == tree.files[place.file].content, 85)
    elif operation == "READ":
        content, offset = tree.files[place.file].content, request.fields["offset"]
        most = max(0, min(request.fields["size"], content.size - offset))
        check(len(reply.data) == most or place.call.direct and len(reply.data) < most, 85)
        check(reply.data == content.read(offset, len(reply.data)), 85)
    return tree


def fits(tree, file, told):
    """'Attributes'."""
    what = tree.files[file]
    return (told["mode"] & TYPE == what.type
            and (what.type == LNK or told["mode"] & BITS == what.bits)
            and (what.type != REG or told["size"] == what.content.size)
            and (what.type == DIR or told["nlink"] == tree.links(file)))


def with_nodes(tree, call, pairs):
    """The tree in which the nodes of an answer stand for these files."""
    for node, file in pairs:
        name = call.given[node]
        check(tree.nodes.get(name, file) == file, 84)
        tree = tree.with_node(name, file)
    return tree


def listed(tree, place):
    """Of READDIR and READDIRPLUS: 'The rule of listings'."""
    call, opened = place.call, tree.opened[place.call.handle]
    told = [entry for entry in call.reply.entries if not entry.is_dot()]
    files = [tree.names.get((opened.directory, entry.name)) for entry in told]
    with_node = [(entry, file) for entry, file in zip(told, files) if entry.node]
    check(all(tree.files[file].type == entry.mode & TYPE for entry, file in with_node if file is not None), 83)
    tree = with_nodes(tree, call, [(entry.node, file) for entry, file in with_node if file is not None])
    check(all(file is not None for _, file in with_node), 86)
    check(all(entry.name in opened.seen for entry in told), 86)
    kept = [(entry, file) for entry, file in zip(told, files) if entry.name in opened.kept]
    check(all(entry.type in (0, tree.files[file].type // 4096) for entry, file in kept), 86)
    if not call.adrift and not call.shared:
        names = collections.Counter(entry.name for entry in call.so_far + told)
        check(all(names[name] <= 1 for name in opened.kept), 86)
        is_at_end = not call.reply.entries and place.request.fields["size"] >= ROOM_FOR_ANY_ENTRY
        check(not is_at_end or all(names[name] for name in opened.kept), 86)
    return tree


# Errors: the table of causes.


def has_cause(place, error):
    """Whether the tree determines no such error, or the error has its cause."""
    if error not in (ENOENT, EEXIST, ENOTEMPTY, ENOTDIR, EISDIR):
        return True
    if place.operation in RENAMES:
        exchange = place.flags() == RENAME_EXCHANGE
        return has_cause_to_exchange(place, error) if exchange else has_cause_to_rename(place, error)
    causes = {ENOENT: denies, EEXIST: meets_a_name, ENOTEMPTY: meets_a_full_directory, ENOTDIR: meets_no_directory,
              EISDIR: meets_a_directory}
    return causes[error](place)


def denies(place):
    """ENOENT."""
    if place.operation in ("LOOKUP", "UNLINK", "RMDIR"):
        return place.found is None
    if place.operation == "LINK" and not place.tree.is_linked(place.other):
        return True
    return not place.tree.is_linked(place.file)


def meets_a_name(place):
    """EEXIST."""
    if place.operation in (*MAKES, "LINK"):
        return place.found is not None
    return meets_a_full_directory(place)


def meets_a_full_directory(place):
    """ENOTEMPTY, and EEXIST of RMDIR."""
    return place.operation == "RMDIR" and place.found is not None and place.is_full_directory(place.found)


def meets_no_directory(place):
    """ENOTDIR."""
    if place.operation == "RMDIR" and place.found is not None and not place.is_type(place.found, DIR):
        return True
    in_directories = place.operation in ("LOOKUP", *MAKES, "LINK", "UNLINK", "RMDIR", "OPENDIR", *LISTING)
    return in_directories and not place.is_directory()


def meets_a_directory(place):
    """EISDIR."""
    if place.operation in ("UNLINK", "CREATE"):
        return place.found is not None and place.is_type(place.found, DIR)
    return (place.operation in ("OPEN", "READ", "WRITE") or place.sets_size()) and place.is_directory()


def has_cause_to_rename(place, error):
    """Of RENAME, and of RENAME2 without a flag or with RENAME_NOREPLACE."""
    tree, moved, taken = place.tree, place.found, place.new_found
    moves_directory = moved is not None and place.is_type(moved, DIR)
    takes_directory = taken is not None and place.is_type(taken, DIR)
    if error == ENOENT:
        return moved is None or not tree.is_linked(place.file) or not tree.is_linked(place.other)
    if error == EEXIST and place.flags() == RENAME_NOREPLACE:
        return taken is not None
    if error in (EEXIST, ENOTEMPTY):
        return takes_directory and place.is_full_directory(taken)
    if error == ENOTDIR:
        return not place.are_directories() or moves_directory and taken is not None and not takes_directory
    return moved is not None and not moves_directory and takes_directory


def has_cause_to_exchange(place, error):
    """Of RENAME2 with RENAME_EXCHANGE."""
    if error == ENOENT:
        linked = place.tree.is_linked(place.file) and place.tree.is_linked(place.other)
        return place.found is None or place.new_found is None or not linked
    return error == ENOTDIR and not place.are_directories()
