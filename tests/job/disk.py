# What lasts of a spool when the power fails: a model of a disk that follows the calls of a host, line by line as stopper.c traces them. A
# file has the bytes of its last flush, and a name lasts when its folder is flushed. Until then either may be as before or as after. A
# rename is in both of its folders or in neither, as on every file system that has a journal.
import os


class File:
    def __init__(self, seen=b"", lasts=b""):
        self.seen, self.lasts = seen, lasts


class Folder:
    def __init__(self):
        self.seen = {}


class Change:
    """Names of folders and what they stand for from then on; None is nothing."""

    def __init__(self, *entries):
        self.entries, self.lasts = entries, False

    def apply(self, names):
        for folder, name, node in self.entries:
            names.setdefault(folder, {})[name] = node


class Disk:
    def __init__(self, spool, unflushed=None):
        """unflushed: a folder whose files have lasting names and no lasting bytes."""
        self.root, self.changes = Folder(), []
        self.begin(self.root, spool)
        for file in self.node(unflushed).seen.values() if unflushed else ():
            file.lasts = b""

    def begin(self, folder, path):
        """All that is there at the beginning lasts."""
        for entry in os.scandir(path):
            if entry.is_dir():
                node = Folder()
                self.begin(node, entry.path)
            else:
                with open(entry.path, "rb") as file:
                    node = File(*[file.read()] * 2)
            self.change((folder, entry.name, node))
            self.changes[-1].lasts = True

    def change(self, *entries):
        self.changes.append(Change(*entries))
        for folder, name, node in entries:
            folder.seen[name] = node
            if node is None:
                del folder.seen[name]

    def node(self, path):
        node = self.root
        for name in path.split("/"):
            node = node if name == "." else node.seen[name]
        return node

    def split(self, path):
        folder, _, name = path.rpartition("/")
        return self.node(folder or "."), name

    def follow(self, line):
        call, *words = line.split(" ")
        if call == "create":
            folder, name = self.split(words[0])
            if name in folder.seen:
                folder.seen[name].seen = b""
            else:
                self.change((folder, name, File()))
        elif call == "mkdir":
            self.change((*self.split(words[0]), Folder()))
        elif call == "remove":
            self.change((*self.split(words[0]), None))
        elif call == "rename":
            self.change((*self.split(words[0]), None), (*self.split(words[1]), self.node(words[0])))
        elif call == "write":
            self.node(words[0]).seen += bytes.fromhex(words[1])
        elif call == "fsync":
            self.flush(self.node(words[0]))

    def flush(self, node):
        if isinstance(node, File):
            node.lasts = node.seen
        for change in self.changes:
            change.lasts = change.lasts or any(node is folder for folder, _, _ in change.entries)

    def names(self, draw=None):
        """The folders' names: those that last, and some of the others, drawn at random."""
        names = {}
        for change in self.changes:
            if change.lasts or (draw and draw.random() < 0.5):
                change.apply(names)
        return names

    def lasting(self, path):
        """The bytes of a file that are there in any case, or None."""
        names, node = self.names(), self.root
        for name in path.split("/"):
            node = names.get(node, {}).get(name)
        return node.lasts if isinstance(node, File) else None

    def lay_down(self, spool, draw):
        """Writes what a failure of power may leave, in place of what is there."""
        self.write(self.root, spool, self.names(draw), draw)

    def write(self, folder, path, names, draw):
        os.makedirs(path)
        for name, node in names.get(folder, {}).items():
            there = os.path.join(path, name)
            if isinstance(node, Folder):
                self.write(node, there, names, draw)
            elif node is not None:
                with open(there, "wb") as file:
                    file.write(node.lasts if draw.random() < 0.5 else node.seen[:draw.randint(0, len(node.seen))] if node.seen != node.lasts
                               else node.seen)
