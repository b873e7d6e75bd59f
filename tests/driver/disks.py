"""A model of a disk: what a kill leaves of it, and all that a power cut may leave.

A kill leaves what is visible. A power cut leaves what was synced; of what was not, any part. Names are
apart from contents, and each name from each other one: of a rename that was not synced there may be the
new name, the removal of the old one, both or neither, and the file that it names may be empty."""

import collections
import itertools
import math
import os

FOLDER = None  # in an image: a folder, and no file's bytes
MOST = 256  # so many images of one disk are all made; of more, those that differ in one thing, and some drawn
LIGHT = {'live': b'giamuvich', 'live.new': b'\0' * 100}  # need not survive; a cut leaves this of them


class Image:
    """What is on a disk at a start: the bytes of each path, and which paths are names of one file.
    Answers to the calls of ends.Files."""

    def __init__(self, content, same=()):
        self.content, self.same = content, tuple(sorted(same))
        self.key = frozenset(content.items()), self.same

    def read(self, *path):
        return self.content.get('/'.join(path))

    def names(self, folder):
        return [path[len(folder) + 1:] for path in self.content if path.startswith(folder + '/')]

    def lay_out(self, folder):
        """A real folder that has this."""
        os.mkdir(folder)
        for path in sorted(self.content):
            if self.content[path] is FOLDER:
                os.mkdir(os.path.join(folder, path))
            else:
                with open(os.path.join(folder, path), 'wb') as file:
                    file.write(self.content[path])
        for first, *others in self.same:
            for path in others:
                os.unlink(os.path.join(folder, path))
                os.link(os.path.join(folder, first), os.path.join(folder, path))

    def distance(self, other):
        return len(self.key[0] ^ other.key[0])

    def differences(self, other):
        """The paths that are not the same in both."""
        return sorted({path for path, _ in self.key[0] ^ other.key[0]} |
                      {path for group in set(self.same) ^ set(other.same) for path in group})


def torn(data):
    """What may be on the disk where these bytes were written and not synced, besides none and all: less
    than all, or all the length of it and other bytes."""
    half = len(data) // 2
    return [data[:half], data[:-1], b'\0' * len(data), data[:half] + b'\0' * (len(data) - half)]


class File:
    """The bytes that were synced, and what was done since: truncations (None) and writes."""

    def __init__(self, synced=b''):
        self.synced = self.bytes = synced
        self.since, self.made = [], (synced,)

    @staticmethod
    def after(data, acts):
        for act in acts:
            if act is None:
                data = b''
            else:
                offset, written = act
                data = data[:offset].ljust(offset, b'\0') + written + data[offset + len(written):]
        return data

    def act(self, act):
        self.since.append(act)
        self.bytes, self.made = self.after(self.bytes, [act]), None

    def sync(self):
        self.synced, self.since, self.made = self.bytes, [], (self.bytes,)

    def contents(self):
        """All that a power cut may leave, what was synced first."""
        if self.made is None:
            found = [self.synced, self.bytes]
            for count, act in enumerate(self.since):
                found.append(self.after(self.synced, self.since[:count] + self.since[count + 1:]))
                before = self.after(self.synced, self.since[:count])
                found += [self.after(before, [(act[0], part)]) for part in torn(act[1])] if act else []
                found.append(before)
            self.made = tuple(dict.fromkeys(found))
        return self.made


class Folder:
    """The names that were synced, and what each one stood for since; None for nothing."""

    def __init__(self):
        self.synced, self.entries, self.since = {}, {}, {}

    def put(self, name, value):
        self.since.setdefault(name, [self.synced.get(name)]).append(value)
        self.entries[name] = value

    def sync(self):
        self.entries = {name: value for name, value in self.entries.items() if value is not None}
        self.synced, self.since = dict(self.entries), {}

    def put_synced(self, name, value):
        """By a host, who stores what he spools; other names may still be lost."""
        self.synced[name] = self.entries[name] = value
        self.since.pop(name, None)

    def unsync(self):
        """As if nothing of it had ever been synced, nor its files."""
        for name, file in self.entries.items():
            self.since[name] = [None, file]
            file.synced, file.since, file.made = b'', [(0, file.bytes)], None
        self.synced = {}

    def values(self, name):
        """All that a power cut may leave under this name, what was synced first."""
        return tuple(dict.fromkeys(self.since.get(name, (self.entries[name],))))


class Disk:
    """A folder as the trace of a driver tells it. What is there at first is synced."""

    def __init__(self, path):
        self.path, self.numbers = path, {}
        self.root = self.load(path)

    def load(self, path):
        folder = self.numbers[os.stat(path).st_ino] = Folder()
        for entry in os.scandir(path):
            if entry.is_dir():
                folder.put(entry.name, self.load(entry.path))
            elif entry.name not in LIGHT:
                folder.put(entry.name, self.load_file(entry.path))
        folder.sync()
        return folder

    def load_file(self, path):
        number = os.stat(path).st_ino
        if number not in self.numbers:
            with open(path, 'rb') as file:
                self.numbers[number] = File(file.read())
        return self.numbers[number]

    def located(self, path):
        """The folder that a path is in, and the name there."""
        *parts, name = os.path.relpath(path, self.path).split('/')
        folder = self.root
        for part in parts:
            folder = folder.entries[part]
        return folder, name

    def name(self, path, value):
        folder, name = self.located(path)
        folder.put(name, value)

    def rename(self, path, to, value):
        """Two names of one file are left as they are: so says POSIX."""
        folder, name = self.located(to)
        if folder.entries.get(name) is not value:
            folder.put(name, value)
            self.name(path, None)

    # ---- what the driver does, and the host

    def apply(self, act, number, path, *more):
        """A line of trace.c. Files go by their numbers, as names change while they are open."""
        number = int(number)
        if act in ('create', 'mkdir'):
            self.numbers[number] = File() if act == 'create' else Folder()
            self.name(path, self.numbers[number])
        elif act == 'truncate':
            self.numbers[number].act(None)
        elif act == 'write':
            self.numbers[number].act((int(more[0]), bytes.fromhex(more[1])))
        elif act == 'sync':
            self.numbers[number].sync()
        elif act == 'rename':
            self.rename(path, more[0], self.numbers[number])
        elif act == 'link':
            self.name(more[0], self.numbers[number])
        elif act == 'unlink':
            self.name(path, None)
        else:
            raise ValueError('an act that is not known: %s' % act)

    def spooled(self, path):
        """A host has stored this file, while no driver runs."""
        folder, name = self.located(path)
        self.numbers.pop(os.stat(path).st_ino, None)
        folder.put_synced(name, self.load_file(path))

    def require_all(self):
        """What the folder really has is what the trace told: no call that changes files went past it."""
        model, real = self.visible(), Disk(self.path).visible()
        if model.key != real.key:
            raise RuntimeError('the trace is not all that was done: %s' % ', '.join(model.differences(real)))

    # ---- what is there

    def image(self, chosen, closed=()):
        """What is on the disk where these values are chosen, and the others are the visible ones. Of folders
        that are closed the content is known."""
        content, paths = {}, {}

        def walk(folder, prefix):
            for name, now in folder.entries.items():
                value = chosen.get((folder, name), now)
                if isinstance(value, File):
                    content[prefix + name] = chosen.get(value, value.bytes)
                    paths.setdefault(value, []).append(prefix + name)
                elif value is not None:
                    content[prefix + name] = FOLDER
                    if value in closed:
                        content.update(closed[value])
                    else:
                        walk(value, prefix + name + '/')

        walk(self.root, '')
        return Image(content, [tuple(sorted(same)) for same in paths.values() if len(same) > 1])

    def visible(self):
        """What a kill leaves."""
        return self.image({})

    def state(self):
        """What its images are made of: disks of the same state have the same images."""
        numbers = {}

        def of(value):
            if isinstance(value, File):
                return numbers.setdefault(value, len(numbers)), value.bytes, value.contents()
            return value and tuple((name, of(value.entries[name]), *map(of, value.since.get(name, ())))
                                   for name in sorted(value.entries))

        return of(self.root)

    def choices(self):
        """What a power cut decides, each apart from the others: of a folder and a name, or of a file, what
        there is to choose, the old first, and where the visible is."""
        found, waiting = {}, [self.root]
        while waiting:
            at = waiting.pop()
            if isinstance(at, File):
                if len(at.contents()) > 1:
                    found[at] = at.contents(), at.contents().index(at.bytes)
                continue
            for name, now in at.entries.items():
                values = at.values(name)
                waiting += [value for value in values if value is not None]
                if len(values) > 1:
                    found[at, name] = values, values.index(now)
        return found

    def closed(self, choices):
        """The content of each folder in which all is decided: nothing to choose, no file with another name
        elsewhere. It is the same in all images."""
        places = collections.Counter(value for folder in self.numbers.values() if isinstance(folder, Folder)
                                     for name in folder.entries for value in folder.values(name))
        found = {}

        def walk(folder, prefix):
            content, decided = {}, True
            for name, value in folder.entries.items():
                decided = decided and (folder, name) not in choices and value not in choices and places[value] == 1
                if isinstance(value, Folder):
                    content.update({prefix + name: FOLDER, **walk(value, prefix + name + '/')})
                    decided = decided and value in found
                elif value is not None:
                    content[prefix + name] = value.bytes
            if decided:
                found[folder] = content
            return content

        walk(self.root, '')
        return found

    @staticmethod
    def selections(sizes, visible, random, most):
        """Which of its values each choice has, by index."""
        if math.prod(sizes) <= most:
            yield from itertools.product(*map(range, sizes))
            return
        for base in ([0] * len(sizes), visible):
            for at, size in enumerate(sizes):
                for index in range(size):
                    yield base[:at] + [index] + base[at + 1:]
        for _ in range(most // 4):
            yield map(random.randrange, sizes)

    def power_cuts(self, random, most=MOST):
        """The images that a power cut may leave, each once, the visible one first."""
        choices, visible_image = self.choices(), self.visible()
        closed, found = self.closed(choices), {visible_image.key: visible_image}
        sizes, visible = [len(values) for values, _ in choices.values()], [now for _, now in choices.values()]
        for selection in self.selections(sizes, visible, random, most):
            chosen = {key: values[index] for (key, (values, _)), index in zip(choices.items(), selection)}
            image = self.image(chosen, closed)
            found[image.key] = image
        return list(found.values())
