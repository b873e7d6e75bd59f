"""What both ends of a link did, moment by moment, and demand 3 of all that a power cut may leave then."""

import bisect
import collections
import itertools
import os

from disks import MOST
from ends import Violation

FAILED = 'a failed'

# After which act, the images that a power cut may leave (the visible one first), what may be stored by them; and
# where the act was on the line: the circuit and how many bytes were sent on it so far, or heard.
Moment = collections.namedtuple('Moment', 'after images stored sent heard')


def taken(visible, image):
    """What the power cut took."""
    paths = visible.differences(image)
    return ', and the power cut takes ' + ', '.join(paths) if paths else ''


class PowerCuts:
    """What a power cut may leave of an end's disk, and what is stored by it. The same disks come again and
    again; each is looked at once. One that breaks demand 3 by itself is found here."""

    def __init__(self, check, draws, most=MOST):
        self.check, self.draws, self.most = check, draws, most
        self.known, self.images = {}, {}

    def of(self, disk):
        """The images, the visible one first and the most unlike it last, and the first image to each that may
        be stored."""
        state = disk.state()
        if state not in self.known:
            images = [self.images.setdefault(image.key, image) for image in disk.power_cuts(self.draws, self.most)]
            images.sort(key=images[0].distance)
            stored = {}
            for image in images:
                try:
                    stored.setdefault(self.check(image), image)
                except Violation as found:
                    raise Violation('%s%s' % (found, taken(images[0], image))) from found
            self.known[state] = images, stored
        return self.known[state]


class History:
    """One end."""

    def __init__(self, name, disk, power_cuts):
        self.name, self.disk, self.power_cuts = name, disk, power_cuts
        self.moments, self.images, self.stored = [], [], {}
        self.totals = {'block': collections.Counter(), 'heard': collections.Counter()}
        self.look('the start')

    def look(self, after):
        """The disk is another one now."""
        try:
            self.images, self.stored = self.power_cuts.of(self.disk)
        except Violation as found:
            raise Violation('the %s is after %s: %s' % (self.name, after, found)) from found
        self.note(after)

    def note(self, after, sent=None, heard=None):
        self.moments.append(Moment(after, self.images, self.stored, sent, heard))

    def add(self, act, words):
        """A line of trace.c."""
        if act in self.totals:
            circuit, count = words
            self.totals[act][circuit] += int(count)
            at = circuit, self.totals[act][circuit]
            self.note(act, *((at, None) if act == 'block' else (None, at)))
        elif act in ('dies', 'fails'):
            self.note('%s %s' % ({'dies': 'its death before', 'fails': FAILED}[act], self.words_of(words[0], words[1:])))
        else:
            self.disk.apply(act, *words)
            self.look(self.words_of(act, words))

    def words_of(self, act, words):
        return ' '.join([act] + [os.path.relpath(word, self.disk.path) for word in words if '/' in word])

    def acts(self):
        """What it did, in the numbering of CRASH_AT."""
        return [moment.after for moment in self.moments[1:] if moment.heard is None]


def first_moments(moments, peer):
    """To each moment the first one of the peer that can be at once with it: all is sent that is heard by then."""
    sends = collections.defaultdict(lambda: ([], []))
    for at, moment in enumerate(peer):
        if moment.sent is not None:
            circuit, total = moment.sent
            sends[circuit][0].append(total)
            sends[circuit][1].append(at)
    first, found = 0, []
    for moment in moments:
        if moment.heard is not None:
            circuit, total = moment.heard
            totals, at = sends[circuit]
            first = max(first, at[bisect.bisect_left(totals, total)])
        found.append(first)
    return found


def pairs(sender, receiver, begin=0):
    """The moments of the two that can be at once, from one of the sender on: neither has heard what the other
    has not yet sent. Those of the run itself are among them; the others are of runs in which one end is
    slower."""
    receiver_first, sender_first = first_moments(sender, receiver), first_moments(receiver, sender)
    for own in range(begin, len(sender)):
        for other in range(receiver_first[own], len(receiver)):
            if sender_first[other] > own:
                break
            yield sender[own], receiver[other]


def check_pairs(books, histories, begin=0):
    """A power cut of one end or both. What a kill leaves is among it. Returns how many pairs of moments there
    are."""
    done, count = set(), 0
    for own, other in pairs(*(history.moments for history in histories), begin):
        count += 1
        for stored in itertools.product(own.stored, other.stored):
            if stored in done:
                continue
            done.add(stored)
            try:
                books.check_both(*stored)
            except Violation as found:
                both = [moment.after + taken(moment.images[0], moment.stored[what])
                        for moment, what in zip((own, other), stored)]
                raise Violation('the sender is after %s; the receiver is after %s: %s' % (*both, found)) from found
    return count
