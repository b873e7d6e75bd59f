"""--version, and programs whose header is not that of the archive: they say so, and do nothing else."""

import os
import re
import subprocess

from faults import INCLUDE

HERE = os.path.dirname(os.path.abspath(__file__))
HEADER = 'giamuvich.h'
TIME = r'\d{4}-\d\d-\d\d \d\d:\d\d:\d\d '


def header_text():
    with open(os.path.join(INCLUDE, HEADER), encoding='ascii') as file:
        return file.read()


def version_of(text):
    return re.search(r'^#define GMV_VERSION "(.*)"$', text, re.MULTILINE).group(1)


def build_with_other_header(folder):
    """Programs of the same sources and archive, with a header of the next patch; and that version."""
    text = header_text()
    major, minor, patch = version_of(text).split('.')
    other = '%s.%s.%d' % (major, minor, int(patch) + 1)
    text = text.replace('#define GMV_VERSION_PATCH ' + patch, '#define GMV_VERSION_PATCH %d' % (int(patch) + 1))
    text = text.replace('#define GMV_VERSION "%s"' % version_of(text), '#define GMV_VERSION "%s"' % other)
    os.makedirs(folder)
    with open(os.path.join(folder, HEADER), 'w', encoding='ascii') as file:
        file.write(text)
    programs = os.path.join(folder, 'programs')
    subprocess.run([os.path.join(HERE, 'build'), programs], check=True, env=dict(os.environ, INCLUDE=folder))
    return programs, other


def said(programs, name, *words):
    """The exit status, what a program printed, and what it said on standard error."""
    done = subprocess.run([os.path.join(programs, name), *words], check=False, timeout=20, capture_output=True, text=True,
                          stdin=subprocess.DEVNULL)
    return done.returncode, done.stdout, re.sub('^' + TIME, 'TIME ', done.stderr)


def same_version(programs):
    """None, or what is wrong."""
    wanted = version_of(header_text())
    for name in ('gmv_driver', 'linkstatus'):
        found = said(programs, name, '--version')
        if found != (0, '%s %s\n' % (name, wanted), ''):
            return found
    return None


def other_version(folder):
    """The same of programs whose header is of another version."""
    programs, other = build_with_other_header(folder)
    differs = 'the archive that is linked is version %s, its header is version %s\n' % (version_of(header_text()), other)
    end = os.path.join(folder, 'end')
    wanted = [(('gmv_driver', '--version'), (1, 'gmv_driver %s\n%s' % (other, differs), '')),
              (('linkstatus', '--version'), (1, 'linkstatus %s\n%s' % (other, differs), '')),
              (('gmv_driver', 'receiver-init', end), (1, '', 'TIME gmv_driver: ' + differs)),
              (('linkstatus', end), (3, '', 'TIME linkstatus: ' + differs))]
    wrong = [(words, said(programs, *words)) for words, answer in wanted if said(programs, *words) != answer]
    return wrong or (None if not os.path.exists(end) else 'it made the folder')
