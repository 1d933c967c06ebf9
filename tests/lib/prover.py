"""Has the prover check a crate with wrong answers in it, as rt does for the gate, and keeps all that it says: rt itself prints one line for each file of must-fail/.

It is done on copies outside the repository, over the libraries that `rt ci` or `rt check` left in crates/*/out/rlib, and over what one check of the crate as it
stands proved; what a wrong answer leaves alone is not proved again.
"""
import concurrent.futures
import filecmp
import glob
import os
import shutil
import subprocess
import tempfile
import time

import packs

PARTS = ('src', 'specs', 'proofs')
PROVED, NOT_PROVED = 'logic=proved', 'logic=not-proved'


class Problem(Exception):
    """Why a crate could not be tried."""


def kit():
    """The kit's folder: the page that `rt doc` names lies at its top."""
    return os.path.dirname(subprocess.run(['rt', 'doc'], stdout=subprocess.PIPE, check=True).stdout.decode().strip())


def listed():
    """The crates of crates.txt: whether each is a static library, and what it stands on."""
    found = {}
    for line in open('crates.txt', encoding='utf-8'):
        name, colon, rest = line.split('#')[0].partition(':')
        if colon:
            found[name.split()[0]] = ('staticlib' in name.split()[1:], rest.split())
    return found


def below(crates, crate):
    """The repository's libraries that a crate stands on."""
    found, todo = [], [crate]
    while todo:
        for name in crates[todo.pop()][1]:
            if name in crates and name not in found:
                found.append(name)
                todo.append(name)
    return sorted(found)


def rlib(name):
    return os.path.abspath(f'crates/{name}/out/rlib/{name}.rlib')


def library_fault(name):
    """Why the library that is built of a crate does not serve, or nothing. (It holds the crate's definitions, but not its code as it is written.)"""
    if not os.path.isdir(rlib(name)):
        return f'there is no {os.path.relpath(rlib(name))}: run rt ci first'
    for path in glob.glob(f'crates/{name}/specs/**/*.antt', recursive=True):
        built = f'{rlib(name)}/lang/antt/specs/{os.path.relpath(path, f"crates/{name}/specs")}'
        if os.path.basename(path) != 'Lib.antt' and not (os.path.exists(built) and filecmp.cmp(path, built, shallow=False)):
            return f'{os.path.relpath(rlib(name))} is of another text than {path}: run rt check in crates/{name}'
    return None


def words(home, crates, crate):
    """What follows `rattle check`, as rt itself writes it for this crate."""
    is_static, uses = crates[crate]
    made = ['--crate-name', crate, 'src/main.rt' if os.path.exists(f'crates/{crate}/src/main.rt') else 'src/lib.rt']
    for name in ['std'] + [name for name in uses if name not in crates]:
        made += ['--extern', f'{name}={home}/rlibs/{name}.rlib']
    made += ['-L', f'dependency={home}/rlibs']
    for name in uses:
        made += ['--extern', f'{name}={rlib(name)}'] if name in crates else []
    for name in below(crates, crate):
        made += ['-L', f'dependency={os.path.dirname(rlib(name))}']
    made += ['--antt-project', f'{home}/rattle/logic/antt-project.json', '--logic-built', f'{home}/logic_built', '--links', f'{crate}=', '--jobs', '1']
    return made + (['--crate-type', 'staticlib'] if is_static else [])


def check(home, room, given, kept):
    """Has the prover check the crate of this folder over what is kept, and returns all that it says."""
    done = subprocess.run([f'{home}/bin/rattle', 'check', *given, '--incremental', kept], cwd=room, stdin=subprocess.DEVNULL,
                          stdout=subprocess.PIPE, stderr=subprocess.STDOUT, check=False)
    return done.stdout.decode(errors='replace')


def verdict(log):
    """The word of a log's line on the whole crate, or nothing where the prover came to none."""
    return next((word for line in log.split('\n') for word in line.split(' ')[:1] if word in (PROVED, NOT_PROVED)), None)


def linked(kept, to):
    """Copies what was proved, by links where it can: the prover replaces such a file, and writes into none."""

    def one(source, target):
        if source.endswith('.oantt'):
            os.link(source, target)
        else:
            shutil.copy2(source, target)

    shutil.copytree(kept, to, copy_function=one)


def begin(home, crates, crate, rooms):
    """Proves the crate as it stands in a room of its own: what a try of its wrong answers begins with."""
    for name in below(crates, crate):
        fault = library_fault(name)
        if fault:
            raise Problem(fault)
    room = f'{rooms}/{crate}'
    os.makedirs(room)
    for part in PARTS:
        if os.path.isdir(f'crates/{crate}/{part}'):
            shutil.copytree(f'crates/{crate}/{part}', f'{room}/{part}')
    log = check(home, room, words(home, crates, crate), f'{room}/kept')
    if verdict(log) != PROVED:
        raise Problem(f'{crate} is not proved as it stands:\n{log[-2000:]}')


def tried(home, crates, crate, parts, rooms, name):
    """A folder with the crate and these parts in place, what the prover says of it, and the seconds; the texts have to be there exactly once."""
    began, room = time.monotonic(), f'{rooms}/{crate}.{name}'
    texts = packs.edited(packs.texts(f'crates/{crate}'), parts)
    for path, text in texts.items():
        os.makedirs(os.path.dirname(f'{room}/{path}'), exist_ok=True)
        with open(f'{room}/{path}', 'w', encoding='utf-8') as file:
            file.write(text)
    linked(f'{rooms}/{crate}/kept', f'{room}/kept')
    log = check(home, room, words(home, crates, crate), f'{room}/kept')
    shutil.rmtree(f'{room}/kept')
    return room, log, time.monotonic() - began


def jobs():
    """How many checks go on at a time: one for each processor, and no more than the memory is for."""
    memory = os.sysconf('SC_PAGE_SIZE') * os.sysconf('SC_PHYS_PAGES')
    return max(1, min(len(os.sched_getaffinity(0)), int(memory // 3_000_000_000)))


def try_all(edits, found):
    """Tries wrong answers, {(crate, name): parts}, and hands each try to found(crate, name, folder, log, seconds), or found(crate, name, None, problem, 0)."""
    home, crates = kit(), listed()
    size = {crate: sum(len(text) for text in packs.texts(f'crates/{crate}').values()) for crate, _ in edits}
    with tempfile.TemporaryDirectory(prefix='packs-') as rooms, concurrent.futures.ThreadPoolExecutor(jobs()) as pool:
        rooms = os.path.realpath(rooms)
        left, begun, trying = {}, {}, {}
        for crate, name in edits:
            left.setdefault(crate, []).append(name)
        # the largest first, so that no processor waits at the end
        for crate in sorted(left, key=lambda crate: -size[crate] * len(left[crate])):
            begun[pool.submit(begin, home, crates, crate, rooms)] = crate
        while begun or trying:
            done, _ = concurrent.futures.wait([*begun, *trying], return_when=concurrent.futures.FIRST_COMPLETED)
            for future in done:
                if future in begun:
                    crate = begun.pop(future)
                    problem = future.exception()
                    if problem and not isinstance(problem, Problem):
                        raise problem
                    for name in list(left[crate]):
                        if problem:
                            found(crate, name, None, str(problem), 0)
                        else:
                            trying[pool.submit(tried, home, crates, crate, edits[crate, name], rooms, name)] = crate, name
                    continue
                crate, name = trying.pop(future)
                problem = future.exception()
                if problem and not isinstance(problem, KeyError):
                    raise problem
                if problem:
                    found(crate, name, None, problem.args[0], 0)
                else:
                    folder, log, seconds = future.result()
                    found(crate, name, folder, log, seconds)
                    shutil.rmtree(folder)
                left[crate].remove(name)
                if not left[crate]:
                    shutil.rmtree(f'{rooms}/{crate}')
