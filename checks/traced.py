"""Runs a program under the system's own tracing (Linux, x86-64), so that a request for memory, a read or a write can be
refused.

Nothing but Python is needed. The program is the built one, unchanged: what is refused is refused by the C library,
which is asked for more than there is, or by the system, whose call is not made.
"""
from __future__ import annotations

import ctypes
import errno
import os
import signal
import struct
import tempfile
from collections.abc import Callable, Container, Iterable, Iterator
from typing import IO

from common import ENVIRONMENT, Answer, status_with
from patience import LOOK, Patience

TRACEME, PEEK, POKE, CONT, GETREGS, SETREGS, SYSCALL, SETOPTIONS = 0, 1, 4, 7, 12, 13, 24, 0x4200
SYSCALL_STOPS, FOLLOW_THREADS, END_WITH_TRACER = 0x01, 0x08, 0x100000
ANY_THREAD = 0x40000000
READ, WRITE, OPEN, OPENAT, CLONE, CLONE3 = 0, 1, 2, 257, 56, 435
HUGE = 1 << 63
# Told of a stop of a thread, and whether it is at a call of the system; whether it was one of ours.
Stopped = Callable[[int, bool], bool]
# A call of the system: what sort, of which file, and how long it is.
Call = tuple[str, int | None, int]
# What is to become of a call, by its number, sort, file and length: nothing, an error, or so many bytes at most.
Change = Callable[[int, str, int | None, int], int | tuple[str, int] | None]
ENDBR64, PUSH_RBP, BREAKPOINT = b'\xf3\x0f\x1e\xfa', b'\x55', 0xcc


class Registers(ctypes.Structure):
    _fields_ = [(name, ctypes.c_ulonglong) for name in
                ('r15 r14 r13 r12 rbp rbx r11 r10 r9 r8 rax rcx rdx rsi rdi orig_rax rip cs eflags rsp ss '
                 'fs_base gs_base ds es fs gs').split()]


library = ctypes.CDLL(None, use_errno=True)
library.ptrace.restype = ctypes.c_long
library.ptrace.argtypes = [ctypes.c_long, ctypes.c_long, ctypes.c_void_p, ctypes.c_void_p]


def ptrace(request: int, thread: int, address: int = 0, data: int = 0) -> int:
    ctypes.set_errno(0)
    answer = library.ptrace(request, thread, address, data)
    if answer == -1 and ctypes.get_errno():
        raise OSError(ctypes.get_errno(), os.strerror(ctypes.get_errno()))
    return int(answer) & 0xffffffffffffffff


def registers_of(thread: int) -> Registers:
    registers = Registers()
    ptrace(GETREGS, thread, 0, ctypes.addressof(registers))
    return registers


def set_registers(thread: int, registers: Registers) -> None:
    ptrace(SETREGS, thread, 0, ctypes.addressof(registers))


def symbols_in(image: bytes, wanted: Container[str]) -> Iterator[tuple[str, int, int]]:
    """Of each named function of an ELF file its address, and where in the file the entry of its symbol stands."""
    sections, (size, count) = struct.unpack_from('<Q', image, 40)[0], struct.unpack_from('<HH', image, 58)
    for number in range(count):
        _, sort, _, _, offset, length, link, _, _, step = struct.unpack_from('<IIQQQQIIQQ', image,
                                                                             sections + number * size)
        if sort != 2:
            continue
        names = struct.unpack_from('<IIQQQQ', image, sections + link * size)[4]
        for entry in range(offset, offset + length, step):
            name, _, _, _, value, _ = struct.unpack_from('<IBBHQQ', image, entry)
            end = image.index(b'\0', names + name)
            called = image[names + name:end].decode('latin-1')
            if called in wanted:
                yield called, value, entry


def symbols_of(program: str, wanted: Container[str]) -> tuple[dict[str, int], bool]:
    """The addresses of the named functions in the program's file, and whether the system moves it as a whole. A script
    has none."""
    with open(program, 'rb') as handle:
        image = handle.read()
    if not image.startswith(b'\x7fELF'):
        return {}, False
    return {name: value for name, value, _ in symbols_in(image, wanted)}, struct.unpack_from('<H', image, 16)[0] == 3


def base_of(process: int, program: str) -> int:
    real = os.path.realpath(program)
    with open('/proc/%d/maps' % process) as handle:
        return min(int(line.split('-')[0], 16) for line in handle if line.rstrip('\n').endswith(real))


def text_at(process: int, address: int) -> bytes:
    with open('/proc/%d/mem' % process, 'rb', 0) as memory:
        memory.seek(address)
        read = memory.read(4096 - address % 4096)
        return read.split(b'\0')[0]


def started(program: str, words: list[str], folder: str, output: IO[bytes], error: IO[bytes]) -> int:
    """A new process of the program that stands before its first instruction."""
    process = os.fork()
    if process == 0:
        try:
            os.chdir(folder)
            os.dup2(output.fileno(), 1)
            null = os.open('/dev/null', os.O_RDWR)
            os.dup2(null, 0)
            os.dup2(error.fileno(), 2)
            os.closerange(3, 256)
            library.ptrace(TRACEME, 0, 0, 0)
            os.execve(program, [program] + words, ENVIRONMENT)
        finally:
            os._exit(127)
    os.waitpid(process, 0)
    ptrace(SETOPTIONS, process, 0, SYSCALL_STOPS | FOLLOW_THREADS | END_WITH_TRACER)
    return process


def follow(process: int, go_on: int, stopped: Stopped) -> int:
    """Lets the process run to its end; `stopped` is told of each stop that is one of ours. Gives the exit status."""
    patience = Patience(process)

    def look(*_: object) -> None:
        if patience.over():
            raise TimeoutError

    signal.signal(signal.SIGALRM, look)
    signal.setitimer(signal.ITIMER_REAL, LOOK, LOOK)
    try:
        return followed(process, go_on, stopped)
    except TimeoutError:
        os.kill(process, signal.SIGKILL)
        os.waitpid(process, 0)
        return -signal.SIGKILL
    finally:
        signal.setitimer(signal.ITIMER_REAL, 0)


def followed(process: int, go_on: int, stopped: Stopped) -> int:
    known = set([process])
    ptrace(go_on, process)
    while True:
        thread, state = os.waitpid(-1, ANY_THREAD)
        if os.WIFEXITED(state) or os.WIFSIGNALED(state):
            if thread == process:
                return os.WEXITSTATUS(state) if os.WIFEXITED(state) else -os.WTERMSIG(state)
            continue
        sort, event = os.WSTOPSIG(state), state >> 16
        pass_on = 0
        if event:
            pass
        elif thread not in known and sort == signal.SIGSTOP:
            known.add(thread)
        elif sort == signal.SIGTRAP or sort == signal.SIGTRAP | 0x80:
            if not stopped(thread, sort == signal.SIGTRAP | 0x80):
                pass_on = signal.SIGTRAP
        else:
            pass_on = sort
        known.add(thread)
        try:
            ptrace(go_on, thread, 0, pass_on)
        except ProcessLookupError:
            pass


def answer_of(status: int, output: IO[bytes], error: IO[bytes]) -> Answer:
    """The status of a run that is over, with what stands on standard error, and its text."""
    output.seek(0)
    error.seek(0)
    return status_with(status, error.read()), output.read()


def with_memory_refused(program: str, words: list[str], folder: str, number: int,
                        lasting: bool = False) -> tuple[int | str, bytes, int]:
    """A run whose request for memory of this number is refused (with `lasting`, each one from there on).

    Gives the status, the text, and how many requests the run made.
    """
    found, moved = symbols_of_once(program)
    with tempfile.TemporaryFile() as output, tempfile.TemporaryFile() as error:
        process = started(program, words, folder, output, error)
        base = base_of(process, program) if moved else 0
        places = {}
        for name, address in found.items():
            word = ptrace_word(process, base + address)
            first = word.to_bytes(8, 'little')
            if not (first.startswith(ENDBR64) or first.startswith(PUSH_RBP)):
                os.kill(process, signal.SIGKILL)
                os.waitpid(process, 0)
                raise ValueError('the function %s begins as none that can be stopped at: %r' % (name, first))
            places[base + address] = (name, first.startswith(ENDBR64))
            ptrace(POKE, process, base + address, word & ~0xff | BREAKPOINT)
        count = 0

        def stopped(thread: int, at_call: bool) -> bool:
            nonlocal count
            registers = registers_of(thread)
            place = places.get(registers.rip - 1)
            if place is None or at_call:
                return False
            count += 1
            name, marked = place
            if count == number or lasting and count >= number:
                if name == 'rattle_realloc':
                    registers.rdx = HUGE
                else:
                    registers.rdi = HUGE
            # The breakpoint stands in place of the first byte; what that instruction does is done here.
            if marked:
                registers.rip += 3
            else:
                registers.rsp -= 8
                ptrace(POKE, thread, registers.rsp, registers.rbp)
            set_registers(thread, registers)
            return True

        return *answer_of(follow(process, CONT, stopped), output, error), count


KEPT: dict[str, tuple[dict[str, int], bool]] = {}
# The functions by which the program asks for memory.
ASKING = ('rattle_alloc', 'rattle_realloc')


def symbols_of_once(program: str) -> tuple[dict[str, int], bool]:
    if program not in KEPT:
        KEPT[program] = symbols_of(program, ASKING)
    return KEPT[program]


def ptrace_word(process: int, address: int) -> int:
    with open('/proc/%d/mem' % process, 'rb', 0) as memory:
        memory.seek(address)
        return int.from_bytes(memory.read(8), 'little')


class Calls:
    """Which calls of the system are the program's own: opening a file that a word names, reading it, writing the
    output, and making a thread."""

    def __init__(self, names: Iterable[str]) -> None:
        self.names = [os.fsencode(name) for name in names]
        self.files: dict[int, int | None] = {}

    def of(self, process: int, registers: Registers) -> tuple[str, int | None] | None:
        """What a call is that begins, as (sort, file's number), or None."""
        if registers.orig_rax in (OPEN, OPENAT):
            name = text_at(process, registers.rdi if registers.orig_rax == OPEN else registers.rsi)
            return ('open', self.names.index(name)) if name in self.names else None
        if registers.orig_rax == READ and registers.rdi in self.files:
            return 'read', self.files[registers.rdi]
        if registers.orig_rax == WRITE and registers.rdi == 1:
            return 'write', None
        if registers.orig_rax in (CLONE, CLONE3):
            return 'thread', None
        return None


def with_calls_changed(program: str, words: list[str], names: Iterable[str], folder: str,
                       change: Change) -> tuple[int | str, bytes, list[Call]]:
    """A run in which `change(number, sort, file, length)` is asked at each call of the program's own, counted from 1.

    It answers None (let it be), an error's number (the call fails with it), or ('short', n), a read or write of n bytes
    at most. Gives the status, the text, and the list of the calls, each (sort, file, length).
    """
    with tempfile.TemporaryFile() as output, tempfile.TemporaryFile() as error:
        process = started(program, words, folder, output, error)
        calls = Calls(names)
        made: list[Call] = []
        inside: dict[int, bool] = {}
        answers: dict[int, int] = {}
        opened: dict[int, int | None] = {}

        def stopped(thread: int, at_call: bool) -> bool:
            if not at_call:
                return False
            registers = registers_of(thread)
            if not inside.get(thread):
                inside[thread] = True
                call = calls.of(process, registers)
                if call is None:
                    return True
                sort, file = call
                length = registers.rdx if sort in ('read', 'write') else 0
                made.append((sort, file, length))
                answer = change(len(made), sort, file, length)
                if sort == 'open':
                    opened[thread] = file
                if isinstance(answer, tuple):
                    registers.rdx = min(length, answer[1])
                    set_registers(thread, registers)
                elif answer:
                    answers[thread] = answer
                    registers.orig_rax = 0xffffffffffffffff
                    set_registers(thread, registers)
            else:
                inside[thread] = False
                if thread in answers:
                    registers.rax = (1 << 64) - answers.pop(thread)
                    opened.pop(thread, None)
                    set_registers(thread, registers)
                elif thread in opened:
                    file = opened.pop(thread)
                    if registers.rax < 1 << 31:
                        calls.files[registers.rax] = file
            return True

        return *answer_of(follow(process, SYSCALL, stopped), output, error), made


REFUSALS = {'open': [errno.EIO, errno.EACCES, errno.EMFILE], 'read': [errno.EIO, errno.EINTR],
            'write': [errno.EIO, errno.ENOSPC, errno.EFBIG, errno.EINTR], 'thread': [errno.EAGAIN]}
