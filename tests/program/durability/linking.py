"""Which calls of the C library a program can make, by the names that it is linked to: none may go past the library.

Which names these are is the toolchain's choice. A C library has several for one call (`write`, `__write`), and programs
start, allocate and find the processor's kind in many ways. So no list says which names a program may take. Those are
refused by which it could reach a file, a descriptor or another process where the library doesn't watch.
"""
import os
import re
import subprocess
from collections.abc import Iterable
from fnmatch import fnmatchcase

from program.durability.tally import Check, Tally, check_of, new_folder
from program.durability.watching import HERE, OTHER, build

# The calls by which a C program reaches files, descriptors and processes, by their plain names; `*` is any text. A name
# of such a call is refused unless the library watches it: so the watched calls stand here too.
WAYS = (
    # what the library watches, in the spellings that it knows
    "close fchmod fdatasync flock fsync ftruncate open pread pwrite read syscall write",
    # bytes and lengths of a descriptor
    "readv writev preadv* pwritev* send sendto sendmsg sendmmsg",
    "sendfile recv recvfrom recvmsg recvmmsg splice vmsplice tee copy_file_range process_vm_writev",
    "fallocate posix_fallocate truncate",
    # syncs, and files in memory
    "sync syncfs sync_file_range mmap mmap2 msync shm_open memfd_create",
    # names, modes and locks
    "creat openat openat2 open_by_handle_at rename renameat renameat2 link linkat symlink symlinkat unlink unlinkat",
    "remove mkdir mkdirat mknod mknodat xmknod xmknodat mkfifo mkfifoat rmdir mkstemp* mkostemp* tmpfile chmod lchmod",
    "fchmodat chown fchown lchown fchownat lockf mount umount umount2 chroot pivot_root",
    # descriptors
    "dup dup2 dup3 fcntl ioctl pipe pipe2 socket socketpair accept accept4 pidfd_getfd close_range closefrom",
    # calls that end later
    "aio_* lio_listio io_*",
    # streams
    "fopen fdopen freopen fmemopen fopencookie fclose fcloseall fread fwrite fflush setvbuf printf fprintf dprintf",
    "vprintf vfprintf vdprintf wprintf fwprintf vwprintf vfwprintf scanf fscanf vscanf vfscanf wscanf fwscanf vwscanf",
    "vfwscanf puts fputs putc putchar fputc putw fputws fputwc putwc putwchar gets fgets getc getchar fgetc getw",
    "fgetws fgetwc getwc getwchar ungetc getline getdelim fseek fseeko rewind fsetpos perror psignal overflow",
    "underflow uflow",
    # processes, and names that are found while the program runs
    "system popen pclose execl execle execlp execv execve execveat execvp execvpe fexecve posix_spawn*",
    "fork vfork clone clone2 clone3 ptrace dlopen dlmopen dlsym dlvsym",
)
PATTERNS = tuple(pattern for line in WAYS for pattern in line.split())
# What a C library puts before and behind a plain name.
BEFORE = re.compile(r"^_*((libc|GI|IO|isoc\d+)_)?_*")
BEHIND = re.compile(r"(_chk|_unlocked|_nocancel|_time|(?<=open)_2|(?<=openat)_2)+$")

# Names that are refused, and names that aren't: of starts, memory, threads, clocks and texts.
REFUSED = (
    "writev __writev pwritev64 pwritev64v2 preadv2 sendfile64 copy_file_range splice rename renameat2 __rename link"
    " unlink remove truncate64 fallocate64 posix_fallocate mmap __mmap64 msync sync syncfs sync_file_range io_submit"
    " io_uring_enter aio_write64 lio_listio64 fopen64 fdopen fwrite_unlocked fputs _IO_putc _IO_puts __overflow puts"
    " putchar_unlocked __printf_chk __vfprintf_chk dprintf __isoc99_fscanf fflush creat64 openat __openat64_2 dup3"
    " fcntl64 ioctl system popen execve posix_spawnp __libc_fork vfork __clone dlsym __libc_write __write_nocancel"
    " __pread_nocancel __fsync __open_nocancel"
)
TAKEN = (
    "__cxa_finalize __libc_start_main __gmon_start__ _IO_stdin_used stdout __errno_location"
    " __x86_get_cpuid_feature_leaf __stack_chk_fail calloc aligned_alloc memcpy __memcpy_chk strlen snprintf"
    " __vsnprintf_chk sscanf strtol64 getenv statx __fxstat64 fstat64 lseek64 pthread_join __pthread_key_create"
    " sched_yield nanosleep __nanosleep64 clock_gettime64 __sysv_signal sigaction exit _exit abort"
    " __executable_start"
)
# A program that writes where nothing watches.
WRITES_UNSEEN = """#include <sys/uio.h>
int main(void) {
    struct iovec piece = {"x", 1};
    return writev(1, &piece, 1) != 1;
}
"""
PROBE = os.path.join(HERE, "probe.c")
# How often the probe makes each call.
PROBED = {"open": 6, "close": 6, "read": 3, "pread": 5, "write": 2, "pwrite": 3, "ftruncate": 2}
PROBED |= {"flock": 1, "fchmod": 1, "fsync": 1, "fdatasync": 1, "syscall": 1}


def plain_name(name: str) -> str:
    """The plain name of a call that a C library names so: `pwrite` of `__pwrite64`."""
    return BEHIND.sub("", BEFORE.sub("", name).replace("64", ""))


def names_called(program: str) -> set[str]:
    """Returns the names that a program takes from the C library."""
    return names_of(program, "--undefined-only")


def names_watched(library: str) -> set[str]:
    """Returns the names that a library has for programs to take."""
    return names_of(library, "--defined-only")


def names_of(path: str, which: str) -> set[str]:
    found = subprocess.run(["nm", "-D", which, path], capture_output=True, text=True, check=True)
    return {re.sub(r"@.*", "", line.split()[-1]) for line in found.stdout.splitlines() if line.strip()}


def ways_around(called: Iterable[str], watched: Iterable[str]) -> list[str]:
    """Returns those of the names by which a program could reach a file unseen."""
    unseen = set(called) - set(watched)
    return sorted(name for name in unseen if any(fnmatchcase(plain_name(name), way) for way in PATTERNS))


def no_call_goes_past_the_library(tally: Tally) -> None:
    """The program takes no name from the C library by which it could reach a file where nothing watches."""
    watched = names_watched(tally.watch.library)
    called = names_called(tally.watch.program)
    for plain in ("open", "pwrite", "fsync", "write"):
        is_taken = any(plain_name(name) == plain for name in called & watched)
        tally.holds(is_taken, f"the program takes no {plain} from the C library, so nothing here watches it")
    tally.expect(ways_around(called, watched), [], "the calls of the program that nothing watches")
    tally.note(f"{len(called & watched)} names are watched")
    tally.note(f"{len(called - watched)} others reach no file")


def names_that_reach_files_are_refused(tally: Tally) -> None:
    """Names by which a program could reach a file are refused, whatever their spelling, and others aren't."""
    watched = names_watched(tally.watch.library)
    for name in REFUSED.split():
        tally.expect(ways_around([name], watched), [name], f"a program that takes {name}: what is refused")
    for name in (*TAKEN.split(), *watched):
        tally.expect(ways_around([name], watched), [], f"a program that takes {name}: what is refused")
    with new_folder() as folder:
        source = os.path.join(folder, "unseen.c")
        with open(source, "w", encoding="ascii") as text:
            text.write(WRITES_UNSEEN)
        program = build(os.path.join(folder, "unseen"), source)
        tally.expect(ways_around(names_called(program), watched), ["writev"], "a program that writes by writev")


def each_spelling_is_watched(tally: Tally) -> None:
    """A program that makes each watched call by each of its names has each of them in the log, by its plain name."""
    with new_folder() as folder:
        library = tally.watch.library
        probe = build(os.path.join(folder, "probe"), PROBE, library)
        taken = names_called(probe) & names_watched(library)
        left = [name for name in names_watched(library) - taken if plain_name(name) in PATTERNS]
        tally.expect(sorted(left), [], "the names of the library that the probe doesn't call")
        run = tally.watch.run(folder, (), program=probe)
        with open(os.path.join(folder, "journal"), "rb") as written:
            content = written.read()
    made = [call.name for call in run.calls]
    tally.expect((run.status, content), (0, b"ABCdef"), "the status and the file of the probe")
    tally.expect({name: made.count(name) for name in sorted(set(made))}, dict(sorted(PROBED.items())), "its calls")
    odd = [call for call in run.calls if call.file_class == OTHER and call.name != "syscall"]
    tally.expect(odd, [], "calls of the probe that aren't seen as those on a journal")


CHECKS: tuple[Check, ...] = tuple(
    map(check_of, (no_call_goes_past_the_library, names_that_reach_files_are_refused, each_spelling_is_watched))
)
