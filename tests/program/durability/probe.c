/* Writes and reads a journal by each name that the library has for a watched call. It is linked to the library itself,
 * since no C library has all of these names. Each call stands once, so that the log has each once too. */
#define _GNU_SOURCE
#include <fcntl.h>
#include <stddef.h>
#include <sys/file.h>
#include <sys/stat.h>
#include <unistd.h>

#undef open64
#undef pread64
#undef pwrite64
#undef ftruncate64

int __open(const char *, int, ...);
int __open64(const char *, int, ...);
int __open_2(const char *, int);
int __open64_2(const char *, int);
int __close(int);
ssize_t __read(int, void *, size_t);
ssize_t __read_chk(int, void *, size_t, size_t);
ssize_t __pread64(int, void *, size_t, off_t);
ssize_t __pread_chk(int, void *, size_t, off_t, size_t);
ssize_t __pread64_chk(int, void *, size_t, off_t, size_t);
ssize_t __write(int, const void *, size_t);
ssize_t __pwrite64(int, const void *, size_t, off_t);

static const char path[] = "journal";

int main(void) {
    char into[4];
    int file = open(path, O_RDWR | O_CREAT, 0600);
    write(file, "abcd", 4);
    __write(file, "efgh", 4);
    pwrite(file, "A", 1, 0);
    pwrite64(file, "B", 1, 1);
    __pwrite64(file, "C", 1, 2);
    pread(file, into, 4, 0);
    pread64(file, into, 4, 0);
    __pread64(file, into, 4, 0);
    __pread_chk(file, into, 4, 0, 4);
    __pread64_chk(file, into, 4, 0, 4);
    read(file, into, 4);
    __read(file, into, 4);
    __read_chk(file, into, 4, 4);
    flock(file, LOCK_EX);
    fchmod(file, 0600);
    ftruncate(file, 7);
    ftruncate64(file, 6);
    fsync(file);
    fdatasync(file);
    close(file);
    __close(open64(path, O_RDWR));
    __close(__open(path, O_RDWR));
    __close(__open64(path, O_RDWR));
    __close(__open_2(path, O_RDWR));
    __close(__open64_2(path, O_RDWR));
    syscall(-1L);
    return 0;
}
