/* Runs the program over one input, as its files, and aborts where an answer, a status or a journal isn't as it has to be.

   usage: harness TARGET FILE     (in the environment: FUZZ_CONFIG, FUZZ_ROOM, FUZZ_REQUESTS, FUZZ_HELD)

   TARGET says what the input is: lines, configuration, journal, old_journal, feed, clearing or dol. The runs of the
   program are calls in this process, one input after another: a process for each run costs many times what the run does.
   So what a run allocates and opens is given back here, and the end of its process is the end of the call. FUZZ_ROOM is
   a folder in memory, and is emptied before each input. FUZZ_REQUESTS is served by each valid configuration, and
   FUZZ_HELD is the journal that a clearing file is held against. tests/fuzz/search builds this and starts it. */
#define _GNU_SOURCE
#include <dirent.h>
#include <fcntl.h>
#include <setjmp.h>
#include <signal.h>
#include <stdint.h>
#include <stdio.h>
#include <stdlib.h>
#include <string.h>
#include <sys/mman.h>
#include <unistd.h>

/* Of so many inputs one is tried further: what the program left loads, is exported and fed to a standby. With
   FUZZ_FURTHER in the environment each input is. */
enum { FURTHER_OF = 8 };

/* So many inputs go to one process. The fuzzer finds the text in the program, and then starts it by the call below. */
enum { INPUTS = 1000 };
const char *const how_it_is_fuzzed = "##SIG_AFL_PERSISTENT##";
extern int __afl_persistent_loop(unsigned most);

/* The program's own start, renamed. It asks for its words by the two calls below, which stand for the toolchain's. */
extern int issuer_main(int count, char **words);

enum { MOST_WORDS = 12, MOST_BYTES = 1 << 20, PATH = 512 };
/* The statuses that a run may have. */
enum { OK = 0, WORDS = 1, CONFIGURATION = 2, JOURNAL_WRONG = 6, TOO_LONG = 8, BAD_DOL = 9, BAD_DATA = 10, BAD_FEED = 11 };

struct text {
    char *bytes;
    size_t length;
};

static const char *config, *room, *input;
static char journal[PATH], shard[PATH], old_shard[PATH];

static const char **words_of_run;
static int count_of_run;

/* Whether the program runs, where its end goes to, and its status. */
static int is_running, status_of_run;
static jmp_buf end_of_run;

/* Memory of an input, which the next one uses again: a block is its length, and its bytes. */
enum { ALIGNED = 16, MOST_MEMORY = 1 << 28 };
static char *memory, *free_at;

/* Where messages go: the error output of the program leads nowhere. */
static int messages = 2;

static void *allocate(size_t length)
{
    size_t room = (length + ALIGNED - 1) / ALIGNED * ALIGNED + ALIGNED;
    char *block = free_at;
    if (length > MOST_MEMORY || room > (size_t)(memory + MOST_MEMORY - block))
        return NULL;
    free_at = block + room;
    memcpy(block, &length, sizeof length);
    return block + ALIGNED;
}

static int is_of_input(const void *block)
{
    return (const char *)block >= memory && (const char *)block < memory + MOST_MEMORY;
}

/* What the program calls in place of the C library's. */
extern void *__real_malloc(size_t length);
extern void *__real_realloc(void *block, size_t length);
extern void __real_free(void *block);
extern void __real__exit(int status) __attribute__((noreturn));

void *__wrap_malloc(size_t length)
{
    return is_running ? allocate(length) : __real_malloc(length);
}

void __wrap_free(void *block)
{
    if (!is_of_input(block))
        __real_free(block);
}

void *__wrap_realloc(void *block, size_t length)
{
    size_t before;
    void *found;
    if (!is_running)
        return __real_realloc(block, length);
    found = allocate(length);
    if (block && found) {
        memcpy(&before, (char *)block - ALIGNED, sizeof before);
        memcpy(found, block, before < length ? before : length);
    }
    return found;
}

void __wrap__exit(int status)
{
    if (!is_running)
        __real__exit(status);
    status_of_run = status;
    longjmp(end_of_run, 1);
}

long rattle_arg_count(void)
{
    return count_of_run;
}

/* Copies a word. Returns its length, -1 if there is none, and -2 if it doesn't fit. */
long rattle_arg(size_t index, char *to, size_t most)
{
    size_t length;
    if (index >= (size_t)count_of_run)
        return -1;
    length = strlen(words_of_run[index]);
    if (length > most)
        return -2;
    memcpy(to, words_of_run[index], length);
    return (long)length;
}

static void fail(const char *what)
{
    dprintf(messages, "harness: %s\n", what);
    abort();
}

static void hold(int fact, const char *what)
{
    if (!fact)
        fail(what);
}

static struct text read_all(int from)
{
    struct text found = {allocate(MOST_BYTES), 0};
    ssize_t got;
    hold(found.bytes != NULL, "there is no memory");
    while ((got = pread(from, found.bytes + found.length, MOST_BYTES - found.length, found.length)) > 0)
        found.length += got;
    close(from);
    free_at = found.bytes + (found.length + 1 + ALIGNED - 1) / ALIGNED * ALIGNED;
    return found;
}

/* The bytes of a file; none if it doesn't exist. */
static struct text bytes_of(const char *path)
{
    int from = open(path, O_RDONLY);
    struct text none = {NULL, 0};
    return from < 0 ? none : read_all(from);
}

static int are_equal(struct text one, struct text other)
{
    return one.length == other.length && memcmp(one.bytes, other.bytes, one.length) == 0;
}

static void write_file(const char *path, struct text text)
{
    int to = open(path, O_WRONLY | O_CREAT | O_TRUNC, 0600);
    hold(to >= 0 && write(to, text.bytes, text.length) == (ssize_t)text.length, "a file can't be written");
    close(to);
}

static void begin_anew(void)
{
    DIR *folder = opendir(room);
    struct dirent *found;
    hold(folder != NULL, "FUZZ_ROOM is no folder");
    while ((found = readdir(folder)) != NULL)
        unlinkat(dirfd(folder), found->d_name, 0);
    closedir(folder);
}

/* Runs the program with these words up to NULL. Returns its status, and its output where that is asked for. */
static int run(struct text *output, const char *first, ...)
{
    const char *words[MOST_WORDS] = {"issuer", first};
    char *begin = free_at;
    int count = 2;
    __builtin_va_list more;
    __builtin_va_start(more, first);
    while ((words[count] = __builtin_va_arg(more, const char *)) != NULL)
        count++;
    __builtin_va_end(more);
    hold(ftruncate(1, 0) == 0 && lseek(1, 0, SEEK_SET) == 0, "the output can't be emptied");
    words_of_run = words;
    count_of_run = count;
    is_running = 1;
    if (setjmp(end_of_run) == 0)
        status_of_run = issuer_main(count, (char **)words);
    is_running = 0;
    free_at = begin;
    /* (what it left open, with its locks; the fuzzer's own descriptors are higher) */
    close_range(3, 190, 0);
    if (output)
        *output = read_all(dup(1));
    return status_of_run;
}

static int serve(struct text *output, const char *requests)
{
    return run(output, "serve", "--config", config, "--requests", requests, "--journal", journal, NULL);
}

static int show(struct text *output, const char *by)
{
    return run(output, "show", "--config", by, "--journal", journal, NULL);
}

static int standby(struct text *output, const char *feed)
{
    return run(output, "standby", "--config", config, "--feed", feed, "--journal", journal, NULL);
}

static int export(struct text *output)
{
    return run(output, "export", "--config", config, "--journal", journal, NULL);
}

/* Whether an input is tried further: by its bytes, so that it is the same each time. */
static int goes_further(struct text text)
{
    unsigned sum = 2166136261u;
    for (size_t at = 0; at < text.length; at++)
        sum = (sum ^ (unsigned char)text.bytes[at]) * 16777619u;
    return getenv("FUZZ_FURTHER") != NULL || sum % FURTHER_OF == 0;
}

static size_t lines_in(struct text text)
{
    size_t count = 0;
    for (size_t at = 0; at < text.length; at++)
        count += text.bytes[at] == '\n';
    return count;
}

/* The length of a line without its newline. */
static size_t length_of(const char *line, const char *end)
{
    const char *newline = memchr(line, '\n', end - line);
    return (newline ? newline : end) - line;
}

static int begins(const char *line, size_t length, const char *word)
{
    return length >= strlen(word) && memcmp(line, word, strlen(word)) == 0;
}

/* What was `fresh` or `kept` is `kept` with the same reply, or too old. */
static void compare_answers(struct text first, struct text again)
{
    const char *one = first.bytes, *end = one + first.length, *other = again.bytes, *other_end = other + again.length;
    while (one < end && other < other_end) {
        size_t length = length_of(one, end), other_length = length_of(other, other_end);
        int is_fresh = begins(one, length, "fresh ");
        if (is_fresh || begins(one, length, "kept ")) {
            size_t from = is_fresh ? 6 : 5;
            int is_kept = begins(other, other_length, "kept ") && other_length - 5 == length - from
                && memcmp(other + 5, one + from, length - from) == 0;
            hold(is_kept || begins(other, other_length, "refused 10"), "a repeat isn't answered as before");
        }
        one += length + 1;
        other += other_length + 1;
    }
}

/* What a run left loads, by itself and as a feed, and a load changes nothing. */
static void check_loads(void)
{
    struct text before = bytes_of(shard), feed, again;
    char path[PATH];
    hold(show(NULL, config) == OK, "a journal that the program left doesn't load");
    hold(are_equal(before, bytes_of(shard)), "a load changed a whole journal");
    hold(export(&feed) == OK, "a journal that loads can't be exported");
    begin_anew();
    snprintf(path, PATH, "%s/feed", room);
    write_file(path, feed);
    hold(standby(NULL, path) == OK, "a standby refuses what was exported");
    hold(are_equal(before, bytes_of(shard)), "a standby's journal is another one");
    hold(export(&again) == OK && are_equal(feed, again), "a standby exports another feed");
}

static void try_lines(void)
{
    struct text lines = bytes_of(input), first, again;
    size_t count = lines_in(lines) + (lines.length > 0 && lines.bytes[lines.length - 1] != '\n');
    hold(serve(&first, input) == OK, "lines ended a run");
    hold(lines_in(first) == count, "there isn't an answer for each line");
    if (!goes_further(lines))
        return;
    hold(serve(&again, input) == OK && lines_in(again) == count, "the same lines ended a second run");
    compare_answers(first, again);
    check_loads();
}

static void try_configuration(void)
{
    struct text first, again;
    int status = show(&first, input);
    hold(status == OK || status == CONFIGURATION, "a configuration has another status");
    hold(status == OK || access(shard, F_OK) != 0, "a journal was made for a wrong configuration");
    if (status != OK || !goes_further(bytes_of(input)))
        return;
    hold(show(&again, input) == OK && are_equal(first, again), "a second look differs");
    config = input;
    hold(serve(NULL, getenv("FUZZ_REQUESTS")) == OK, "a configuration that loads doesn't serve");
}

static void try_journal(const char *path)
{
    struct text before = bytes_of(input), first, again;
    int status;
    write_file(path, before);
    status = show(&first, config);
    hold(status == OK || status == JOURNAL_WRONG, "a journal has another status");
    if (status == JOURNAL_WRONG || path == old_shard)
        hold(are_equal(before, bytes_of(path)), "a journal was changed that may not be");
    if (status != OK || !goes_further(before))
        return;
    hold(show(&again, config) == OK && are_equal(first, again), "a second look differs");
    if (path == shard)
        check_loads();
}

static void try_feed(void)
{
    int status = standby(NULL, input);
    hold(status == OK || status == BAD_FEED, "a feed has another status");
    if (!goes_further(bytes_of(input)))
        return;
    check_loads();
    begin_anew();
    hold(standby(NULL, input) == status, "the same feed ends in another way");
}

static void try_clearing(void)
{
    struct text held = bytes_of(getenv("FUZZ_HELD")), lines = bytes_of(input), verdicts;
    size_t count = lines_in(lines) + (lines.length > 0 && lines.bytes[lines.length - 1] != '\n');
    write_file(shard, held);
    hold(run(&verdicts, "clear", "--config", config, "--clearing", input, "--journal", journal, NULL) == OK,
         "a clearing file ended a run");
    hold(lines_in(verdicts) > count, "there isn't a verdict for each line and a total");
    hold(are_equal(held, bytes_of(shard)), "clearing changed a journal");
}

/* The first line is the list, all else the data. */
static void try_dol(void)
{
    struct text words = bytes_of(input);
    char *newline;
    int status;
    words.bytes = words.bytes ? words.bytes : allocate(1);
    words.bytes[words.length < MOST_BYTES ? words.length : MOST_BYTES - 1] = 0;
    newline = strchr(words.bytes, '\n');
    if (newline)
        *newline++ = 0;
    status = run(NULL, "fill", "--dol", words.bytes, "--data", newline ? newline : "", NULL);
    hold(status == OK || status == WORDS || status == BAD_DOL || status == BAD_DATA, "a list has another status");
}

static void try_input(const char *target)
{
    config = getenv("FUZZ_CONFIG");
    free_at = memory;
    begin_anew();
    if (strcmp(target, "lines") == 0)
        try_lines();
    else if (strcmp(target, "configuration") == 0)
        try_configuration();
    else if (strcmp(target, "journal") == 0)
        try_journal(shard);
    else if (strcmp(target, "old_journal") == 0)
        try_journal(old_shard);
    else if (strcmp(target, "feed") == 0)
        try_feed();
    else if (strcmp(target, "clearing") == 0)
        try_clearing();
    else if (strcmp(target, "dol") == 0)
        try_dol();
    else
        fail("no target has this name");
}

/* Gives the program its descriptors: an input and an error output that lead nowhere, and an output in memory. */
static void open_descriptors(void)
{
    int none = open("/dev/null", O_RDWR), to = memfd_create("output", 0);
    messages = fcntl(2, F_DUPFD_CLOEXEC, 200);
    hold(messages >= 0 && none >= 0 && to >= 0, "there is no descriptor");
    hold(dup2(none, 0) == 0 && dup2(to, 1) == 1 && dup2(none, 2) == 2, "a descriptor can't be copied");
    close_range(3, 190, 0);
}

int main(int count, char **words)
{
    hold(count == 3 && getenv("FUZZ_CONFIG") && getenv("FUZZ_ROOM"), "start it by tests/fuzz/search");
    room = getenv("FUZZ_ROOM");
    input = words[2];
    snprintf(journal, PATH, "%s/journal", room);
    snprintf(shard, PATH, "%s/journal.00.v2", room);
    snprintf(old_shard, PATH, "%s/journal.00", room);
    memory = mmap(NULL, MOST_MEMORY, PROT_READ | PROT_WRITE, MAP_PRIVATE | MAP_ANONYMOUS | MAP_NORESERVE, -1, 0);
    hold(memory != MAP_FAILED, "there is no memory");
    open_descriptors();
    while (__afl_persistent_loop(INPUTS))
        try_input(words[1]);
    return 0;
}
