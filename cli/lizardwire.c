/* The command lizardwire: job lines in, one answer line a job out.
 *
 * Every answer comes from the proved stream of include/lizardwire.h. What is here is the way to it
 * and from it: files, terminals, signals, a status. It is tested (cli/test), not proved. It
 * allocates nothing: it holds one block of input and one of output, whatever it reads.
 */
#define _GNU_SOURCE

#include <errno.h>
#include <fcntl.h>
#include <limits.h>
#include <poll.h>
#include <signal.h>
#include <stdbool.h>
#include <stdio.h>
#include <stdlib.h>
#include <string.h>
#include <sys/stat.h>
#include <time.h>
#include <unistd.h>

#include "lizardwire.h"

#define VERSION "0.4.0"

static const char *const HELP =
    "usage: lizardwire [--words] [-o OUT] [FILE..]\n"
    "\n"
    "Answers job lines: one job a line, one answer a line, in order. Reads the files one\n"
    "after the other, or standard input where none is given or a FILE is -.\n"
    "\n"
    "  -o OUT     write the answers to OUT, which is changed once all of them are there:\n"
    "             after a failure it is what it was; OUT is never one of the files; a device,\n"
    "             a pipe and what is open (/dev/fd/3) are written as the answers come\n"
    "  --words    say each answer in words: '1: cage of 12 + 6 vertices'\n"
    "  --help     say this\n"
    "  --version  say the versions of the command and of its library\n"
    "\n"
    "Status: 0 every line is answered (that a job is refused is an answer, too); 1 something\n"
    "failed on the way, and a line on standard error says what; 2 nothing was begun.\n";

/* What the command ends with. */
enum Status { DONE = 0, FAILED = 1, NOT_BEGUN = 2 };

enum { BLOCK = 65536, WORDS = 256, LINKS = 40, TRIES = 100 };

/* ---- a line on standard error */

/* Does a line of progress stand on the terminal? */
static volatile sig_atomic_t shown = 0;

/* Takes it away. A signal's handler calls this, too. */
static void erase(void) {
    ssize_t ignored = shown ? write(STDERR_FILENO, "\r\033[K", 4) : 0;
    (void)ignored;
    shown = 0;
}

static void complain(const char *name, const char *words) {
    erase();
    fprintf(stderr, "lizardwire: %s: %s\n", name, words);
}

static void complain_errno(const char *name) { complain(name, strerror(errno)); }

/* ---- bytes out and in */

/* Waits until a descriptor that does not block can go on. */
static void wait_for(int fd, short events) {
    struct pollfd one = {fd, events, 0};
    (void)poll(&one, 1, -1);
}

static bool would_block(void) { return errno == EAGAIN || errno == EWOULDBLOCK; }

/* Writes all of it. */
static bool write_all(int fd, const void *bytes, size_t count) {
    const char *at = bytes;
    while (count > 0) {
        ssize_t wrote = write(fd, at, count);
        if (wrote > 0) {
            at += wrote;
            count -= (size_t)wrote;
        } else if (wrote < 0 && would_block()) {
            wait_for(fd, POLLOUT);
        } else if (wrote == 0 || errno != EINTR) {
            errno = wrote == 0 ? EIO : errno;
            return false;
        }
    }
    return true;
}

/* Reads what there is, once something is: 0 at the end, below 0 where it failed. */
static ssize_t read_some(int fd, void *bytes, size_t count) {
    for (;;) {
        ssize_t got = read(fd, bytes, count);
        if (got >= 0 || (errno != EINTR && !would_block())) {
            return got;
        }
        if (errno != EINTR) {
            wait_for(fd, POLLIN);
        }
    }
}

/* Opens a file that is there. */
static int open_file(const char *file, int how) {
    int fd;
    do {
        fd = open(file, how | O_NOCTTY | O_CLOEXEC);
    } while (fd < 0 && errno == EINTR);
    return fd;
}

/* After an interrupted close the descriptor is closed. */
static bool closed(int fd) { return close(fd) == 0 || errno == EINTR; }

/* ---- the command line */

typedef struct Options {
    const char *output;  /* NULL: standard output */
    bool words;
    char **files;
    int count;
    const char *misused, *why;  /* the first word that is not understood, and why; NULL where there is none */
} Options;

static bool is_standard(const char *file) { return strcmp(file, "-") == 0; }

static const char *told_as(const char *file) { return is_standard(file) ? "standard input" : file; }

/* Says a text on standard output, and ends. */
static int say_text(const char *text) {
    if (!write_all(STDOUT_FILENO, text, strlen(text)) || !closed(STDOUT_FILENO)) {
        complain_errno("standard output");
        return FAILED;
    }
    return DONE;
}

static int say_version(void) {
    char line[WORDS];
    snprintf(line, sizeof line, "lizardwire %s, library %zu\n", VERSION, lw_version());
    return say_text(line);
}

static void misuse(Options *options, const char *word, const char *why) {
    if (!options->misused) {
        options->misused = word;
        options->why = why;
    }
}

/* Reads the words; the files move to the front of them. Gives a status where that ends the command,
 * and -1 where it goes on. A word that is not understood is told later, once all files are known. */
static int read_words(int count, char **words, Options *options) {
    static char standard[] = "-";
    static char *only[] = {standard};
    bool all_files = false;
    options->files = words;
    for (int k = 1; k < count; k++) {
        char *word = words[k];
        if (all_files || word[0] != '-' || is_standard(word)) {
            words[options->count++] = word;
        } else if (strcmp(word, "--") == 0) {
            all_files = true;
        } else if (strcmp(word, "--help") == 0) {
            return say_text(HELP);
        } else if (strcmp(word, "--version") == 0) {
            return say_version();
        } else if (strcmp(word, "--words") == 0) {
            options->words = true;
        } else if (strcmp(word, "-o") != 0) {
            misuse(options, word, "there is no such option; lizardwire --help says what there is");
        } else if (options->output || k + 1 == count || words[k + 1][0] == '\0') {
            misuse(options, word, options->output ? "given twice" : "a file is to follow");
        } else {
            options->output = words[++k];
        }
    }
    if (options->count == 0) {
        options->files = only;
        options->count = 1;
    }
    if (options->output && is_standard(options->output)) {
        options->output = NULL;
    }
    return -1;
}

/* ---- what is read */

static int stat_input(const char *file, struct stat *found) {
    return is_standard(file) ? fstat(STDIN_FILENO, found) : stat(file, found);
}

static bool opened_for(int fd, int other) { return (fcntl(fd, F_GETFL) & O_ACCMODE) != other; }

/* Why a file cannot be read, or NULL. */
static const char *unreadable(const char *file) {
    struct stat found;
    if (stat_input(file, &found) != 0) {
        return strerror(errno);
    }
    if (S_ISDIR(found.st_mode)) {
        return strerror(EISDIR);
    }
    if (is_standard(file)) {
        return opened_for(STDIN_FILENO, O_WRONLY) ? NULL : "not open for reading";
    }
    return access(file, R_OK) == 0 ? NULL : strerror(errno);
}

/* Can all files be read? Each that cannot gets its line. */
static bool all_readable(const Options *options) {
    bool all = true;
    for (int k = 0; k < options->count; k++) {
        const char *why = unreadable(options->files[k]);
        if (why) {
            complain(told_as(options->files[k]), why);
            all = false;
        }
    }
    return all;
}

/* The bytes that are to be read, where all are in regular files; otherwise 0. */
static uint64_t bytes_of(const Options *options) {
    uint64_t bytes = 0;
    for (int k = 0; k < options->count; k++) {
        struct stat found;
        if (stat_input(options->files[k], &found) != 0 || !S_ISREG(found.st_mode)) {
            return 0;
        }
        off_t at = is_standard(options->files[k]) ? lseek(STDIN_FILENO, 0, SEEK_CUR) : 0;
        bytes += at < found.st_size ? (uint64_t)(found.st_size - at) : 0;
    }
    return bytes;
}

/* ---- what is written */

typedef struct Output {
    int fd;
    const char *name;
    bool there;             /* is something there already? */
    struct stat before;     /* what it is */
    char place[PATH_MAX];   /* where the new file goes at the end; empty where what is there is written itself */
} Output;

/* The new file until it is in its place, and whether it is there. */
static char unfinished[PATH_MAX + 64];
static volatile sig_atomic_t made = 0;

static bool one_file(const struct stat *a, const struct stat *b) { return a->st_dev == b->st_dev && a->st_ino == b->st_ino; }

/* Would writing the one change what is read from the other? A terminal is both with no harm, and so is a socket. */
static bool written_over(const struct stat *a, const struct stat *b) {
    if (S_ISBLK(a->st_mode) && S_ISBLK(b->st_mode)) {
        return a->st_rdev == b->st_rdev;
    }
    return one_file(a, b) && !S_ISCHR(a->st_mode) && !S_ISSOCK(a->st_mode);
}

/* How much of a path is its folder, with the last slash. */
static size_t folder_of(const char *path) {
    const char *last = strrchr(path, '/');
    return last ? (size_t)(last - path) + 1 : 0;
}

/* Puts a name after the first bytes of a path, if there is room. */
static bool join(char path[PATH_MAX], size_t used, const char *name) {
    size_t length = strlen(name);
    if (used + length >= PATH_MAX) {
        errno = ENAMETOOLONG;
        return false;
    }
    memcpy(path + used, name, length + 1);
    return true;
}

/* Is this a link that the system keeps to something open, as /dev/fd/3 is? Its text need not lead there. */
static bool is_system_link(const char *path) {
    struct stat found, system;
    return lstat(path, &found) == 0 && S_ISLNK(found.st_mode) && lstat("/proc/self", &system) == 0 && found.st_dev == system.st_dev;
}

/* Where a name leads: a path whose last part is no link, or one of the system's. What it leads to need not be there. */
static bool follow(const char *name, char place[PATH_MAX]) {
    char next[PATH_MAX];
    bool fits = join(place, 0, name);
    for (int k = 0; fits && k < LINKS; k++) {
        if (is_system_link(place)) {
            return true;
        }
        ssize_t got = readlink(place, next, sizeof next - 1);
        if (got < 0) {
            return errno == EINVAL || errno == ENOENT;
        }
        next[got] = '\0';
        fits = join(place, next[0] == '/' ? 0 : folder_of(place), next);
    }
    errno = fits ? ELOOP : errno;
    return false;
}

/* The descriptor of this command that a link of the system is named after: 3 of /dev/fd/3. -1 where it is none, or another file's. */
static int descriptor_of(const char *link, const struct stat *found) {
    struct stat opened;
    const char *name = link + folder_of(link);
    size_t digits = strspn(name, "0123456789");
    int fd = digits > 0 && digits < 10 && name[digits] == '\0' ? atoi(name) : -1;
    return fd >= 0 && fstat(fd, &opened) == 0 && one_file(&opened, found) ? fd : -1;
}

/* What is open already is written through its descriptor, where that stands: what is there stays. */
static const char *unwritable_open(Output *output) {
    output->fd = descriptor_of(output->place, &output->before);
    output->place[0] = '\0';
    return output->fd < 0 || opened_for(output->fd, O_RDONLY) ? NULL : "not open for writing";
}

/* Does the folder keep others from replacing this file, as /tmp does? */
static bool is_kept(const char *place, const struct stat *found) {
    char folder[PATH_MAX];
    struct stat around;
    uid_t user = geteuid();
    memcpy(folder, place, folder_of(place));
    folder[folder_of(place)] = '\0';
    bool sticky = stat(folder[0] ? folder : ".", &around) == 0 && (around.st_mode & S_ISVTX);
    return sticky && user != 0 && user != found->st_uid && user != around.st_uid;
}

/* Is it a mount of its own, as a container's file can be, or one that may only grow? */
static bool is_fixed(const char *place) {
    struct statx found;
    return statx(AT_FDCWD, place, 0, 0, &found) == 0 && (found.stx_attributes & (STATX_ATTR_MOUNT_ROOT | STATX_ATTR_APPEND));
}

/* Why a new file cannot take a file's place, or NULL. */
static const char *unreplaceable(const char *place, const struct stat *found) {
    if (is_kept(place, found)) {
        return "only its owner may replace it in this folder; standard output can be led there instead";
    }
    return is_fixed(place) ? "no new file can take its place; standard output can be led there instead" : NULL;
}

/* Finds out what the file is, and opens nothing. Gives the reason why it cannot be written, or NULL. */
static const char *unwritable_file(const char *file, Output *output) {
    output->name = file;
    output->there = stat(file, &output->before) == 0;
    if ((!output->there && errno != ENOENT) || !follow(file, output->place)) {
        return strerror(errno);
    }
    if (!output->there) {
        return NULL;
    }
    if (S_ISDIR(output->before.st_mode)) {
        return strerror(EISDIR);
    }
    if (is_system_link(output->place)) {
        return unwritable_open(output);
    }
    if (access(file, W_OK) != 0) {
        return strerror(errno);
    }
    if (S_ISREG(output->before.st_mode)) {
        return unreplaceable(output->place, &output->before);
    }
    output->place[0] = '\0';
    return NULL;
}

/* The same of standard output. */
static const char *unwritable_stdout(Output *output) {
    output->name = "standard output";
    output->fd = STDOUT_FILENO;
    output->there = fstat(STDOUT_FILENO, &output->before) == 0;
    return opened_for(STDOUT_FILENO, O_RDONLY) ? NULL : "not open for writing";
}

/* The file that is read and would be changed by writing this; NULL where there is none. */
static const char *changed_by(const struct stat *written, const Options *options) {
    for (int k = 0; k < options->count; k++) {
        struct stat found;
        if (stat_input(options->files[k], &found) == 0 && written_over(&found, written)) {
            return told_as(options->files[k]);
        }
    }
    return NULL;
}

/* Is the output none of the files that are read? */
static bool apart(const Options *options, const Output *output) {
    const char *name = output->there ? changed_by(&output->before, options) : NULL;
    if (name) {
        complain(name, "this is the output, too, and would be written over: nothing was done");
    }
    return !name;
}

/* Does a line on standard error change nothing that is read? */
static bool may_complain(const Options *options) {
    struct stat found;
    return !opened_for(STDERR_FILENO, O_RDONLY) || fstat(STDERR_FILENO, &found) != 0 || !changed_by(&found, options);
}

/* The signals that end a command from outside. */
static const int ENDING[] = {SIGHUP, SIGINT, SIGQUIT, SIGTERM, SIGALRM, SIGUSR1, SIGUSR2, SIGXCPU, SIGVTALRM, SIGPROF};
enum { ENDINGS = sizeof ENDING / sizeof ENDING[0] };

static void remove_unfinished(void) {
    if (made) {
        (void)unlink(unfinished);
        made = 0;
    }
}

/* Leaves nothing behind, and ends as the signal would have ended the command. */
static void on_ending(int number) {
    remove_unfinished();
    erase();
    (void)raise(number);
}

/* A reader that goes away and a file that may not grow are failed writes, and end nothing by themselves. */
static void set_signals(void) {
    struct sigaction old, ignore, end;
    memset(&ignore, 0, sizeof ignore);
    ignore.sa_handler = SIG_IGN;
    (void)sigaction(SIGPIPE, &ignore, NULL);
    (void)sigaction(SIGXFSZ, &ignore, NULL);
    memset(&end, 0, sizeof end);
    end.sa_handler = on_ending;
    end.sa_flags = (int)SA_RESETHAND;
    for (size_t k = 0; k < ENDINGS; k++) {
        if (sigaction(ENDING[k], NULL, &old) == 0 && old.sa_handler != SIG_IGN) {
            (void)sigaction(ENDING[k], &end, NULL);
        }
    }
}

/* Makes a file that was not there, in the folder of `place`, and notes its name before a signal can come. */
static int make_unfinished(const char *place, mode_t mode) {
    int folder = (int)folder_of(place), fd = -1;
    sigset_t ending, before;
    sigemptyset(&ending);
    for (size_t k = 0; k < ENDINGS; k++) {
        sigaddset(&ending, ENDING[k]);
    }
    sigprocmask(SIG_BLOCK, &ending, &before);
    for (int k = 0; fd < 0 && k < TRIES; k++) {
        snprintf(unfinished, sizeof unfinished, "%.*s.lizardwire-%ld-%d", folder, place, (long)getpid(), k);
        fd = open(unfinished, O_WRONLY | O_CREAT | O_EXCL | O_CLOEXEC, mode);
        if (fd < 0 && errno != EEXIST) {
            break;
        }
    }
    made = fd >= 0;
    int kept = errno;
    sigprocmask(SIG_SETMASK, &before, NULL);
    errno = kept;
    return fd;
}

/* The new file gets the mode of the one that it replaces, and its owner as far as this user may give files away. */
static bool take_after(int fd, const struct stat *before) {
    bool given = fchown(fd, before->st_uid, before->st_gid) == 0 || fchown(fd, (uid_t)-1, before->st_gid) == 0;
    return fchmod(fd, before->st_mode & 0777) == 0 && given;
}

/* Opens the output: a new file for a regular one or none, anything else as it is; another command's open file at its end. */
static bool open_output(Output *output) {
    if (output->fd < 0 && output->place[0] == '\0') {
        output->fd = open_file(output->name, O_WRONLY | (S_ISREG(output->before.st_mode) ? O_APPEND : 0));
    } else if (output->fd < 0) {
        output->fd = make_unfinished(output->place, output->there ? 0600 : 0666);
        if (output->fd >= 0 && output->there) {
            (void)take_after(output->fd, &output->before);
        }
    }
    return output->fd >= 0;
}

/* Why it could not be opened. */
static void complain_unopened(const Output *output) {
    char words[WORDS];
    snprintf(words, sizeof words, "%s%s", output->place[0] ? "no file can be made in its folder: " : "", strerror(errno));
    complain(output->name, words);
}

/* Is it on the disk? Not every file can say. */
static bool synced(int fd) { return fsync(fd) == 0 || errno == EINVAL || errno == ENOTSUP; }

/* Everything is written: the new file takes its place. */
static bool put_in_place(const Output *output) {
    if (output->place[0] == '\0') {
        return closed(output->fd);
    }
    if (!synced(output->fd) || !closed(output->fd) || rename(unfinished, output->place) != 0) {
        return false;
    }
    made = 0;
    return true;
}

/* ---- progress */

typedef struct Progress {
    bool on;
    uint64_t whole, bytes, jobs;  /* bytes to read (0: nobody knows), bytes read, jobs answered */
    double begun, next;           /* seconds */
} Progress;

static double seconds(void) {
    struct timespec now;
    (void)clock_gettime(CLOCK_MONOTONIC, &now);
    return (double)now.tv_sec + (double)now.tv_nsec * 1e-9;
}

/* Has another group of processes the terminal, so that a line would stand among theirs? Of a terminal that is not this command's own
 * nobody knows. */
static bool in_background(void) {
    pid_t front = tcgetpgrp(STDERR_FILENO);
    return front >= 0 && front != getpgrp();
}

/* On a terminal, and not on one that gets the answers. */
static void begin_progress(Progress *progress, int output, uint64_t whole) {
    progress->on = isatty(STDERR_FILENO) && !isatty(output);
    progress->whole = whole;
    progress->begun = seconds();
    progress->next = progress->begun + 0.5;
}

static void show_progress(Progress *progress) {
    char line[WORDS];
    double now = progress->on ? seconds() : 0;
    if (!progress->on || now < progress->next || in_background()) {
        return;
    }
    progress->next = now + 0.1;
    int width = snprintf(line, sizeof line, "\r\033[K%llu jobs, %.0f a second, %.1f MB", (unsigned long long)progress->jobs,
                         (double)progress->jobs / (now - progress->begun), (double)progress->bytes / 1e6);
    if (progress->whole > 0 && progress->bytes <= progress->whole) {
        width += snprintf(line + width, sizeof line - (size_t)width, " of %.1f, %.0f %%", (double)progress->whole / 1e6,
                          100.0 * (double)progress->bytes / (double)progress->whole);
    }
    progress->on = write_all(STDERR_FILENO, line, (size_t)width);
    shown = 1;
}

/* ---- answers */

typedef struct Run {
    Options options;
    Output output;
    Progress progress;
    const char *name;            /* the file that is read */
    unsigned long long line;     /* lines of it that are answered */
    int marks;                   /* bytes of a byte-order mark that were met; below 0: there is none to come */
    bool after_cr, cr_told;      /* was the last byte a CR? were lines with CR LF told? */
} Run;

static uint8_t block[BLOCK], answers[BLOCK], state[LW_STREAM_BYTES];
static char said[BLOCK + PATH_MAX + 2 * WORDS];

static bool failed_input(const Run *run) {
    complain_errno(run->name);
    return false;
}

static bool put(const Run *run, const void *bytes, size_t count) {
    bool put_out = write_all(run->output.fd, bytes, count);
    if (!put_out) {
        complain_errno(run->output.name);
    }
    return put_out;
}

/* An answer that ends in LF, in words, which are fewer than WORDS. */
static size_t in_words(const char *answer, char words[WORDS]) {
    char *at;
    unsigned long first = strtoul(answer + 3, &at, 10);
    if (answer[0] == 'n') {
        return (size_t)snprintf(words, WORDS, "no, %lu: %s\n", first, lw_words(first));
    }
    size_t used = (size_t)snprintf(words, WORDS, "cage of ");
    for (unsigned long k = 0; k < first && k <= LW_HOLES; k++) {
        unsigned long vertices = strtoul(at + 1, &at, 10);
        used += (size_t)snprintf(words + used, WORDS - used, k ? " + %lu" : "%lu", vertices);
    }
    return used + (size_t)snprintf(words + used, WORDS - used, " vertices\n");
}

/* Answers in words, numbered, the file's name before them where there are several. */
static bool put_words(Run *run, const char *answer, size_t count) {
    const char *end = answer + count;
    size_t used = 0;
    bool all_put = true;
    while (all_put && answer < end) {
        if (run->options.count > 1) {
            used += (size_t)snprintf(said + used, sizeof said - used, "%s:", run->name);
        }
        used += (size_t)snprintf(said + used, sizeof said - used, "%llu: ", ++run->line);
        used += in_words(answer, said + used);
        answer = (const char *)memchr(answer, '\n', (size_t)(end - answer)) + 1;
        if (used > BLOCK || answer == end) {
            all_put = put(run, said, used);
            used = 0;
        }
    }
    return all_put;
}

static uint64_t lines_in(const uint8_t *bytes, size_t count) {
    uint64_t lines = 0;
    for (size_t k = 0; k < count; k++) {
        lines += bytes[k] == '\n';
    }
    return lines;
}

/* What the stream has done: its answers go out. */
static bool take(Run *run, LwFed fed) {
    if (fed.refusal) {
        complain(run->name, lw_words(fed.refusal));
        return false;
    }
    run->progress.jobs += lines_in(answers, fed.written);
    bool all_put = run->options.words ? put_words(run, (const char *)answers, fed.written) : put(run, answers, fed.written);
    show_progress(&run->progress);
    return all_put;
}

/* Answers the lines that end in the block. */
static bool feed(Run *run, size_t count) {
    bool fed_all = true;
    for (size_t at = 0; fed_all && at < count;) {
        LwFed fed = lw_feed(block + at, count - at, state, sizeof state, answers, sizeof answers);
        fed_all = take(run, fed);
        at += fed.taken;
    }
    return fed_all;
}

/* Does a line end in CR LF here? */
static bool has_cr_lf(bool after_cr, const uint8_t *bytes, size_t count) {
    const uint8_t *at = bytes, *end = bytes + count;
    bool found = after_cr && *at == '\n';
    while (!found && at < end && (at = memchr(at, '\r', (size_t)(end - at))) != NULL) {
        at++;
        found = at < end && *at == '\n';
    }
    return found;
}

/* A hint, once a file, where lines end in CR LF: their answers are 22, which does not say why. */
static void look_for_cr(Run *run, size_t count) {
    if (!run->cr_told && has_cr_lf(run->after_cr, block, count)) {
        run->cr_told = true;
        complain(run->name, "lines end in CR LF, and a job line ends in LF alone: take the CRs away with  tr -d '\\r'");
    }
    run->after_cr = block[count - 1] == '\r';
}

/* The same for a byte-order mark, which some editors put before a text. */
static void look_for_mark(Run *run, size_t count) {
    static const uint8_t mark[] = {0xef, 0xbb, 0xbf};
    for (size_t k = 0; run->marks >= 0 && k < count; k++) {
        run->marks = block[k] == mark[run->marks] ? run->marks + 1 : -1;
        if (run->marks == (int)sizeof mark) {
            run->marks = -1;
            complain(run->name, "a byte-order mark stands before the first line: take it away with  tail -c +4");
        }
    }
}

/* Reads a file to its end and answers its lines, the last one with or without LF. */
static bool answer_open(Run *run, int fd) {
    (void)lw_stream(state, sizeof state);
    for (;;) {
        ssize_t got = read_some(fd, block, sizeof block);
        if (got < 0) {
            return failed_input(run);
        }
        if (got == 0) {
            return take(run, lw_finish(state, sizeof state, answers, sizeof answers));
        }
        look_for_mark(run, (size_t)got);
        look_for_cr(run, (size_t)got);
        run->progress.bytes += (uint64_t)got;
        if (!feed(run, (size_t)got)) {
            return false;
        }
    }
}

static bool answer_file(Run *run, const char *file) {
    int fd = is_standard(file) ? STDIN_FILENO : open_file(file, O_RDONLY);
    run->name = told_as(file);
    run->line = 0;
    run->marks = 0;
    run->after_cr = run->cr_told = false;
    if (fd < 0) {
        return failed_input(run);
    }
    bool answered = answer_open(run, fd);
    if (fd != STDIN_FILENO && !closed(fd) && answered) {
        return failed_input(run);
    }
    return answered;
}

static bool answer_all(Run *run) {
    bool answered = true;
    for (int k = 0; answered && k < run->options.count; k++) {
        answered = answer_file(run, run->options.files[k]);
    }
    erase();
    if (answered && !put_in_place(&run->output)) {
        complain_errno(run->output.name);
        answered = false;
    }
    remove_unfinished();
    return answered;
}

/* A standard descriptor that is closed would become the first file that is opened. So it is opened the wrong way round:
 * reading or writing it fails, as it should. */
static bool fill_standard(void) {
    for (int fd = STDIN_FILENO; fd <= STDERR_FILENO; fd++) {
        if (fcntl(fd, F_GETFD) < 0 && open("/dev/null", fd == STDIN_FILENO ? O_WRONLY : O_RDONLY) != fd) {
            return false;
        }
    }
    return true;
}

/* Are all words understood? The first that is not gets its line. */
static bool understood(const Options *options) {
    if (options->misused) {
        complain(options->misused, options->why);
    }
    return !options->misused;
}

/* All that can be told before anything is opened for writing. Standard error that is read is not told: the line would go into it. */
static bool may_begin(const Options *options, Output *output) {
    if (!may_complain(options) || !understood(options) || !all_readable(options)) {
        return false;
    }
    const char *why = options->output ? unwritable_file(options->output, output) : unwritable_stdout(output);
    if (why) {
        complain(output->name, why);
    }
    return !why && apart(options, output);
}

int main(int count, char **words) {
    static Run run = {.output = {.fd = -1}};
    if (!fill_standard()) {
        return NOT_BEGUN;
    }
    set_signals();
    int status = read_words(count, words, &run.options);
    if (status >= 0) {
        return status;
    }
    if (!may_begin(&run.options, &run.output)) {
        return NOT_BEGUN;
    }
    if (!open_output(&run.output)) {
        complain_unopened(&run.output);
        return NOT_BEGUN;
    }
    begin_progress(&run.progress, run.output.fd, bytes_of(&run.options));
    return answer_all(&run) ? DONE : FAILED;
}
