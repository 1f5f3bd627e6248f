/* Refuses what a program asks of the system, and counts what memory it asks for. It is loaded before the program (LD_PRELOAD), and asks
   for no header, so that the kit's own clang compiles it.

   REFUSE_GROWTH=N   the N-th block that is asked for or grown, from 1 on, is refused
   REFUSE_EACH=N     each of the first N of these is refused to a copy of the process (fork), which goes on from there to its end alone.
                     Then the process goes on with that growth met. Once it has begun a thread no copy is made. REFUSE_LOG gets a line for each
                     copy: which growth it was refused, and its status, or 128 more than the signal that ended it
   REFUSE_FOLDER=D   a copy works in the new folder D/N, which has the file `f` if the process has it, and writes to D/N/out and D/N/err,
                     which begin with what the process has written
   REFUSE_WRITE=N    the N-th write fails, as on a full disk
   REFUSE_THREADS=1  no thread is started
   REFUSE_SHORT=1    each write takes one byte, and each read gives one
   REFUSE_EINTR=1    each read and each write is interrupted before the time that it is not
   REFUSE_LOG=FILE   when the process ends, two lines are added there: how many growths were asked for, and how many were refused; and how
                     many kilobytes the process had resident at most

   A test refuses by itself, by what no memory can meet: a request of 2^62 + N bytes, N not 0, is refused, and so is the N-th growth
   from then on; a request of 2^62 bytes ends that, and is met exactly where a growth was refused meanwhile.
   It asks how much memory stands by a request of 2^62 + 2^61 + N bytes, which is met exactly if all
   blocks together have N bytes at most, as the allocator has cut them. Where this library isn't
   loaded each of these requests is refused, and nothing else is. */

typedef unsigned long size;

void *__libc_malloc(size);
void *__libc_calloc(size, size);
void *__libc_realloc(void *, size);
void __libc_free(void *);
size malloc_usable_size(void *);
int *__errno_location(void);
char *getenv(const char *);
long syscall(long, ...);
int open(const char *, int, ...);
int close(int);
int dup2(int, int);
int dprintf(int, const char *, ...);
int snprintf(char *, size, const char *, ...);
int getrusage(int, long *);
void *dlsym(void *, const char *);
int fork(void);
int waitpid(int, int *, int);
unsigned alarm(unsigned);
int mkdir(const char *, unsigned);
int chdir(const char *);

enum { OF_EINTR = 4, OF_EAGAIN = 11, OF_ENOMEM = 12, OF_ENOSPC = 28 };
enum { OF_READ = 0, OF_WRITE = 1, OF_EXIT_GROUP = 231 };
enum { APPENDED = 02001 | 0100, ANEW = 01 | 0100 | 01000 };
/* The longest that a copy may run, and the status of one that has no folder. */
enum { MOST_SECONDS = 300, UNABLE = 70 };

static const size COMMAND = (size)1 << 62, MEASURE = (size)1 << 61;

/* How many growths there were, which of them a test has refused, and whether it was. */
static unsigned long growths, refused, armed_at;
static int was_refused;

/* How many bytes the blocks have that stand. */
static size standing;

/* What the environment asks for. */
static unsigned long growth_at, each_to, write_at, writes;
static int is_short, is_interrupted, has_no_threads, has_threads, is_apart;
static const char *log_name, *folder;

static unsigned long number(const char *name) {
    const char *at = getenv(name);
    unsigned long n = 0;
    while (at && *at >= '0' && *at <= '9') n = 10 * n + (unsigned long)(*at++ - '0');
    return n;
}

__attribute__((constructor)) static void begin(void) {
    growth_at = number("REFUSE_GROWTH");
    each_to = number("REFUSE_EACH");
    folder = getenv("REFUSE_FOLDER");
    write_at = number("REFUSE_WRITE");
    is_short = number("REFUSE_SHORT") != 0;
    is_interrupted = number("REFUSE_EINTR") != 0;
    has_no_threads = number("REFUSE_THREADS") != 0;
    log_name = getenv("REFUSE_LOG");
    growths = refused = 0;
}

__attribute__((destructor)) static void end(void) {
    int file = log_name ? open(log_name, APPENDED, 0644) : -1;
    log_name = 0;
    is_apart = 1;
    if (file < 0) return;
    /* The system's record: two times of two numbers each, and then what was resident at most. */
    long usage[18] = {0};
    getrusage(0, usage);
    dprintf(file, "%lu growths, %lu refused\n%ld kilobytes resident\n", growths, refused, usage[4]);
    close(file);
}

/* The kit's runtime ends by this call. */
void _exit(int status) {
    end();
    syscall(OF_EXIT_GROUP, status);
    __builtin_unreachable();
}

static int failed(int error) {
    *__errno_location() = error;
    return -1;
}

/* Has what is written to `to` go to a new file, behind what stands in the file `from`, if there is one. */
static void write_anew(const char *from, int to, const char *name) {
    static char bytes[1 << 16];
    int was = open(from, 0), file = open(name, ANEW, 0644);
    long taken;
    if (file < 0) _exit(UNABLE);
    while (was >= 0 && (taken = syscall(OF_READ, was, bytes, sizeof bytes)) > 0)
        if (syscall(OF_WRITE, file, bytes, taken) != taken) _exit(UNABLE);
    close(was);
    if (to >= 0) dup2(file, to);
    close(file);
}

/* Has the copy work in a folder of its own. */
static void move_to(unsigned long n) {
    char name[512], kept[512];
    int has_file = open("f", 0);
    snprintf(name, sizeof name, "%s/%lu", folder, n);
    snprintf(kept, sizeof kept, "%s/f", name);
    if (mkdir(name, 0755)) _exit(UNABLE);
    if (has_file >= 0) write_anew("f", -1, kept);
    close(has_file);
    if (chdir(name)) _exit(UNABLE);
    write_anew("/proc/self/fd/1", 1, "out");
    write_anew("/proc/self/fd/2", 2, "err");
}

/* Notes how the copy ended that was refused the N-th growth. */
static void note(unsigned long n, int child) {
    int status = 0, file = log_name ? open(log_name, APPENDED, 0644) : -1;
    if (child < 0 || waitpid(child, &status, 0) != child) status = UNABLE << 8;
    dprintf(file, "growth %lu ends %d\n", n, status & 127 ? 128 + (status & 127) : status >> 8 & 255);
    close(file);
}

/* Whether this is the copy of the process that is refused the N-th growth. */
static int is_copy(unsigned long n) {
    int child;
    if (n > each_to || has_threads) return 0;
    is_apart = 1;
    child = fork();
    if (child) note(n, child);
    else {
        each_to = 0;
        log_name = 0;
        alarm(MOST_SECONDS);
        if (folder) move_to(n);
    }
    is_apart = 0;
    return !child;
}

/* Whether one more growth is refused. What is asked for on the way of a copy or of the log is none. */
static int refuses(void) {
    unsigned long n = is_apart ? 0 : __atomic_add_fetch(&growths, 1, __ATOMIC_SEQ_CST);
    int is_armed = n == __atomic_load_n(&armed_at, __ATOMIC_SEQ_CST);
    if (!n) return 0;
    if (is_copy(n)) growth_at = n;
    if (!is_armed && n != growth_at) return 0;
    if (is_armed) was_refused = 1;
    __atomic_add_fetch(&refused, 1, __ATOMIC_SEQ_CST);
    failed(OF_ENOMEM);
    return 1;
}

/* Takes what a test asks for, and says whether its request is met. */
static int is_met(size bytes) {
    int met = bytes == COMMAND && was_refused;
    if (bytes >= COMMAND + MEASURE) {
        failed(OF_ENOMEM);
        return __atomic_load_n(&standing, __ATOMIC_SEQ_CST) <= bytes - COMMAND - MEASURE;
    }
    was_refused = 0;
    __atomic_store_n(&armed_at, bytes == COMMAND ? 0 : __atomic_load_n(&growths, __ATOMIC_SEQ_CST) + (bytes - COMMAND), __ATOMIC_SEQ_CST);
    failed(OF_ENOMEM);
    return met;
}

/* The block, which stands from now on. */
static void *counted(void *block) {
    if (block) __atomic_add_fetch(&standing, malloc_usable_size(block), __ATOMIC_SEQ_CST);
    return block;
}

/* Counts that a block of so many bytes stands no more. */
static void uncount(size bytes) { __atomic_sub_fetch(&standing, bytes, __ATOMIC_SEQ_CST); }

void *malloc(size bytes) {
    if (bytes >= COMMAND) return is_met(bytes) ? counted(__libc_malloc(1)) : 0;
    return refuses() ? 0 : counted(__libc_malloc(bytes));
}

void *calloc(size count, size bytes) {
    return refuses() ? 0 : counted(__libc_calloc(count, bytes));
}

void *realloc(void *block, size bytes) {
    size before = block ? malloc_usable_size(block) : 0;
    void *grown;
    if (refuses()) return 0;
    grown = __libc_realloc(block, bytes);
    if (grown || !bytes) uncount(before);
    return counted(grown);
}

void free(void *block) {
    if (block) uncount(malloc_usable_size(block));
    __libc_free(block);
}

/* Whether this call is the one that is interrupted: each other of its kind. */
static int is_turn(int *turn) { return is_interrupted && (*turn = !*turn); }

long write(int file, const void *bytes, size count) {
    static int turn;
    if (is_turn(&turn)) return failed(OF_EINTR);
    if (++writes == write_at) return failed(OF_ENOSPC);
    return syscall(OF_WRITE, file, bytes, is_short && count > 1 ? 1 : count);
}

long read(int file, void *bytes, size count) {
    static int turn;
    if (is_turn(&turn)) return failed(OF_EINTR);
    return syscall(OF_READ, file, bytes, is_short && count > 1 ? 1 : count);
}

int pthread_create(void *thread, const void *how, void *(*run)(void *), void *with) {
    static int (*next)(void *, const void *, void *(*)(void *), void *);
    if (has_no_threads) return OF_EAGAIN;
    has_threads = 1;
    if (!next) next = (int (*)(void *, const void *, void *(*)(void *), void *))dlsym((void *)-1L, "pthread_create");
    return next(thread, how, run, with);
}
