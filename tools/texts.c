/* Hands a program each beginning of a text, and each text that differs from it in one byte. It is loaded before the program
   (LD_PRELOAD), which reads its text from standard input: each run is a copy of the process as it stands before `main`, so it costs
   a fraction of a millisecond. It asks for no header, so that the kit's own clang compiles it.

   TEXTS_TRACE or TEXTS_CERTIFICATE names the file of the text, and TEXTS_BYTES has the bytes that are tried at each place. A beginning
   of a trace is answered with a whole report, or refused at the line in which it ends, or at the next where that is missing; a
   beginning of a certificate is refused as cut, at the line in which it ends. A text with another byte is answered with a whole report
   or verdict, or refused at a line. The one line that is written says how many texts there were, and how many were answered
   otherwise; the status is 0 where none was.

   With TEXTS_THREADS the runs are by threads, and a whole report ends with its audit. */

typedef unsigned long size;

char *getenv(const char *);
int fork(void);
int waitpid(int, int *, int);
unsigned alarm(unsigned);
void _exit(int) __attribute__((noreturn));
int open(const char *, int, ...);
int dup2(int, int);
int close(int);
long read(int, void *, size);
long write(int, const void *, size);
long lseek(int, long, int);
int ftruncate(int, long);
int memfd_create(const char *, unsigned);
int dprintf(int, const char *, ...);

enum { MOST = 1 << 20, MOST_SECONDS = 20, UNABLE = 70 };

struct text {
    char bytes[MOST];
    long length;
};

static struct text text, out, err;
static int is_trace, is_by_threads, in_file, out_file, err_file;

static void read_all(int file, struct text *to) {
    long taken;
    lseek(file, 0, 0);
    to->length = 0;
    while (to->length < MOST && (taken = read(file, to->bytes + to->length, (size)(MOST - to->length))) > 0) to->length += taken;
}

static void empty(int file) {
    if (ftruncate(file, 0) || lseek(file, 0, 0)) _exit(UNABLE);
}

static int begins(const char *bytes, const char *with) {
    while (*with)
        if (*bytes++ != *with++) return 0;
    return 1;
}

/* Whether the bytes up to the line feed are one of these words. */
static int is_one_of(const char *bytes, const char *words) {
    for (;;) {
        const char *at = bytes;
        while (*words && *words != ' ' && *at == *words) at++, words++;
        if (*at == '\n' && (*words == ' ' || !*words)) return 1;
        while (*words && *words != ' ') words++;
        if (!*words++) return 0;
    }
}

/* The line that is refused, where standard error is `line N: CAUSE` with one of these causes; else 0. */
static long refused_line(const char *causes) {
    const char *at = err.bytes + 5;
    long line = 0;
    if (!begins(err.bytes, "line ")) return 0;
    while (*at >= '0' && *at <= '9') line = 10 * line + *at++ - '0';
    return begins(at, ": ") && is_one_of(at + 2, causes) ? line : 0;
}

static int is_refused_at_some_line(void) {
    return refused_line(is_trace ? "header form limit thread ended adopt bound unknown early" : "cut form limit set order tail version") > 0;
}

/* Whether the beginning is refused at its last line; where a further line of the header or the mark of an adoption is missing, at the next. */
static int is_refused_at(long last) {
    if (!is_trace) return refused_line("cut") == last;
    return is_refused_at_some_line() && (refused_line("header adopt") == last + 1 || refused_line("header form limit thread ended adopt bound unknown early") == last);
}

/* The place at which the line of standard output begins whose line feed stands at that place. */
static long line_to(long end) {
    while (end > 0 && out.bytes[end - 1] != '\n') end--;
    return end;
}

/* Whether the last line of standard output, or the one before the audit, is that of a report's or a
   verdict's end. */
static int is_whole(void) {
    long end = out.length - 1;
    if (out.length == 0 || out.bytes[end] != '\n') return 0;
    if (is_by_threads) {
        end = line_to(end) - 1;
        if (end < 0 || !begins(out.bytes + end + 1, "audit ok\n")) return 0;
    }
    return begins(out.bytes + line_to(end), is_trace ? "end pages " : "accepted folds ");
}

/* What a run of the program came to. */
struct ended {
    int with_report, with_line, with_no;
};

/* Runs the program over what stands in `in_file`: its own copy of the process returns with 1, and goes on to `main`. */
static int is_run(struct ended *ended) {
    int status = 0, child;
    empty(out_file);
    empty(err_file);
    lseek(in_file, 0, 0);
    child = fork();
    if (child == 0) {
        dup2(in_file, 0);
        dup2(out_file, 1);
        dup2(err_file, 2);
        alarm(MOST_SECONDS);
        return 1;
    }
    if (child < 0 || waitpid(child, &status, 0) != child) _exit(UNABLE);
    read_all(out_file, &out);
    read_all(err_file, &err);
    out.bytes[out.length < MOST ? out.length : MOST - 1] = 0;
    err.bytes[err.length < MOST ? err.length : MOST - 1] = 0;
    ended->with_report = status == 0 && err.length == 0 && is_whole();
    ended->with_line = status == 1 << 8 && out.length == 0 && err.length > 0;
    ended->with_no = status == 1 << 8 && err.length == 0 && !is_trace && begins(out.bytes, "rejected\n");
    return 0;
}

static void put(long length, long at, char byte) {
    char was = text.bytes[at];
    empty(in_file);
    text.bytes[at] = byte;
    if (write(in_file, text.bytes, (size)length) != length) _exit(UNABLE);
    text.bytes[at] = was;
}

__attribute__((constructor)) static void begin(void) {
    const char *trace = getenv("TEXTS_TRACE"), *name = trace ? trace : getenv("TEXTS_CERTIFICATE"), *bytes = getenv("TEXTS_BYTES");
    long line = 1, tried = 0, wrong = 0;
    struct ended ended;
    int file;
    if (!name) return;
    is_trace = trace != 0;
    is_by_threads = getenv("TEXTS_THREADS") != 0;
    file = open(name, 0);
    in_file = memfd_create("in", 0), out_file = memfd_create("out", 0), err_file = memfd_create("err", 0);
    if (file < 0 || in_file < 0 || out_file < 0 || err_file < 0) _exit(UNABLE);
    read_all(file, &text);
    for (long at = 0; at < text.length; at++) {
        put(at, at, text.bytes[at]);
        if (is_run(&ended)) return;
        tried++;
        if (!(is_trace && ended.with_report) && !(ended.with_line && is_refused_at(line))) {
            if (wrong++ < 3) dprintf(2, "texts: the first %ld bytes of %s: %.200s\n", at, name, err.bytes);
        }
        for (const char *byte = bytes; byte && *byte; byte++) {
            put(text.length, at, *byte);
            if (is_run(&ended)) return;
            tried++;
            if (!ended.with_report && !ended.with_no && !(ended.with_line && is_refused_at_some_line())) {
                if (wrong++ < 3) dprintf(2, "texts: byte %ld of %s as %d: %.200s\n", at, name, *byte, err.bytes);
            }
        }
        if (text.bytes[at] == '\n') line++;
    }
    dprintf(1, "texts: %s: %ld texts, %ld answered wrongly\n", name, tried, wrong);
    _exit(wrong != 0);
}
