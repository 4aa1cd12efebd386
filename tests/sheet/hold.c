#include "hold.h"

#include <fcntl.h>
#include <inttypes.h>
#include <stdio.h>
#include <stdlib.h>
#include <string.h>
#include <sys/wait.h>
#include <unistd.h>

#include "faults.h"
#include "paper.h"

enum { PATH = 4096, MOST_WORDS = 8, LAST_REFUSAL = BT_REFUSED_RULE };

static const char *folder;
static char *program[MOST_WORDS + 2]; /* its words, room for the file's name, NULL */
static size_t words;
static char case_path[PATH];
static u64 cases, sheets, faults, refused[LAST_REFUSAL + 1]; /* by number */

static void stop(const char *why)
{
    fprintf(stderr, "sheet: %s\n", why);
    exit(2);
}

static const char *in_folder(char *path, const char *name)
{
    if (snprintf(path, PATH, "%s/%s", folder, name) >= PATH)
        stop("the folder's name is too long");
    return path;
}

void hold_in(const char *where)
{
    static char lines[MOST_WORDS][PATH];
    folder = where;
    in_folder(case_path, "case.txt");
    for (words = 0; words < MOST_WORDS && fgets(lines[words], PATH, stdin); words++) {
        lines[words][strcspn(lines[words], "\n")] = '\0';
        program[words] = lines[words];
    }
    program[words] = case_path;
    if (words == 0)
        stop("standard input has no words that run the program");
}

/* ---- One run */

static void save(const char *name, const char *bytes, size_t len)
{
    char path[PATH];
    FILE *to = fopen(in_folder(path, name), "wb");
    if (!to || fwrite(bytes, 1, len, to) != len || fclose(to) != 0)
        stop("a file of a case cannot be written");
}

static void load(const char *name, char *text)
{
    char path[PATH];
    FILE *from = fopen(in_folder(path, name), "rb");
    if (!from)
        stop("a stream of the program cannot be read");
    text[fread(text, 1, TEXT - 1, from)] = '\0';
    fclose(from);
}

static void into(int stream, const char *name)
{
    char path[PATH];
    int to = open(in_folder(path, name), O_WRONLY | O_CREAT | O_TRUNC, 0666);
    if (to < 0 || dup2(to, stream) < 0)
        _exit(126);
}

/* Runs the program on the case's file, its two streams into files. */
static void run_program(void)
{
    int status;
    fflush(NULL);
    pid_t child = fork();
    if (child == 0) {
        into(STDOUT_FILENO, "out");
        into(STDERR_FILENO, "err");
        execv(program[0], program);
        _exit(127);
    }
    if (child < 0 || waitpid(child, &status, 0) != child)
        stop("the program cannot be run");
    if (!WIFEXITED(status) || WEXITSTATUS(status) != 0)
        stop("the program does not end well");
}

/* One stream has what is due, the other nothing. */
static void hold(const char *kind, const struct file *f, const char *due, bool sheet)
{
    static char out[TEXT], err[TEXT];
    cases++;
    save("case.txt", f->bytes, f->len);
    run_program();
    load("out", out);
    load("err", err);
    if (strcmp(sheet ? out : err, due) == 0 && *(sheet ? err : out) == '\0')
        return;
    save("due", due, strlen(due));
    fprintf(stderr, "sheet: case %" PRIu64 " (%s) differs: in %s, case.txt gives out and err, and due is what it must "
            "give\n", cases, kind, folder);
    exit(1);
}

/* ---- What is due */

static const char *fault_line(size_t line, const char *fault, const struct word *w, const char *limit)
{
    static char due[TEXT];
    const char *name = w ? w->name : "the end of the file";
    snprintf(due, sizeof due, "%s: line %zu: %s%s%s\n", case_path, line, fault, name, limit);
    return due;
}

void hold_site(const char *kind, struct site *s, struct prng *r)
{
    static struct file f;
    static char due[TEXT];
    sayable(s);
    words_of(s, &f);
    if (!write_words(&f, r))
        stop("a case is longer than a file may be");
    const struct word *w = too_large(&f);
    if (w) {
        faults++;
        hold(kind, &f, fault_line(w->line, "too large: ", w, w->limit), false);
        return;
    }
    u64 number = paper(s, due, sizeof due);
    if (number == 0)
        sheets++;
    else
        refused[number]++;
    hold(kind, &f, due, number == 0);
}

void hold_fault(const char *kind, const struct file *f, size_t i, size_t line, const char *fault)
{
    faults++;
    hold(kind, f, fault_line(line, fault, i < f->count ? &f->words[i] : NULL, ""), false);
}

bool report(void)
{
    u64 refusals = 0;
    bool all = sheets > 0;
    for (size_t i = 0; i < STUDY_FAULTS; i++) {
        int n = FAULTS[i].number;
        refusals += refused[n];
        all = all && refused[n] > 0;
        if (refused[n] == 0)
            fprintf(stderr, "sheet: refusal %d is in no case\n", n);
    }
    printf("sheet: %" PRIu64 " files print what the reference has for them: %" PRIu64 " sheets, %" PRIu64 " refusals, %"
           PRIu64 " faults\n", cases, sheets, refusals, faults);
    return all;
}
