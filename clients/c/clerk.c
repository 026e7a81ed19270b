/*
 * The clerk: reads claims and what is there as text, a command a line, and answers in words. Answers go to standard
 * output, and why a line is not done to standard error.
 */
#define _POSIX_C_SOURCE 200809L /* for isatty and fileno: NOLINT(bugprone-reserved-identifier) */

#include <errno.h>
#include <inttypes.h>
#include <stdarg.h>
#include <stdbool.h>
#include <stdio.h>
#include <string.h>
#include <unistd.h>

#include "desk.h"

/* The most bytes of a line in front of a #, and the most words and numbers of a command. */
enum { MOST_LINE = 200, MOST_WORDS = 3, MOST_NUMBERS = 2 };

/* What comes of a line; the first three are exit statuses, too. */
enum outcome { DONE = 0, NOT_DONE = 1, UNABLE = 2, ENDED };

/* Commands that are no calls. */
enum { HELP = VULLADES_CENTS + 1, QUIT };

struct command {
    uint8_t verb; /* the call, if it is one */
    size_t numbers;
    const char *name;
    const char *usage;
};

struct input {
    FILE *file;
    bool terminal;
    char text[MOST_LINE + 2]; /* what stands in front of a #, as much as fits */
    size_t length;            /* its bytes, one more than MOST_LINE where it is too long */
    uint64_t line;            /* the number of the line, from 1 */
};

/* A byte as it is kept and told: blanks as spaces, and what no command has as a question mark. */
static char harmless(int byte)
{
    if (byte == '\t' || byte == '\r')
        return ' ';
    if (byte < ' ' || byte > '~')
        return '?';
    return (char)byte;
}

/* Makes a text harmless to print. */
static const char *tame(char *text)
{
    for (char *at = text; *at != '\0'; at++)
        *at = harmless((unsigned char)*at);
    return text;
}

/* Tells why a line is not done. */
static enum outcome complain(const struct input *input, const char *format, ...)
{
    va_list rest;

    if (!input->terminal)
        fprintf(stderr, "line %" PRIu64 ": ", input->line);
    va_start(rest, format);
    vfprintf(stderr, format, rest);
    va_end(rest);
    fputc('\n', stderr);
    return NOT_DONE;
}

/* Tells what cannot be used, and why. */
static enum outcome unable(const char *what)
{
    fprintf(stderr, "clerk: %s: %s\n", what, strerror(errno));
    return UNABLE;
}

static enum outcome broken(const struct desk *desk)
{
    fprintf(stderr, "clerk: internal error: the library answered %" PRId64 ", which cannot come\n", desk->answered);
    return UNABLE;
}

static void print_commands(void)
{
    fputs("claim CENTS           one more creditor claims so much\n"
          "prove CREDITOR CENTS  the claim of this creditor is so much from now on\n"
          "come CENTS            so much more is there\n"
          "shares                what each creditor gets, in cents and parts of a cent\n"
          "cents                 what each creditor gets, in whole cents\n"
          "help                  these commands\n"
          "quit                  ends, as the end of input does\n"
          "Creditors are counted from 0: \"prove 0 150\" says that the first one claims 150 cents.\n",
          stdout);
}

static enum outcome print_help(void)
{
    printf("usage: clerk [-n CREDITORS] [FILE]\n"
           "Divides an estate that may leave less than is owed; reads FILE, or standard input.\n"
           "  -n CREDITORS  how many there may be; %d at most, and where it is not said\n"
           "  -h, --help    these words\n"
           "Each line is a command; what stands behind a # is skipped.\n",
           VULLADES_MOST_CREDITORS);
    print_commands();
    return fflush(stdout) == 0 ? ENDED : unable("standard output");
}

/* Tells why the desk did not do a command. */
static enum outcome turned_away(const struct input *input, const struct desk *desk, const struct command *command,
                                const uint64_t *numbers, int refusal)
{
    if (refusal == VULLADES_TOO_LARGE)
        return complain(input, "%" PRIu64 " cents are too many: at most 1,000,000,000 at once",
                        numbers[command->numbers - 1]);
    if (refusal == VULLADES_NOT_THERE)
        return complain(input, "there is no creditor %" PRIu64 ": there %s %zu, counted from 0", numbers[0],
                        desk->creditors == 1 ? "is" : "are", desk->creditors);
    if (refusal == VULLADES_NO_ROOM && command->verb == VULLADES_CLAIM)
        return complain(input, "the desk is for %zu creditor%s only", desk->limit, desk->limit == 1 ? "" : "s");
    if (refusal == VULLADES_NO_ROOM)
        return complain(input, "more than 1,000,000,000,000 cents would be there");
    return broken(desk);
}

/* Enters a claim, a proof or cents that come. */
static enum outcome enter(const struct input *input, struct desk *desk, const struct command *command,
                          const uint64_t *numbers)
{
    const int outcome = desk_enter(desk, command->verb, numbers);

    if (outcome != DESK_DONE)
        return turned_away(input, desk, command, numbers, outcome);
    if (command->verb == VULLADES_CLAIM)
        printf("creditor %zu claims %" PRIu64 "\n", desk->creditors - 1, numbers[0]);
    else if (command->verb == VULLADES_PROVE)
        printf("creditor %" PRIu64 " now claims %" PRIu64 "\n", numbers[0], numbers[1]);
    else if (desk->there == 1)
        puts("there is 1 cent");
    else
        printf("there are %" PRIu64 " cents\n", desk->there);
    return DONE;
}

static uint64_t common_divisor(uint64_t a, uint64_t b)
{
    while (b != 0) {
        const uint64_t rest = a % b;

        a = b;
        b = rest;
    }
    return a;
}

/* Prints so many parts of a cent, as cents and a fraction in lowest terms. */
static void print_amount(size_t creditor, uint64_t amount, uint64_t parts)
{
    const uint64_t whole = amount / parts;
    const uint64_t rest = amount % parts;
    const uint64_t divisor = common_divisor(rest, parts);

    printf("creditor %zu:", creditor);
    if (whole != 0 || rest == 0)
        printf(" %" PRIu64, whole);
    if (rest != 0)
        printf(" %" PRIu64 "/%" PRIu64, rest / divisor, parts / divisor);
    putchar('\n');
}

/* Asks for shares or cents, and prints those of each creditor. */
static enum outcome list(struct desk *desk, const struct command *command)
{
    uint64_t parts = 1;

    if (desk_list(desk, command->verb, &parts) != DESK_DONE)
        return broken(desk);
    if (desk->creditors == 0)
        puts("there are no creditors");
    for (size_t i = 0; i < desk->creditors; i++)
        print_amount(i, desk_amount(desk, i), parts);
    return DONE;
}

static const struct command *find_command(const char *name)
{
    static const struct command commands[] = {
        {VULLADES_CLAIM, 1, "claim", "claim CENTS"},
        {VULLADES_PROVE, 2, "prove", "prove CREDITOR CENTS"},
        {VULLADES_COME, 1, "come", "come CENTS"},
        {VULLADES_SHARES, 0, "shares", "shares"},
        {VULLADES_CENTS, 0, "cents", "cents"},
        {HELP, 0, "help", "help"},
        {QUIT, 0, "quit", "quit"},
    };

    for (size_t i = 0; i < sizeof commands / sizeof commands[0]; i++)
        if (strcmp(name, commands[i].name) == 0)
            return &commands[i];
    return NULL;
}

/* Reads a number; answers NULL, or what is wrong with it. */
static const char *read_number(const char *text, uint64_t *number)
{
    const size_t digits = strspn(text, "0123456789");

    if (digits == 0 || text[digits] != '\0')
        return "is not a number: write digits only";
    *number = 0;
    for (size_t i = 0; i < digits; i++) {
        const uint64_t digit = (uint64_t)(text[i] - '0');

        if (*number > (UINT64_MAX - digit) / 10)
            return "is more than a 64-bit number holds";
        *number = *number * 10 + digit;
    }
    return NULL;
}

/* Splits a text into words, of which it keeps the first few; answers how many there are. */
static size_t split(char *text, char **words)
{
    size_t count = 0;

    for (text += strspn(text, " "); *text != '\0'; text += strspn(text, " ")) {
        if (count < MOST_WORDS)
            words[count] = text;
        count++;
        text += strcspn(text, " ");
        if (*text != '\0')
            *text++ = '\0';
    }
    return count;
}

/* Does what the line that was read says. */
static enum outcome do_line(struct input *input, struct desk *desk)
{
    char *words[MOST_WORDS] = {NULL};
    uint64_t numbers[MOST_NUMBERS] = {0};

    if (input->length > MOST_LINE)
        return complain(input, "the line is too long: at most %d bytes in front of a #", MOST_LINE);
    const size_t count = split(input->text, words);
    if (count == 0)
        return DONE;
    const struct command *command = find_command(words[0]);
    if (command == NULL)
        return complain(input, "%s is not a command: help lists them", words[0]);
    if (count != 1 + command->numbers)
        return complain(input, "too %s words: write %s", count <= command->numbers ? "few" : "many", command->usage);
    for (size_t i = 0; i < command->numbers; i++) {
        const char *wrong = read_number(words[1 + i], &numbers[i]);

        if (wrong != NULL)
            return complain(input, "%s %s", words[1 + i], wrong);
    }
    if (command->numbers > 0)
        return enter(input, desk, command, numbers);
    if (command->verb == VULLADES_SHARES || command->verb == VULLADES_CENTS)
        return list(desk, command);
    if (command->verb == HELP)
        print_commands();
    return command->verb == QUIT ? ENDED : DONE;
}

/* Reads the next line, if there is one; all of it, also where it is too long. */
static bool read_line(struct input *input)
{
    bool comment = false;
    int byte = '\0';

    input->line++;
    input->length = 0;
    while ((byte = getc(input->file)) != EOF && byte != '\n') {
        comment = comment || byte == '#';
        if (!comment && input->length <= MOST_LINE)
            input->text[input->length++] = harmless(byte);
    }
    input->text[input->length] = '\0';
    return !ferror(input->file) && (byte == '\n' || input->length > 0);
}

/* Writes out what was answered, and the prompt where somebody waits for it. */
static bool written(const struct input *input)
{
    if (input->terminal)
        fputs("> ", stdout);
    return fflush(stdout) == 0 && !ferror(stdout);
}

/* Does line after line. At a terminal a line that is not done was seen, and does not count. */
static enum outcome serve(struct input *input, struct desk *desk, const char *name)
{
    enum outcome all = DONE;

    if (input->terminal)
        printf("Clerk for %zu creditors: help lists the commands, quit ends.\n", desk->limit);
    while (written(input) && read_line(input)) {
        const enum outcome outcome = do_line(input, desk);

        if (outcome == UNABLE)
            return UNABLE;
        if (outcome == ENDED)
            return all;
        if (outcome == NOT_DONE && !input->terminal)
            all = NOT_DONE;
    }
    if (ferror(stdout))
        return unable("standard output");
    if (ferror(input->file))
        return unable(name);
    if (input->terminal)
        putchar('\n');
    return all;
}

/* Opens a desk, and serves at it. */
static enum outcome work(size_t limit, FILE *file, const char *name)
{
    struct input input = {.file = file, .terminal = isatty(fileno(file)) == 1};
    struct desk desk;
    const int opened = desk_open(&desk, limit);
    const enum outcome outcome = opened == DESK_DONE        ? serve(&input, &desk, name)
                                 : opened == DESK_NO_MEMORY ? unable("the desk")
                                                            : broken(&desk);

    desk_close(&desk);
    return outcome;
}

/* Tells what is wrong with the arguments. */
static enum outcome misused(const char *what, const char *why)
{
    fprintf(stderr, "clerk: %s %s\nusage: clerk [-n CREDITORS] [FILE]\n", what, why);
    return UNABLE;
}

/* Reads the arguments, up to one that asks for help. */
static enum outcome read_arguments(char **at, uint64_t *limit, char **file)
{
    bool options = true;

    for (; *at != NULL; at++) {
        if (!options || **at != '-' || strcmp(*at, "-") == 0) {
            if (*file != NULL)
                return misused(tame(*at), "is one file too many");
            *file = *at;
        } else if (strncmp(*at, "-n", 2) == 0) {
            const char *number = (*at)[2] != '\0' ? *at + 2 : *++at;

            if (number == NULL || read_number(number, limit) != NULL || *limit > VULLADES_MOST_CREDITORS)
                return misused("-n", "needs a number of creditors, at most 1024");
        } else if (strcmp(*at, "-h") == 0 || strcmp(*at, "--help") == 0) {
            return print_help();
        } else if (strcmp(*at, "--") == 0) {
            options = false;
        } else {
            return misused(tame(*at), "is not an option");
        }
    }
    return DONE;
}

int main(int count, char **argv)
{
    uint64_t limit = VULLADES_MOST_CREDITORS;
    char *name = NULL;
    enum outcome outcome = read_arguments(argv + (count > 0), &limit, &name);

    if (outcome != DONE)
        return outcome == ENDED ? DONE : UNABLE;
    if (name == NULL || strcmp(name, "-") == 0)
        return (int)work((size_t)limit, stdin, "standard input");
    FILE *file = fopen(name, "r");
    if (file == NULL)
        return (int)unable(tame(name));
    outcome = work((size_t)limit, file, tame(name));
    fclose(file);
    return (int)outcome;
}
