/*
 * rehearse: reads the text of a simulation from standard input and prints what it gives, by vulcedar_rehearse.
 *
 * exit status: 0 the text was run, 1 the text, its table or its plan is refused, 2 wrong usage, or input or output failed
 */
#define _POSIX_C_SOURCE 200112L
#include <stdio.h>
#include <string.h>
#include <unistd.h>

#include "vulcedar.h"

static const char USAGE[] = "usage: rehearse < TEXT      (rehearse --help says more)\n";

static const char HELP[] =
    "usage: rehearse < TEXT\n"
    "\n"
    "Runs the steps of a plan, from a job that has not begun, and prints what comes of them.\n"
    "\n"
    "The text is lines of lowercase hexadecimal digits, at most 32,768 bytes:\n"
    "  six lines of mark and class, then a line ==     a table of classes; without it the common one is used\n"
    "  a line a node: kind and parent (the root's: ff)\n"
    "  a line --\n"
    "  a line a step: code, node, and ff where the event happens, or the number of the site that hears of it\n"
    "Printed are a line a step, 00 where it passed, else why it was refused, and a line a node: its number, kind, mark and\n"
    "class. For a refused text, table or plan its number is printed alone.\n"
    "\n"
    "Example: a plan of one task, which starts and commits\n"
    "  printf '01ff\\n--\\n0100ff\\n0300ff\\n' | rehearse\n"
    "prints 00, 00 and 00010301.\n"
    "\n"
    "  -h, --help     print this\n"
    "  --version      print the version\n"
    "\n"
    "Exit status: 0 the text was run, whether or not its steps passed; 1 the text, its table or its plan is refused;\n"
    "2 wrong usage, or input or output failed.\n";

static const char *meaning(unsigned number)
{
    switch (number) {
    case VULCEDAR_BAD_LENGTH: return "the plan has no node, or more than 160";
    case VULCEDAR_BAD_KIND: return "a kind is not 01 to 08";
    case VULCEDAR_BAD_PARENT: return "the root's parent is not ff, or another node's parent is not below its own number";
    case VULCEDAR_TASK_PARENT: return "a parent is a task";
    case VULCEDAR_BAD_CHILDREN: return "a block has a wrong number of children";
    case VULCEDAR_TOO_DEEP: return "a node is deeper than 32";
    case VULCEDAR_BAD_TEXT: return "the text is malformed or longer than 32,768 bytes";
    case VULCEDAR_BAD_TABLE: return "the table of classes is not one";
    default: return "see docs/RULES.md";
    }
}

/* Everything that was printed has arrived: then this exit status, else 2. */
static int close_output(int status)
{
    int failed = ferror(stdout);
    if (fclose(stdout) != 0 || failed) {
        perror("rehearse: standard output");
        return 2;
    }
    return status;
}

static int rehearse(void)
{
    static uint8_t text[VULCEDAR_TEXT_MOST + 1], out[VULCEDAR_PRINTED_MOST]; /* a longer text is seen to be longer */
    size_t length = fread(text, 1, sizeof text, stdin);
    if (ferror(stdin)) {
        perror("rehearse: standard input");
        return 2;
    }
    uint32_t result = vulcedar_rehearse(text, length, out, sizeof out);
    unsigned number = VULCEDAR_NUMBER(result);
    if (number == VULCEDAR_PASSED) {
        fwrite(out, 1, VULCEDAR_VALUE(result), stdout);
        return close_output(0);
    }
    printf("%02x\n", number);
    if (close_output(1) != 1) {
        return 2;
    }
    fprintf(stderr, "rehearse: refused with %u: %s\n", number, meaning(number));
    return 1;
}

int main(int argc, char **argv)
{
    if (argc == 2 && (strcmp(argv[1], "--help") == 0 || strcmp(argv[1], "-h") == 0)) {
        fputs(HELP, stdout);
        return close_output(0);
    }
    if (argc == 2 && strcmp(argv[1], "--version") == 0) {
        printf("rehearse (Vulcedar) %d.%d.%d\n", VULCEDAR_VERSION_MAJOR, VULCEDAR_VERSION_MINOR, VULCEDAR_VERSION_PATCH);
        return close_output(0);
    }
    if (argc > 1) {
        fputs(USAGE, stderr);
        return 2;
    }
    if (isatty(STDIN_FILENO)) {
        fputs("rehearse: reads a text from standard input, up to its end (rehearse --help says which)\n", stderr);
    }
    return rehearse();
}
