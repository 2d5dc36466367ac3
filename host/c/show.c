/* Opens the deck in a file and presses some keys, the last ones from bytes as a terminal sends them. Prints what each call answers and the
 * bytes that a terminal is sent then, and at the end the document. */
#include <stdio.h>
#include <stdlib.h>
#include <string.h>

#include "chidukwore.h"

enum { T = 16, ROWS = 2, COLUMNS = 4 };
static uint8_t text[T], recall[T], held[T], side[4096], old[1024], screen[ROWS * COLUMNS];
static uint8_t buffer[ROWS * (COLUMNS + 7) + 9];
static struct chidukwore_record record;

/* A file, to the front of the text store. One that is longer than T bytes is given the length T + 1: opening refuses that with LONG. */
static size_t load(FILE *file)
{
    size_t n = fread(text, 1, T, file);
    return n + (fgetc(file) != EOF);
}

/* The document: what is left of the cursor, from the front of the store, then what is right of it, from the back. */
static void save(FILE *file)
{
    fwrite(text, 1, record.l, file);
    fwrite(text + T - record.r, 1, record.r, file);
}

/* The bytes for a terminal, with ESC as \e. */
static void send(struct chidukwore_answer a)
{
    struct chidukwore_painting painting =
        chidukwore_paint(ROWS, COLUMNS, a.first, a.last, a.row, a.column, screen, sizeof screen, buffer, sizeof buffer);
    if (painting.code != CHIDUKWORE_OK) {
        fprintf(stderr, "the painting is refused: %zu\n", painting.code);
        exit(EXIT_FAILURE);
    }
    printf("  sends ");
    for (size_t i = 0; i < painting.count; i++)
        buffer[i] == 27 ? printf("\\e") : putchar(buffer[i]);
    printf("\n");
}

static size_t print(const char *what, struct chidukwore_reply reply)
{
    struct chidukwore_answer a = reply.answer;
    record = reply.record;
    if (a.code != CHIDUKWORE_OK) {
        printf("%s: refused %zu\n", what, a.code);
        return a.code;
    }
    printf("%s: steps %zu, lines %zu, bell %zu, rows %zu to %zu, cursor %zu %zu\n", what, a.steps, a.lines, a.bell, a.first, a.last, a.row,
           a.column);
    send(a);
    return a.code;
}

static void key(const char *what, size_t kind, size_t a, size_t b, size_t c)
{
    print(what, chidukwore_key(record, kind, a, b, c, text, T, recall, T, held, T, side, sizeof side, screen, sizeof screen));
}

/* The same session as an old core would have left it: its quarters have 256 bytes, and the pattern is in the third. */
static void convert(void)
{
    old[512] = '2';
    struct chidukwore_reply reply =
        chidukwore_convert(record, text, T, recall, T, held, T, old, sizeof old, side, sizeof side);
    record = reply.record;
    printf("convert: code %zu, pattern %c\n", reply.answer.code, side[2048]);
}

/* Bytes from a terminal, in a piece of at most 14. They come behind those that wait, at most 2, and each key is pressed as soon as it is
 * there; what is no key is left out. */
static void receive(const char *piece)
{
    static uint8_t bytes[16];
    static size_t waiting;
    size_t length = waiting + strlen(piece), at = 0;
    memcpy(bytes + waiting, piece, strlen(piece));
    for (;;) {
        struct chidukwore_heard heard = chidukwore_receive(bytes + at, length - at);
        if (heard.used == 0)
            break;
        at += heard.used;
        printf("%zu received, ", heard.used);
        if (heard.code != CHIDUKWORE_OK)
            printf("no key: refused %zu\n", heard.code);
        else
            key("a key", heard.kind, heard.a, heard.b, heard.c);
    }
    waiting = length - at;
    memmove(bytes, bytes + at, waiting);
    printf("waiting for more: %zu\n", waiting);
}

int main(int argc, char **argv)
{
    FILE *deck = argc == 2 ? fopen(argv[1], "rb") : NULL;
    if (deck == NULL) {
        fprintf(stderr, "usage: show DECK, a file\n");
        return EXIT_FAILURE;
    }
    size_t n = load(deck);
    if (ferror(deck)) {
        perror(argv[1]);
        return EXIT_FAILURE;
    }
    if (print("open", chidukwore_open(n, ROWS, COLUMNS, text, T, recall, T, held, T, side, sizeof side, screen, sizeof screen)) !=
        CHIDUKWORE_OK)
        return EXIT_FAILURE;
    key("left to a line ending", CHIDUKWORE_FUNCTION, CHIDUKWORE_MOVE, CHIDUKWORE_LEFT, CHIDUKWORE_LINE_ENDING);
    key("right to a line ending", CHIDUKWORE_FUNCTION, CHIDUKWORE_MOVE, CHIDUKWORE_RIGHT, CHIDUKWORE_LINE_ENDING);
    key("quote", CHIDUKWORE_QUOTE, 0, 0, 0);
    key("insert 2", CHIDUKWORE_INSERT, '2', 0, 0);
    key("find", CHIDUKWORE_FIND, CHIDUKWORE_RIGHT, 0, 0);
    convert();
    key("delete right to a line beginning", CHIDUKWORE_FUNCTION, CHIDUKWORE_DELETE, CHIDUKWORE_RIGHT, CHIDUKWORE_LINE_BEGINNING);
    key("delete right to a line ending", CHIDUKWORE_FUNCTION, CHIDUKWORE_DELETE, CHIDUKWORE_RIGHT, CHIDUKWORE_LINE_ENDING);
    key("recall", CHIDUKWORE_RECALL, 0, 0, 0);
    key("right", CHIDUKWORE_FUNCTION, CHIDUKWORE_MOVE, CHIDUKWORE_RIGHT, CHIDUKWORE_CHARACTER);
    key("insert 5", CHIDUKWORE_INSERT, '5', 0, 0);
    key("cut without a mark", CHIDUKWORE_CUT, 0, 0, 0);
    key("left to a line beginning", CHIDUKWORE_FUNCTION, CHIDUKWORE_MOVE, CHIDUKWORE_LEFT, CHIDUKWORE_LINE_BEGINNING);
    key("mark", CHIDUKWORE_MARK, 0, 0, 0);
    key("right to a line beginning", CHIDUKWORE_FUNCTION, CHIDUKWORE_MOVE, CHIDUKWORE_RIGHT, CHIDUKWORE_LINE_BEGINNING);
    key("cut", CHIDUKWORE_CUT, 0, 0, 0);
    key("left to the document's beginning", CHIDUKWORE_FUNCTION, CHIDUKWORE_MOVE, CHIDUKWORE_LEFT, CHIDUKWORE_DOCUMENT);
    key("paste", CHIDUKWORE_PASTE, 0, 0, 0);
    key("paste once more", CHIDUKWORE_PASTE, 0, 0, 0);
    key("tab without room", CHIDUKWORE_TAB, 0, 0, 0);
    key("insert a space", CHIDUKWORE_INSERT, ' ', 0, 0);
    key("newline", CHIDUKWORE_NEWLINE, 0, 0, 0);
    key("quote again", CHIDUKWORE_QUOTE, 0, 0, 0);
    key("tab in the quotation", CHIDUKWORE_TAB, 0, 0, 0);
    key("newline in the quotation", CHIDUKWORE_NEWLINE, 0, 0, 0);
    key("no key", 99, 0, 0, 0);
    receive("\033q\177\t\033[");
    receive("H\r\033\033x\033");
    printf("document:\n");
    save(stdout);
    return 0;
}
