/* libvterm behind a pipe: vterm ROWS COLUMNS. Reads a line with a number and then as many bytes, feeds them to the emulator, and writes
 * the cursor's row and column, from 1, and the rows. Again and again, until its input ends. */
#include <stdio.h>
#include <stdlib.h>
#include <vterm.h>

int main(int count, char **words)
{
    if (count != 3)
        return 2;
    int rows = atoi(words[1]), columns = atoi(words[2]);
    VTerm *terminal = vterm_new(rows, columns);
    VTermScreen *screen = vterm_obtain_screen(terminal);
    VTermState *state = vterm_obtain_state(terminal);
    vterm_screen_reset(screen, 1);
    size_t length;
    while (scanf("%zu", &length) == 1 && getchar() == '\n') {
        char *bytes = malloc(length + 1);
        if (bytes == NULL || fread(bytes, 1, length, stdin) != length)
            return 1;
        vterm_input_write(terminal, bytes, length);
        free(bytes);
        VTermPos at;
        vterm_state_get_cursorpos(state, &at);
        printf("%d %d\n", at.row + 1, at.col + 1);
        for (int row = 0; row < rows; row++) {
            for (int column = 0; column < columns; column++) {
                VTermScreenCell cell;
                vterm_screen_get_cell(screen, (VTermPos){row, column}, &cell);
                /* A cell that was never written has no character. */
                putchar(cell.chars[0] == 0 ? ' ' : cell.chars[0] < 127 ? (int)cell.chars[0] : '?');
            }
            putchar('\n');
        }
        fflush(stdout);
    }
    vterm_free(terminal);
    return 0;
}
