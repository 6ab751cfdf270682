/* Writes and reads as many segments of 8 KiB as bench/swaps moves, through a file, with a copy of each between memory and what is written or
   read; the file is the word behind the program, and the number of segments the next one. */
#include <fcntl.h>
#include <stdlib.h>
#include <string.h>
#include <unistd.h>

enum { SIZE = 8192, HELD = 127, BLOCKS = 514 };

int main(int count, char **words)
{
    static char memory[HELD * SIZE], window[SIZE];
    int file = count == 3 ? open(words[1], O_RDWR | O_CREAT | O_TRUNC, 0600) : -1;
    long k, segments = count == 3 ? atol(words[2]) : 0;
    memset(memory, 1, sizeof memory);
    for (k = 0; k < segments; k++) {
        char *at = memory + k % HELD * SIZE;
        memcpy(window, at, SIZE);
        if (lseek(file, k % BLOCKS * SIZE, SEEK_SET) < 0 || write(file, window, SIZE) != SIZE)
            return 1;
        /* the one that is written longest ago, once there is one */
        if (lseek(file, (k < BLOCKS - HELD ? 0 : (k + HELD) % BLOCKS) * SIZE, SEEK_SET) < 0 || read(file, window, SIZE) != SIZE)
            return 1;
        memcpy(at, window, SIZE);
    }
    return 0;
}
