/* A sheet's file as a line for the Load button: frames <SHEET >LINE
 * Before every 1,024 bytes, and before what is left at the end, stands their number in four bytes, the largest first. */
#include <stdint.h>
#include <stdio.h>

enum { BLOCK = 1024 };

int main(void)
{
    unsigned char frame[4 + BLOCK];
    size_t length;
    for (uint32_t number = 0; (length = fread(frame + 4, 1, BLOCK, stdin)) > 0; number++) {
        for (int i = 0; i < 4; i++)
            frame[i] = (unsigned char)(number >> (24 - 8 * i));
        fwrite(frame, 1, 4 + length, stdout);
    }
    return ferror(stdin) || fflush(stdout) != 0 || ferror(stdout) ? 1 : 0;
}
