/* Opens a blank chip at the places of AN1449's example, counts three turns and reads them back. Prints: count 3 */
#include <stdio.h>
#include <string.h>
#include "../include/lyre.h"

int main(void)
{
    uint8_t image[129];
    uint32_t lives[129];
    memset(image, 0xFF, sizeof image);
    for (int i = 0; i < 129; i++)
        lives[i] = 1000;
    uint32_t refused = lyre_open(image, 129, lives, 129, 1, 25, 128).code;
    for (int turn = 0; turn < 3 && refused == 0; turn++)
        refused = lyre_step(image, 129, lives, 129, 1, 25, 128).code;
    lyre_read_answer answer = lyre_read(image, 129, 1, 25, 128);
    printf("count %u\n", answer.count);
    return refused != 0 || answer.code != 0;
}
