/* The listing of the record file on standard input (document 01), in plain C99: the measure for the program's speed. */
#include "listing.h"

/* One byte more than the longest file. */
static uint8_t file[50537];

int main(void)
{
    size_t length = fread(file, 1, sizeof file, stdin);
    plain_list(stdout, file, length);
    return 0;
}
