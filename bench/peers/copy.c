/* Reads standard input to its end, and then writes it to standard output, on one thread, and does nothing else. */
#include <stdlib.h>
#include <unistd.h>

enum { SIZE = 1 << 18, MOST = 1 << 18 };

int main(void)
{
    char **blocks = malloc(MOST * sizeof *blocks);
    size_t count = 0, last = SIZE;
    if (!blocks)
        return 5;
    while (last == SIZE) {
        if (count == MOST || !(blocks[count] = malloc(SIZE)))
            return 5;
        for (last = 0; last < SIZE;) {
            ssize_t some = read(0, blocks[count] + last, SIZE - last);
            if (some < 0)
                return 3;
            if (!some)
                break;
            last += some;
        }
        count++;
    }
    for (size_t at = 0; at < count; at++) {
        size_t size = at + 1 == count ? last : SIZE;
        for (size_t done = 0; done < size;) {
            ssize_t some = write(1, blocks[at] + done, size - done);
            if (some < 0)
                return 4;
            done += some;
        }
    }
    return 0;
}
