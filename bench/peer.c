/* The main of every peer: `PEER [BITS]` answers the lines of standard input, as reckon does. */
#include "shared.h"

#include <stdlib.h>

int main(int count, char **words)
{
    prepare(count > 1 ? atol(words[1]) : 53);
    return serve(work);
}
