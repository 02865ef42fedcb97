/* A line of text. */
#include "window.h"

int main(void)
{
    put_text("Hello from a core.\n");
    return 0;
}
