/* Put before a program by the loader: paints the stack before the program's main function, and afterwards tells on
   standard error how many bytes below its arguments the program has taken. */
#include "painted.h"

extern long write(int, const void *, unsigned long);

static unsigned long arguments, top;

__attribute__((constructor)) static void begin(int count, char **argument) {
    (void)count;
    reach();
    arguments = (unsigned long)argument;
    top = ((unsigned long)__builtin_frame_address(0) - 4096) & ~7ul;
    paint(top);
}

__attribute__((destructor)) static void end(void) {
    char text[24];
    int at = sizeof text;
    unsigned long place = lowest(top), bytes = place > top - PAINTED ? arguments - place : 0;
    text[--at] = '\n';
    do text[--at] = '0' + bytes % 10; while (bytes /= 10);
    write(2, text + at, sizeof text - at);
}
