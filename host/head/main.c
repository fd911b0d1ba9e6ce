/* What a head's firmware does with the library, and what it must survive. Prints a line for each thing shown; the status is 0 only if all of them held. */
#include "head.h"

int main(void) {
    show_the_header();
    show_the_example();
    show_two_heads();
    show_bad_images();
    show_refusals();
    show_resistors();
    show_thermistors();
    show_editions();
    show_registers();
    show_runs();
    return failures != 0;
}
