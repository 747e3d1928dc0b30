/* Checks a flow from standard input: how a program in C uses the library. */
#include <stdio.h>
#include "sflw.h"

int main(void) {
    static uint8_t file[10241];
    sflw_check_answer met;
    size_t size = fread(file, 1, sizeof file, stdin);
    sflw_check(file, size, &met);
    printf("number %u place %u tasks %u total %u version %u\n", met.number, met.place, met.tasks,
           met.total, met.version);
    return met.number != 0;
}
