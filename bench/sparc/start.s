! The start of a freestanding program: calls main and exits with its result; getchar and putchar are requests.
        .text
        .global _start
_start: call    main
        nop
        ta      19
        nop
        .global getchar
getchar:
        ta      17
        retl
        nop
        .global putchar
putchar:
        ta      18
        retl
        nop
