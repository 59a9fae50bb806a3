# The start of a freestanding program: calls main and exits with its result; getchar and putchar are requests.
        .set    noreorder
        .text
        .globl  _start
_start: jal     main
        nop
        move    $4, $2
        li      $2, 3
        syscall
        nop
        .globl  getchar
getchar:
        li      $2, 1
        syscall
        jr      $31
        nop
        .globl  putchar
putchar:
        li      $2, 2
        syscall
        jr      $31
        nop
