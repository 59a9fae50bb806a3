start:  jal     main            # 00400000, the entry
        nop
        addu    $4, $2, $0
        addiu   $2, $0, 3       # the request exit
        syscall
main:   nop                     # 00400014, a stopping point
        lui     $8, 0x1000
        lw      $2, 0($8)       # x
        nop                     # 00400020, a stopping point
        jr      $31
        nop
