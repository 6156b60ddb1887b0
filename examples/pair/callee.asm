; The second of two modules that call one another: it prints a text by the first module's `put`, and has a text of its own.
;
;       nasm -f obj callee.asm -o callee.obj

        cpu     8086

        global  say, farewell
        extern  put

        segment callee align=16 class=CODE
say:    lodsb                           ; the bytes at DS:SI, to the 0 after them
        or      al, al
        jz      .said
        call    far put                 ; a far pointer back into the first module
        jmp     say
.said:  retf

farewell:
        db      'and back from the second', 13, 10, 0
