; The first of two modules: a .COM program, in one segment of 64 KB. DOS loads it at offset 100H of a segment of its choice; the 256 bytes
; before it are reserved here. It shows two texts by near calls, and exits with the number of texts that were shown.
;
;       nasm -f obj hello.asm -o hello.obj

        cpu     8086

        extern  say, said

        group   program text data memory

        segment text public align=1 class=CODE
        resb    100h
..start:
        mov     dx, greeting wrt program
        call    say
        mov     dx, farewell wrt program
        call    say
        mov     al, [said wrt program]
        mov     ah, 4Ch
        int     21h

        segment data public align=2 class=DATA
greeting:
        db      'hello: a program without a header', 13, 10, '$'
farewell:
        db      'hello: at 100H of its segment', 13, 10, '$'

        segment memory public align=2 class=BSS
