; The second module prints the text at DS:DX, up to a dollar sign, and counts it.
;
;       nasm -f obj say.asm -o say.obj

        cpu     8086

        global  say, said

        group   program text data memory

        segment text public align=1 class=CODE
say:
        mov     ah, 9
        int     21h
        inc     byte [said wrt program]
        ret

        segment data public align=2 class=DATA
said:   db      0

        segment memory public align=2 class=BSS
        resb    64
