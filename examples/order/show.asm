; The second of two modules: it shows a text, and counts the texts that it showed.
;
;       nasm -f obj show.asm -o show.obj

        cpu     8086

        global  show, shown

        group   DGROUP _BSS

        segment _TEXT public align=1 class=CODE
show:
        mov     ah, 9
        int     21h
        inc     word [shown wrt DGROUP]
        ret

        segment _BSS public align=2 class=BSS
shown:  resw    1
buffer: resb    3
