; The second module: show prints the text at the far pointer on the stack, up to a dollar sign, and counts it in data of its own.
;
;       nasm -f obj show.asm -o show.obj

        cpu     8086

        global  show, shown

        segment show_text public align=1 class=CODE
show:
        push    bp
        mov     bp, sp
        push    ds
        lds     dx, [bp + 6]
        mov     ah, 9
        int     21h
        mov     ax, seg shown
        mov     ds, ax
        inc     byte [shown]
        pop     ds
        pop     bp
        retf    4

        segment show_data private align=16 class=FAR_DATA
shown:  db      0
