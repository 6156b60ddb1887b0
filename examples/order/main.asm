; The first of two modules: it has its BSS before its data, and its data before its code. The linker puts them in DOS order: code, data, BSS, stack. The program
; clears its BSS, from _edata to _end, two names that the linker defines; it shows a text, and exits with the number of bytes from _edata to _end.
;
;       nasm -f obj main.asm -o main.obj

        cpu     8086

        extern  _edata, _end, show, shown

        group   DGROUP _DATA _BSS

        segment _BSS public align=2 class=BSS
count:  resw    1

        segment _DATA public align=2 class=DATA
text:   db      'order: code, data, BSS, stack', 13, 10, '$'

        segment _TEXT public align=1 class=CODE
..start:
        mov     ax, DGROUP
        mov     ds, ax
        mov     es, ax
        mov     di, _edata
        mov     cx, _end
        sub     cx, di
        xor     al, al
        cld
        rep     stosb
        mov     dx, text wrt DGROUP
        call    show
        inc     word [count wrt DGROUP]
        mov     ax, [shown wrt DGROUP]
        cmp     ax, [count wrt DGROUP]
        jne     failed
        mov     ax, _end
        sub     ax, _edata
        mov     ah, 4Ch
        int     21h
failed:
        mov     ax, 4C63h
        int     21h

        segment STACK stack align=16 class=STACK
        resb    256
